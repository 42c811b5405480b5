"""What tools/edits.py, tools/contracts.py and tools/definitions.py share: copies of the repository's crates with what `rt check` kept of them, in which
edits are tried one after another.

A check begins with what earlier ones kept, and checks what an edit changes and what stands on that. So what the prover refuses there it refuses in a
check from nothing too, and a wrong program costs what it touches.
"""
import contextlib
import os
import pathlib
import queue
import re
import shutil
import subprocess
import sys

ROOT = pathlib.Path(__file__).resolve().parent.parent
PARTS = ("src", "specs", "proofs")
FUNCTION = re.compile(r"^( *)(?:pub )?(?:extern \"C\" )?fn (\w+)")

# A fact fails: there is no proof of it, it does not follow, something of it is left to prove, or values are known at which it is false ..
FACT = re.compile(r"no proof of|did not prove `|may be false|goal is false|is false at|the goal does not follow|give a proof of that|it is not proved that|`omega`|`grind`|`cc`")
# .. or it is an equation, or what the function ensures, and another one is proved; but not where an answer is of another step of the program.
DIFFER = re.compile(r"the two types (first )?differ|the two types are `Path |expected type `")
STEPS = re.compile(r"types\.Kit|prog\.Wp|expected type `(goal\.|In-|After-|Then-|Else-|Joined-)|has type `(goal\.|[^` ]*\.Lts\.)")
# Said of a name that is gone, which shows nothing of a contract.
NAMES = re.compile(r"is not in scope|has no field|that can be named from here|is no name")
# Said of all that stands on something refused.
FOLLOWS = re.compile(r"was not admitted|was rejected|were rejected|(which|that) (is|are) not proved|it calls `|this file exports no")


def stands_on(name):
    """The crates and the kit's libraries that crates.txt gives a crate."""
    for line in (ROOT / "crates.txt").read_text(encoding="utf-8").splitlines():
        if re.match(rf"{name}( staticlib)?:", line):
            return line.split(":")[1].split()
    sys.exit(f"crates.txt does not list {name}")


def is_ours(name):
    return (ROOT / "crates" / name).is_dir()


def below(name):
    """A crate of ours and all that it stands on."""
    found = [name]
    for one in found:
        found += [d for d in stands_on(one) if is_ours(d) and d not in found]
    return found


def link(one, other):
    """A module that was proved, as a link: a check puts another file in its place, and changes none. Any other file is copied."""
    if one.endswith((".oantt", ".a")):
        with contextlib.suppress(OSError):
            return os.link(one, other)
    return shutil.copy2(one, other)


class Tree:
    """A copy of crates with what checks of them kept."""

    def __init__(self, folder, names):
        self.crates = folder / "crates"
        self.crates.mkdir(parents=True)
        kinds = {line.split(":")[0] for line in (ROOT / "crates.txt").read_text(encoding="utf-8").splitlines() if not line.startswith("#")}
        lines = [f"{kind}: {' '.join(stands_on(kind.split()[0]))}\n" for kind in sorted(kinds) if kind and kind.split()[0] in names]
        (folder / "crates.txt").write_text("".join(lines), encoding="utf-8")
        for name in names:
            shutil.copytree(ROOT / "crates" / name, self.crates / name, copy_function=link, symlinks=True)
        for path in self.crates.glob("*/out/lock*"):
            path.unlink()

    def check(self, name):
        """What the prover says of the crate, and of those below it that changed: its status and its words."""
        done = subprocess.run(["rt", "check"], stdin=subprocess.DEVNULL, stdout=subprocess.PIPE, stderr=subprocess.STDOUT, cwd=self.crates / name)
        lines = done.stdout.decode("utf-8", "replace").splitlines()
        return done.returncode, "\n".join(line for line in lines if not line.startswith("so far:"))

    @contextlib.contextmanager
    def with_texts(self, texts):
        """The crates with other texts for a while: pairs of a place below crates/ and its text."""
        before = {file: (self.crates / file).read_text(encoding="utf-8") for file in texts}
        try:
            for file, text in texts.items():
                (self.crates / file).write_text(text, encoding="utf-8")
            yield
        finally:
            for file, text in before.items():
                (self.crates / file).write_text(text, encoding="utf-8")


class Trees:
    """So many copies, each lent to one at a time."""

    def __init__(self, work, names, jobs):
        self.free = queue.Queue()
        for number in range(jobs):
            self.free.put(Tree(work / str(number), names))

    @contextlib.contextmanager
    def lent(self):
        tree = self.free.get()
        try:
            yield tree
        finally:
            self.free.put(tree)


def jobs():
    """A check takes more than one processor at times, so there are fewer than processors."""
    return int(os.environ.get("RT_JOBS", max(1, (os.cpu_count() or 2) - 1)))


class Sources:
    """A crate and all below it, copied as sources, over the modules that checks of them kept: one run of the prover checks all that an edit reaches."""

    def __init__(self, name, folder):
        self.name, self.folder, self.names = name, folder, below(name)
        self.crates, self.kept = folder / "plain", folder / "kept"
        for one in self.names:
            for part in filter(lambda p: (ROOT / "crates" / one / p).is_dir(), PARTS):
                shutil.copytree(ROOT / "crates" / one / part, self.crates / one / part)
        room = next((ROOT / "crates" / name / "out/incremental").iterdir()).name
        (self.kept / room).mkdir(parents=True)
        for one in self.names:
            self.take(ROOT / "crates" / one / "out", self.kept / room)

    def take(self, out, to):
        """The modules of a crate, from its check and from its library."""
        library = next(out.glob("rlib/*.rlib/toolchain/checked.a"), None)
        if library:
            subprocess.run(["ar", "x", str(library)], cwd=to, stdout=subprocess.DEVNULL, stderr=subprocess.DEVNULL)
        for module in out.glob("incremental/*/*.oantt"):
            if not (to / module.name).exists():
                link(str(module), str(to / module.name))

    def edited(self, label, texts):
        """What the prover says with other texts, of files below crates/: its status and its words."""
        place = self.folder / label
        shutil.copytree(self.crates, place / "crates")
        shutil.copytree(self.kept, place / "kept", copy_function=os.link)
        for file, text in texts.items():
            (place / "crates" / file).write_text(text, encoding="utf-8")
        try:
            return self.ask(place)
        finally:
            shutil.rmtree(place)

    def ask(self, place):
        kit = pathlib.Path(shutil.which("rt")).resolve().parent.parent
        words = ["--crate-name", self.name, "src/lib.rt", "-L", f"dependency={kit}/rlibs"]
        for one in ("core", "std"):
            words += ["--extern", f"{one}={kit}/rlibs/{one}.rlib"]
        for one in self.names[1:]:
            uses = ",".join(("core", "std", *filter(is_ours, stands_on(one))))
            words += ["--lib", f"{one}:{uses}={place}/crates/{one}/src/lib.rt"]
        words += ["--antt-project", f"{kit}/rattle/logic/antt-project.json", "--logic-built", f"{kit}/logic_built"]
        words += ["--incremental", str(place / "kept"), "--jobs", "1"]
        done = subprocess.run([f"{kit}/bin/rattle", "check", *words], cwd=place / "crates" / self.name, stdin=subprocess.DEVNULL,
                              stdout=subprocess.PIPE, stderr=subprocess.STDOUT)
        lines = done.stdout.decode("utf-8", "replace").replace(f"{place}/crates/", "").splitlines()
        return done.returncode, "\n".join(line for line in lines if not line.startswith("so far:"))


def is_proved(status, said):
    return status == 0 and re.search(r"^logic=proved ", said, re.M) is not None


def is_refused(status, said):
    """Not proved: the prover was reached, and could tell."""
    return status == 1 and re.search(r"^logic=not-proved|did not build, so nothing above", said, re.M) is not None


def complaints(said):
    """What the prover refuses by itself, in order, each with its place: one in a file, or a function of which a goal has no proof. What only follows
    from that is left out."""
    found = []
    for line in said.splitlines():
        at = re.match(r"(?:\./)?(\S+:\d+:\d+): error: (.*)", line) or re.match(r"fn (\S+): no proof: (.*)", line)
        if at and not FOLLOWS.search(at[2]):
            found.append((at[1], at[2]))
    return found


def is_fact(words):
    if NAMES.search(words):
        return False
    return FACT.search(words) is not None or (DIFFER.search(words) is not None and STEPS.search(words) is None)
