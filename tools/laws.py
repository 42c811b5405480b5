#!/usr/bin/env python3
"""Names that nothing uses: definitions and laws that no contract, no function's proof and no theorem that stands for itself leads to,
functions that nobody calls, and names that a file brings in by 'use' and does not say.

  tools/laws.py                     prints a line for each
  tools/laws.py tidy [CRATE ..]     takes the names that are brought in for nothing out of the files, of all crates or of these

Names are looked for as words, file by file. So a name that a word happens to equal counts as used; none that is used counts as unused."""
import pathlib
import re
import sys

ROOT = pathlib.Path(__file__).resolve().parent.parent
CRATES = ROOT / "crates"

# What is said for its own sake, by file: these names, or (*) every name of the file.
STANDING = {
    # the demands, and what users quote of them
    "demands/proofs/Demands": "*",
    "demands/proofs/Corollaries": "*",
    "demands/proofs/Statements": "*",
    "demands/proofs/Findings": "*",
    "demands/proofs/Register": "*",
    # functions that make the calls as a user does, so that the calls' promises are used
    "demands/src/lib": "*",
    # document 01's cases and its sample run, and worked examples of each rule, computed from the definitions
    **{f"cases/proofs/{name}": "*" for name in ("Cases", "WholeRun", "Lines", "Heads", "Items", "Order", "Warned", "Writing", "Calls", "Previous", "Collections", "References")},
    "amount/proofs/Edges": "*",
    "bank/proofs/Edges": "*",
    "calendar/proofs/Examples": "*",
    "text/proofs/wording/Examples": "*",
    "verdict/proofs/sheets/Examples": "*",
    # what docs/PROOFS.md says of days and sheets: a definition that computes is what the document names
    "calendar/proofs/Next": ("next-number", "next-real"),
    "calendar/proofs/Order": ("order", "one-day"),
    "sheet/proofs/Laws": ("letter-same",),
    # each verdict of 20 and of 21 by itself; the demands speak of writing's whole answer
    "outcomes/proofs/firstwrong/Main": ("header-proper", "rows-proper", "header-carried", "rows-carried"),
    # the whole walk of refusal 20, without a sheet: no call has it yet; requests that export, join and pair batches are to call it
    "rows/src/walk": ("proper_rows",),
    # worked examples of a statement's fields
    "internal/proofs/Examples": "*",
    # every refusal of an account's internal form has one number, which a reader of the rules wants to see; no proof asks it
    "internal/proofs/Laws": ("only-51",),
    "turnover/proofs/Edges": "*",
    "gpcwhole/proofs/Examples": "*",
    # worked examples of files against a register
    "against/proofs/Examples": "*",
    # contracts that are no equations leave one answer all the same
    "reader/proofs/Determined": ("finds-one",),
    "rewriting/proofs/Front": ("determined",),
    # asked when line_of was walked by hand; its answer finds the same by itself
    "reader/proofs/Walking": ("fits",),
}

WORD = re.compile(r"[^\s(){},;.`\"⌜⌝]+")
NAME = r"[^\s(){},;.`\"⌜⌝:=]+"
DECLARED = re.compile(rf"^(\s*)((?:pub |unfoldable |abbrev )*)(record |data |ruleset )?({NAME}(?: {NAME})*)(?:\s+:(?=\s|$)| \(| \{{| =(?=\s|$))")
USE = re.compile(r"^(?:ghost )?use (?:(\S+?)(?:\.|::)\{(.*?)\}|(\S+) as (\S+?)|(\S+?));?$")
MODULE = re.compile(r"^Rattle\.(\w+)\.(specs|proofs)\.(.+)$")


def words(text):
    """the words of a text, and those of two that a dot joins"""
    return set(WORD.findall(text)) | set(re.findall(rf"{NAME}\.{NAME}", text))


def said_as(name):
    """a name as it is said: of an operator, what stands between its places"""
    return {name} | {p for p in name.split("◌") if p}


def sources(*crates):
    """the files of code, definitions and proofs, of all crates or of these folders, in order; a crate's own folder out/ is made by rt and left out"""
    for crate in crates or sorted(path for path in CRATES.iterdir() if path.is_dir()):
        for part in sorted(path for path in crate.iterdir() if path.name != "out"):
            yield from sorted(path for path in part.rglob("*") if path.suffix in (".antt", ".rt"))


class File:
    """A file's definitions, each with the words that it says, and what the file brings in."""

    def __init__(self, path):
        self.path = path
        self.code = path.suffix == ".rt"
        self.key = str(path.relative_to(CRATES).with_suffix(""))
        self.lines = path.read_text().splitlines()
        self.says = {}  # a name: the words of its declaration
        self.shown = set()  # names that other files may use
        self.kinds = {}  # a name: record, data, ruleset or nothing
        self.begins = {}  # a name: its line
        self.parts = {}  # a field or constructor: its type
        self.loose = set()  # words outside of any declaration
        self.uses = []  # line, module, name there, name here
        self.aliases = {}  # name here: line, module
        self.means = None  # a word: what it may stand for here
        self.read()

    def read(self):
        stack = []  # of what the line stands in: indent, names declared there (none of a module), words of its head
        for number, line in enumerate(self.joined()):
            text = (line or "").split("//" if self.code else "-- ")[0]
            if not text.strip() or text.lstrip().startswith("--") or self.brings(number, text.strip()):
                continue
            indent = len(text) - len(text.lstrip())
            while stack and stack[-1][0] > indent:
                stack.pop()
            declared = None if self.code else self.declared(text, stack, indent)
            if declared or re.match(r"\s*module\b", text):
                while stack and stack[-1][0] >= indent:
                    stack.pop()
                around = set().union(*(s[2] for s in stack if not s[1]))
                for name in declared or []:
                    self.says.setdefault(name, set()).update(around)
                    self.begins.setdefault(name, number)
                stack.append((indent, declared, words(text)))
            owner = next((s for s in reversed(stack) if s[1]), None)
            for name in owner[1] if owner else []:
                self.says[name] |= words(text)
            if not owner:
                (stack[-1][2] if stack else self.loose).update(words(text))

    def joined(self):
        """the lines, but of a `use` of code over several lines the whole in the first one's place and None in the others'"""
        lines = list(self.lines)
        for number, line in enumerate(self.lines):
            if self.code and re.match(r"(ghost )?use [^;]*$", line):
                end = next((k for k in range(number, len(lines)) if lines[k].endswith(";")), number)
                one = re.sub(r"\{ (.*?),? \}", r"{\1}", " ".join(part.strip() for part in lines[number : end + 1]))
                lines[number : end + 1] = [one, *[None] * (end - number)]
        return lines

    def declared(self, text, stack, indent):
        """the names that a line declares, if any; a fact of a `where` goes with what it stands in"""
        found = DECLARED.match(text)
        if not found:
            return None
        kind = (found.group(3) or "").strip()
        names = found.group(4).split()
        typed = found.group(0).endswith(":")
        inside = next((s for s in reversed(stack) if s[0] < indent and s[1]), None)
        if inside:
            if typed and self.kinds.get(inside[1][0]) in ("record", "data"):
                self.parts.update({name: inside[1][0] for name in names})
            return None
        if kind:
            names = names[:1]
        elif not typed or names[0] in ("let", "in", "where", "λ", "unfolding", "module"):
            return None
        for name in names:
            self.kinds[name] = kind
            if "pub" in found.group(2):
                self.shown.add(name)
        return names

    def brings(self, number, text):
        found = USE.match(text)
        if not found:
            return False
        group, names, module, alias, path = found.groups()
        if path and path.endswith(".*"):
            return True  # all that a module below passes on
        if group:
            for item in names.split(", "):
                there, _, here = item.partition(" as ")
                self.uses.append((number, group, there, here or there))
        elif module:
            self.aliases[alias] = (number, module)
        elif not self.code:
            self.aliases[path.rpartition(".")[2]] = (number, path)  # a whole module, by its last name
        else:
            self.uses.append((number, path, path.split("::")[-1], path.split("::")[-1]))
        return True

    def said(self):
        return self.loose.union(*self.says.values())


def key_of(module):
    found = MODULE.match(module)
    return f"{found.group(1)}/{found.group(2)}/{found.group(3).replace('.', '/')}" if found else None


def is_list(path):
    """A list of modules: Lib.antt, or beside it the file of a module of the code."""
    return path.suffix == ".antt" and (path.stem == "Lib" or (path.parent.parent / f"src/{path.stem}.rt").exists())


def load():
    files = {}
    for path in sources():
        if not is_list(path):
            file = File(path)
            files[file.key + path.suffix * file.code] = file
    return files


def named(files, file, said):
    """the definitions that words of a file name"""
    means = meanings(files, file)
    for word in said:
        alias, _, rest = word.partition(".")
        here = [(files.get(key_of(file.aliases[alias][1])), rest)] if rest and alias in file.aliases else []
        for other, name in (*means.get(word, ()), *here):
            name = other.parts.get(name, name) if other else None
            if other and name in other.says:
                yield other.key, name


def meanings(files, file):
    """what a word may stand for in a file: its own names, and those that it brings in"""
    if file.means is None:
        file.means = {}
        every = [(name, file, name) for name in (*file.says, *file.parts)]
        every += [(here, files.get(key_of(module)), there) for _, module, there, here in file.uses]
        for alias, (_, module) in file.aliases.items():
            above, _, last = module.rpartition(".")
            every.append((alias, files.get(key_of(above)), last))
        for here, other, name in every:
            for word in said_as(here):
                file.means.setdefault(word, []).append((other, name))
    return file.means


def roots(files):
    """what is reached without being named by a law: by code, by a function's proof, by tools/crosscheck.py, or for its own sake"""
    checked = words((ROOT / "tools/crosscheck.py").read_text())
    for key, file in files.items():
        yield from named(files, file, file.said() if file.code else file.loose)
        standing = STANDING.get(key, ())
        proof = file.path.name in ("Answers.antt", "Invariants.antt")
        for name in file.says:
            if standing == "*" or name in standing or proof and name in file.shown or key.startswith("paper/specs/") and name in checked:
                yield key, name


def unused_names(files):
    live, todo = set(), list(roots(files))
    while todo:
        key, name = todo.pop()
        if (key, name) not in live:
            live.add((key, name))
            todo += named(files, files[key], files[key].says[name] - {name})
    for key, file in files.items():
        for name in file.says:
            if (key, name) not in live:
                yield file, file.begins[name], name


def unused_functions(files):
    code = [f for f in files.values() if f.code]
    called = "\n".join(line.split("//")[0] for f in code for line in f.lines)
    for file in (f for f in code if STANDING.get(f.key) != "*"):
        standing = ("main", *STANDING.get(file.key, ()))
        for number, line in enumerate(file.lines):
            found = re.match(r"\s*(?:pub )?fn (\w+)", line)
            if found and found.group(1) not in standing and len(re.findall(rf"\b{found.group(1)}\b", called)) == 1:
                yield file, number, found.group(1)


def unused_imports(files):
    for file in files.values():
        said = {part for word in file.said() for part in (word, *re.split(r"[.:<>&\[\]]+", word))}
        brought = [(number, here) for number, _, _, here in file.uses] + [(number, alias) for alias, (number, _) in file.aliases.items()]
        for number, name in brought:
            if not said_as(name) & said:
                yield file, number, name


def tidy(file, unused):
    """a file's text without the names that it brings in for nothing, and without a `use` said twice"""
    lines, before, whole = [], set(), True
    for number, line in enumerate(file.joined()):
        if line is None and whole:
            lines.append(file.lines[number])
        if line is None:
            continue
        gone = {name for at, name in unused if at == number}
        found, whole = USE.match(line), not gone
        if gone and found.group(1):
            kept = [n for n in found.group(2).split(", ") if n.split(" as ")[-1] not in gone]
            line = line.replace("{" + found.group(2) + "}", "{" + ", ".join(kept) + "}") if kept else None
        elif gone:
            line = None
        if line is not None and not (found and line in before):
            lines.append(file.lines[number] if whole else line)
        before.add(line)
    return "\n".join(lines) + "\n"


def spoken(files):
    """the files of definitions whose words say what is proved: those of the demands' statements and of the contracts of the calls and of
    the functions that make them, and from there on down"""
    todo = []
    for key in ("demands/proofs/Demands", "demands/proofs/Corollaries", "demands/proofs/Statements", "demands/proofs/Findings", "demands/proofs/Register"):
        stated = (line.split("-- ")[0] for line in files[key].lines if not re.match(r"\s*[^\s:]+( [^\s:]+)* = ", line))
        todo += named(files, files[key], set().union(*map(words, stated)))
    for line in files["demands/proofs/Demands/Words"].lines:
        found = re.match(r"pub use (\S+?)\.\{(.*?)\}$", line)
        todo += [(key_of(found.group(1)), name) for name in found.group(2).split(", ")] if found else []
    for key in (f"{crate}/src/lib.rt" for crate in ("abo", "tell", "enrol", "abo_c", "tell_c", "enrol_c", "demands")):
        promised = (line for line in files[key].lines if line.strip().startswith(("requires", "ensures")))
        todo += named(files, files[key], set().union(*map(words, promised)))
    seen = set()
    while todo:
        key, name = todo.pop()
        if key in files and "/specs/" in key and (key, name) not in seen:
            seen.add((key, name))
            whole = files[key].parts.get(name, name)  # of a field or a case, what it belongs to
            todo += named(files, files[key], files[key].says[whole] - {name})
    return {key for key, _ in seen}


def sentences(files, looks):
    for sentence, look in looks:
        for file, number, name in look(files):
            yield f"{file.path.relative_to(ROOT)}:{number + 1}: {sentence.format(name)}"


def unused(files):
    return sentences(files, (("nothing uses {}", unused_names), ("nobody calls {}", unused_functions)))


def brought_in(files):
    return sentences(files, (("{} is brought in and not used", unused_imports),))


def tidy_crates(crates):
    files, unused = load(), {}
    for file, number, name in unused_imports(files):
        unused.setdefault(file.path, []).append((number, name))
    for file in files.values():
        if not crates or file.key.split("/")[0] in crates:
            file.path.write_text(tidy(file, unused.get(file.path, [])))


if __name__ == "__main__":
    if sys.argv[1:2] == ["tidy"]:
        tidy_crates(sys.argv[2:])
    else:
        found = load()
        print("\n".join((*unused(found), *brought_in(found))) or "nothing is unused")
