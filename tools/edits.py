#!/usr/bin/env python3
"""Tries the wrong programs of crates/NAME/more-edits: the prover must refuse each, and because a fact fails. They are tried over what
`rt all check` proved (tools/copies.py), which comes first, and edits of different functions are tried together. The last line is 'N passed, M failed'.

  tools/edits.py                  all edits of more-edits/, one check for each processor at a time (RT_JOBS says otherwise)
  tools/edits.py read write       those of these crates
  tools/edits.py --most 2         at most so many of each module, those of a crate in one check, those of public functions first: what the
                                  gate has time for
  tools/edits.py --all            those of must-fail/ too, which `rt ci` tries by itself
  tools/edits.py --keep FOLDER    what the prover said stays there
  tools/edits.py --list           tries none, and says for each public function which edits of both folders change it

A refusal is worth what its reason is. So an edit passes only if
  - the crate as it is, in the same place and over the same proved modules, is proved;
  - what the edit takes out stands in its file exactly once, or is the first behind a text that does (`behind:`);
  - the edited program reaches the prover, which says that it is not proved (not that it could not tell);
  - the first that the prover says of the edited function is that a fact fails, and not that a name is missing, that a text cannot be
    read or that the proof does not fit the program.
A line `more:` goes on with what stands in the place of the text, on a line of its own: where the wrong program has another call or way out, the
edit gives the proof that too, so that nothing but a fact is missing.
Edits are tried together only if each changes the body of one function, no two of one proof. A function's proof knows the others by their
contracts alone, so such edits do not meet; and it is looked at: where the prover complains of any other proof than theirs, or not of all
of these, each edit is tried alone.
"""
import argparse
import concurrent.futures
import pathlib
import re
import sys
import tempfile
import time

from copies import FUNCTION, PARTS, ROOT, Trees, below, complaints, is_fact, is_proved, is_refused, jobs


def function_at(source, place):
    """The function whose body has that place of the source, or None: its contract and what stands outside of functions do not count."""
    name = indent = None
    inside = False
    at = 0
    for line in source.splitlines(keepends=True):
        found = FUNCTION.match(line)
        if name is None and found:
            indent, name, inside = found.group(1), found.group(2), line.rstrip().endswith("{")
        elif name and not inside:
            inside = line.rstrip() == f"{indent}{{"
        elif name and line.rstrip() == f"{indent}}}":
            name = None
        at += len(line)
        if place < at:
            return name if inside else None
    return None


def module_of(crate, file):
    """The module of the code that a file of src/ or proofs/ belongs to; none is the crate's root."""
    name = file.split("/")[1].removesuffix(".rt")
    return name if name not in ("lib", "main") and (ROOT / "crates" / crate / f"src/{name}.rt").is_file() else ""


def proved_with(crate, module, name):
    """What a function's proof is called below proofs/: its name, or for functions that call each other the folder of their common proof,
    +NAME+NAME; that of a module's function lies in the module's folder."""
    for folder in (ROOT / "crates" / crate / "proofs" / module).glob("+*"):
        if name in folder.name.split("+"):
            return f"{module}/{folder.name}"
    return f"{module}/{name}"


def module_and_name(crate, path):
    """Of a function that the prover names by its path, as crate::module::Type::name, the module and the name."""
    parts = path.split("::")[1:]
    module = parts[0] if len(parts) > 1 and (ROOT / "crates" / crate / f"src/{parts[0]}.rt").is_file() else ""
    return module, parts[-1]


def function_of(place, crate):
    """The function that a complaint at that place is of: that of the proof's folder, or the one in whose lines of the source it is."""
    path, row = place.split(":")[:2]
    if not path.startswith("src/"):
        return path.split("/")[-2]
    name = None
    for number, line in enumerate((crate / path).read_text(encoding="utf-8").splitlines(), 1):
        found = FUNCTION.match(line)
        name = found.group(2) if found else name
        # a function's attributes stand above its name
        if number >= int(row) and not line.lstrip().startswith("#["):
            return name
    return name


def found_at(text, behind, old):
    """Where what an edit takes out stands: the one place in the text, or the first behind the one place of another text."""
    if behind and text.count(behind) != 1:
        return -1
    start = text.index(behind) + len(behind) if behind else 0
    return text.find(old, start) if old and (behind or text.count(old) == 1) else -1


class Edit:
    """An edit: its replacements, and the function whose body alone it changes, if so."""

    def __init__(self, path):
        self.path, self.crate, self.label = path, path.parent.parent.name, path.stem
        self.pairs, self.wrong, self.module, self.function, self.proof = [], None, "", None, None
        file = behind = old = None
        for line in path.read_text(encoding="utf-8").splitlines():
            if line.startswith("file: "):
                file, behind = line[6:], None
            elif line.startswith("behind: "):
                behind = line[8:]
            elif line.startswith("old: "):
                old = line[5:]
            elif line.startswith("new:"):
                self.pairs.append((file, behind, old, line[4:].removeprefix(" ")))
                old = None
            elif line.startswith("more:") and self.pairs:
                self.pairs[-1] = (*self.pairs[-1][:3], self.pairs[-1][3] + "\n" + line[5:].removeprefix(" "))
        if not self.pairs:
            self.wrong = "it has no 'old:' and 'new:'"
        functions = {self.place(file, behind, old) for file, behind, old, _ in self.pairs}
        if len(functions) == 1:
            self.module, self.function = functions.pop()
            self.proof = self.function and proved_with(self.crate, self.module, self.function)

    def place(self, file, behind, old):
        """The module and the function that a replacement is in; sets what is wrong with it."""
        path = ROOT / "crates" / self.crate / (file or "")
        parts = (file or "").split("/")
        if parts[0] not in PARTS or ".." in parts or not path.is_file():
            self.wrong = f"{file} is no file of the crate"
            return "", None
        module = module_of(self.crate, file)
        text = path.read_text(encoding="utf-8")
        at = found_at(text, behind, old)
        if at < 0:
            self.wrong = f"what it takes out stands {text.count(old) if old else 0} times in {file}: {(old or '').strip()}"
            return module, None
        if parts[0] == "proofs":
            return module, parts[-2].split("+")[-1]
        return module, function_at(text, at + len(old) - len(old.lstrip())) if parts[0] == "src" else None


def edited(edits):
    """The texts of the crate's files with the edits' replacements, each made where its text stands in the crate as it is."""
    pairs = [(edit.crate, *pair) for edit in edits for pair in edit.pairs]
    texts = {}
    for name, file in {(name, file) for name, file, *_ in pairs}:
        text = (ROOT / "crates" / name / file).read_text(encoding="utf-8")
        own = [(found_at(text, behind, old), old, new) for n, f, behind, old, new in pairs if (n, f) == (name, file)]
        for at, old, new in sorted(own, reverse=True):
            text = text[:at] + new + text[at + len(old) :]
        texts[f"{name}/{file}"] = text
    return texts


def is_public(edit):
    source = ROOT / "crates" / edit.crate / f"src/{edit.module or 'lib'}.rt"
    return edit.function is not None and re.search(rf"^ *pub (extern \"C\" )?fn {edit.function}\b", source.read_text(), re.M) is not None


def chosen(edits, most):
    """At most so many edits of each module that can be tried together, those of public functions first; one if none can."""
    found = []
    for module in sorted({e.module for e in edits}):
        rest = sorted((e for e in edits if e.module == module), key=lambda e: (e.proof is None, not is_public(e)))
        here = rest[:1]
        for edit in rest[1:]:
            if len(here) < most and edit.proof and edit.proof not in [e.proof for e in here]:
                here.append(edit)
        found += here
    return found


class Crate:
    """A crate with its edits, tried in a copy over what its proof left."""

    def __init__(self, name, edits, trees, keep):
        self.name, self.edits, self.trees, self.keep = name, edits, trees, keep
        self.checks = 0

    def ask(self, tree):
        self.checks += 1
        return tree.check(self.name)

    def refusals(self, tree, edits):
        """The prover's complaints of a program with these edits, each with its function; or why there are none."""
        with tree.with_texts(edited(edits)):
            status, said = self.ask(tree)
            crate = tree.crates / self.name
            found = [(self.proof_of(at, crate), at, words) for at, words in complaints(said)]
        if self.keep:
            (self.keep / f"{self.name}.{'.'.join(e.label for e in edits)[:200]}.log").write_text(said)
        if is_refused(status, said):
            return found, "refused, but the prover does not say why"
        return [], "NOT REFUSED" if status == 0 else f"the prover was not reached or could not tell (exit {status}): {said[-300:]}"

    def proof_of(self, at, crate):
        """Where the proof lies of the function that a complaint is of."""
        if "::" in at:
            module, name = module_and_name(self.name, at)
            return proved_with(self.name, module, name)
        return proved_with(self.name, module_of(self.name, at.split(":")[0]), function_of(at, crate))

    def judge(self, edit, found, otherwise):
        """Whether the first complaint is that a fact fails, and a line about the edit."""
        title = f"{self.name}/{edit.label}"
        if not found:
            return False, f"{title}: {otherwise}"
        _, place, words = found[0]
        if not is_fact(words):
            return False, f"{title}: refused, but not because a fact fails: {place}: {words[:300]}"
        return True, f"{title}: refused, as it must be (first at {place})"

    def rounds(self):
        """The edits that can be tried together; then those that cannot, one by one."""
        rounds = []
        for edit in (e for e in self.edits if e.proof):
            for others in rounds:
                if edit.proof not in [e.proof for e in others]:
                    others.append(edit)
                    break
            else:
                rounds.append([edit])
        return rounds + [[e] for e in self.edits if not e.proof]

    def tried(self, tree):
        """Yields for each edit whether it passes, and a line about it."""
        for edit in [e for e in self.edits if e.wrong]:
            yield False, f"{self.name}/{edit.label}: {edit.wrong}"
        self.edits = [e for e in self.edits if not e.wrong]
        if not is_proved(*self.ask(tree)):
            for edit in self.edits:
                yield False, f"{self.name}/{edit.label}: the crate is not proved as it is, so that a refusal would say nothing"
            return
        for edits in self.rounds():
            found, otherwise = self.refusals(tree, edits)
            together = len(edits) > 1 and {f for f, _, _ in found} == {e.proof for e in edits}
            for edit in edits:
                if together:
                    yield self.judge(edit, [c for c in found if c[0] == edit.proof], otherwise)
                elif len(edits) == 1:
                    yield self.judge(edit, found, otherwise)
                else:
                    yield self.judge(edit, *self.refusals(tree, [edit]))

    def run(self):
        with self.trees.lent() as tree:
            began = time.time()
            lines = list(self.tried(tree))
        return lines, f"{self.name}: {len(lines)} edits in {self.checks} checks, {time.time() - began:.0f} s"


def listed(edits):
    """Prints for each public function, and for each module without code, its edits."""
    for source in sorted((ROOT / "crates").glob("*/src/*.rt")):
        crate, module = source.parent.parent.name, module_of(source.parent.parent.name, f"src/{source.name}")
        title = f"{crate}::{module}" if module else crate
        names = [m.group(2) for m in map(FUNCTION.match, source.read_text().splitlines()) if m and "pub " in m.group(0)]
        own = [e for e in edits if e.crate == crate and e.module == module]
        for name in names:
            print(f"{title}::{name}: {' '.join(e.label for e in own if e.function == name) or '-'}")
        others = [f"{e.label} ({e.function or 'definition'})" for e in own if e.function not in names]
        if others:
            print(f"{title}, inside: {' '.join(others)}")


def main():
    asked = argparse.ArgumentParser(description="Tries wrong programs over what is proved; the prover must refuse each.")
    asked.add_argument("crates", nargs="*")
    asked.add_argument("--all", action="store_true")
    asked.add_argument("--list", action="store_true")
    asked.add_argument("--most", type=int)
    asked.add_argument("--keep", type=pathlib.Path)
    asked = asked.parse_args()
    if asked.keep:
        asked.keep = asked.keep.resolve()
        asked.keep.mkdir(parents=True, exist_ok=True)
    folders = ("more-edits", "must-fail") if asked.all or asked.list else ("more-edits",)
    edits = [Edit(p) for f in folders for p in sorted((ROOT / "crates").glob(f"*/{f}/*.edit"))]
    edits = [e for e in edits if not asked.crates or e.crate in asked.crates]
    if asked.list:
        return listed(edits)
    passed = failed = 0
    with tempfile.TemporaryDirectory() as folder:
        names = sorted({e.crate for e in edits})
        trees = Trees(pathlib.Path(folder).resolve(), sorted({d for name in names for d in below(name)}), jobs())
        crates = []
        for name in names:
            own = [e for e in edits if e.crate == name]
            crates.append(Crate(name, chosen(own, asked.most) if asked.most else own, trees, asked.keep))
        # those with most edits first, so that no processor is left with a long one at the end
        crates.sort(key=lambda c: -len(c.edits))
        with concurrent.futures.ThreadPoolExecutor(jobs()) as pool:
            for lines, sentence in pool.map(Crate.run, crates):
                for good, line in lines:
                    print(line if good else f"failed: {line}")
                    passed, failed = passed + good, failed + (not good)
                print(sentence, flush=True)
    print(f"{passed} passed, {failed} failed")
    return 0 if passed and not failed else 1


if __name__ == "__main__":
    sys.exit(main())
