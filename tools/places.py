#!/usr/bin/env python3
"""Counts the places of src/ that docs/DESIGN-PASS.md speaks of, a line for each kind of place; with --list each place too.

  tools/places.py [--list] [FOLDER]     of this checkout, or of the one in that folder
"""
import argparse
import collections
import pathlib
import re

FUNCTION = re.compile(r"^\s*(?:pub )?fn (\w+)\s*(?:<[^>]*>)?\(([^)]*)\)(.*?)\n[ ]*\{$", re.M | re.S)
# of the names of cases, those that say that nothing came of it
WITHOUT = re.compile(r"^(Refused|Stop|Wrong|Unfit|Improper|Broke|Stopped|Halt|Nothing|Strange|Passed|Kept|Found)\b")
ENUM = re.compile(r"^(?:pub )?enum (\w+) \{\n(.*?)^\}", re.M | re.S)
LOOP = re.compile(r"^([ ]*)(?:while [^\n]*|loop) \{\n(?=((?:(?!\1\}).*\n)*))", re.M)
STEP = re.compile(r"\b(\w+) (?:\+= 1|= \1 \+ 1|-= 1|= \1 - 1);")


def row(path, text, at):
    return f"{path}:{text.count(chr(10), 0, at) + 1}"


def cases_of(body):
    """The names of an enum's cases."""
    return re.findall(r"^    (\w+)", body, re.M)


def functions(text):
    """A function's name, its parameters, and what stands between them and its body."""
    for found in FUNCTION.finditer(text):
        parameters = [re.sub(r"^mut ", "", x.strip()) for x in re.sub(r"\s+", " ", found.group(2)).split(", ")]
        yield found.group(1), [x.rstrip(",") for x in parameters if ":" in x], found.group(3)


def count(folder):
    places = collections.OrderedDict((x, []) for x in (
        "1 own enums with a case that says that nothing came of it",
        "1 numbers of refusals in code: a case's or a call's first value is one",
        "1 flags beside the values that they speak of",
        "3 loops that are no `for`",
        "3 of these, loops that count by one",
        "4 structs copied field by field: `x: a.x`",
        "5 facts required by three functions of a crate or more",
        "5 pairs of parameters in twenty functions or more",
        "7 switches on a number that says which step to run, tables of functions",
        "8 answers to goals",
    ))
    keys = list(places)
    required, paired = collections.defaultdict(list), collections.defaultdict(list)
    for path in sorted(folder.glob("crates/*/src/*.rt")):
        text, name = path.read_text(encoding="utf-8"), path.relative_to(folder)
        for found in ENUM.finditer(text):
            if any(WITHOUT.match(x) for x in cases_of(found.group(2))):
                places[keys[0]].append(f"{row(name, text, found.start())} {found.group(1)}")
        for found in re.finditer(r"\b(?:[A-Z]\w*::(?:Refused|Stop|Wrong|Unfit|Improper)|refusal|broke|refused|malformed|stopped)\((?:[1-9]|[1-5]\d)[,)]", text):
            places[keys[1]].append(row(name, text, found.start()))
        for found in re.finditer(r"^    pub (?:line|laid|named): bool", text, re.M):
            places[keys[2]].append(row(name, text, found.start()))
        for found in LOOP.finditer(text):
            places[keys[3]].append(row(name, text, found.start()))
            if STEP.search(found.group(2)):
                places[keys[4]].append(row(name, text, found.start()))
        for found in re.finditer(r"^\s+([a-z]+): [a-z.]+\.\1,$", text, re.M):
            places[keys[5]].append(row(name, text, found.start()))
        for function, parameters, clauses in functions(text):
            for clause in re.findall(r"requires (?:\w+ )?\{ (.*?) \}\n", clauses + "\n"):
                for fact in clause.split(" × "):
                    required[name.parts[1], fact.strip("() ")].append(function)
            for i, one in enumerate(parameters):
                for other in parameters[i + 1:]:
                    paired[one, other].append(function)
        for found in re.finditer(r"\b(?:dyn |impl Fn|fn\()|match \w*(?:step|phase|mode)\w* \{\n\s+[0-9]", text):
            places[keys[8]].append(row(name, text, found.start()))
    places[keys[6]] = [f"{len(v)} {k[0]}: {k[1]}" for k, v in required.items() if len(v) >= 3]
    places[keys[7]] = [f"{len(v)} {k[0]}, {k[1]}" for k, v in paired.items() if len(v) >= 20]
    for path in sorted(folder.glob("crates/*/proofs/**/Answers.antt")):
        if "out" not in path.parts:
            places[keys[9]] += [str(path.relative_to(folder))] * len(re.findall(r"^\S+ .*= ?", re.sub(r"^(pub |use |abbrev ).*$", "", path.read_text(encoding="utf-8"), flags=re.M), re.M))
    return places


def main():
    parser = argparse.ArgumentParser(description=__doc__, formatter_class=argparse.RawDescriptionHelpFormatter)
    parser.add_argument("folder", nargs="?", default=pathlib.Path(__file__).resolve().parent.parent, type=pathlib.Path)
    parser.add_argument("--list", action="store_true")
    args = parser.parse_args()
    for kind, found in count(args.folder.resolve()).items():
        print(f"{len(found):6} {kind}")
        if args.list and not kind.startswith("8"):
            for place in found:
                print(f"           {place}")


if __name__ == "__main__":
    main()
