#!/usr/bin/env python3
"""Writes the files that a function's proof starts from, and fills their holes. Run at the top of the repository. The first is rt's own work: this is
`rt check --start F` in the crate's folder, and then, if asked, a search in the place of each hole.

  tools/dev/proofs.py NAME F ..             Invariants.antt and Answers.antt of these functions, or what they lack: a hole at each invariant and at
                                            each goal that the prover's own search leaves
  tools/dev/proofs.py NAME F .. --goals     and prints the goals of the holes, with what is known there
  tools/dev/proofs.py NAME F --rules A,B    and fills the holes of F's answers by `search (A, B, rules)`; --depth N so deep
  tools/dev/proofs.py NAME F --fill ..      the same for the files that stand, without rt

F is the function's name, as total, or m/total of a module m. Invariants and measures stay holes. Rules are brought in: by their names from the crate's own
files, or from any crate if one alone has them; else say 'MODULE.{A, B}'. Where several goals of a function share its rules, #[tactic(auto, using(..))]
at the function names them once, and no file is wanted.
"""
import argparse
import glob
import re
import subprocess
import sys

HOLE = re.compile(r"(?m)^(\S+(?: [^\s=]+)*) = \?$")


def asked():
    raw = argparse.RawDescriptionHelpFormatter
    a = argparse.ArgumentParser(usage="tools/dev/proofs.py NAME F .. ..   (--help says more)", add_help=False, formatter_class=raw)
    a.add_argument("--help", action="version", version=__doc__)
    a.add_argument("crate")
    a.add_argument("functions", nargs="+")
    a.add_argument("--goals", action="store_true")
    a.add_argument("--fill", action="store_true")
    a.add_argument("--rules", action="append", default=[])
    a.add_argument("--depth")
    o = a.parse_args()
    o.rules = [pair for said in o.rules for pair in brought(o.crate, said)]
    return o


def brought(crate, said):
    """'MODULE.{A, B}' or 'A,B' as modules, each with the names of it."""
    found = re.match(r"^(\S+)\.\{(.*)\}$", said)
    return [(found[1], re.split(r",\s*", found[2]))] if found else [(module_of(crate, name), [name]) for name in re.split(r"[,\s]+", said)]


def module_of(crate, name):
    declared = re.compile(rf"^(?:\w+ )*{re.escape(name)} (?::|=)", re.M)
    files = [p for part in ("specs", "proofs") for p in sorted(glob.glob(f"crates/*/{part}/**/*.antt", recursive=True)) if not p.endswith(("/Answers.antt", "/Invariants.antt"))]
    places = [p[: -len(".antt")].split("/", 3)[1:] for p in files if declared.search(open(p).read())]
    places = [p for p in places if p[0] == crate] or places
    if len(places) != 1:
        sys.exit(f"{name} is declared in {len(places)} files: say MODULE.{{{name}}}")
    owner, part, module = places[0]
    return f"Rattle.{owner}.{part}.{module.replace('/', '.')}"


def bring(lines, module, some):
    """Adds names to the module's line, or a line of them above those of the crates."""
    for k, line in enumerate(lines):
        found = re.match(rf"^use {re.escape(module)}\.\{{(.*)\}}$", line)
        if found:
            there = found[1].split(", ")
            lines[k] = f"use {module}.{{{', '.join(there + [name for name in some if name not in there])}}}"
            return
    lines.insert(next(k for k, line in enumerate(lines) if line.startswith("use ")), f"use {module}.{{{', '.join(some)}}}")


def filled(text, o):
    """A file of answers with a search in the place of each hole, and its rules brought in."""
    names = [name for _, some in o.rules for name in some] + ["rules"]
    search = f"search {names[0] if len(names) == 1 else '(' + ', '.join(names) + ')'}{' depth ' + o.depth if o.depth else ''}"
    lines = HOLE.sub(lambda m: f"{m[1]} = {search}", text).split("\n")
    if lines != text.split("\n"):
        for module, some in o.rules:
            bring(lines, module, some)
        if not re.search(r"(?m)^use \S+\.\{.*\brules\b.*\}$", text):
            bring(lines, "Rattle.std.proofs.Common", ["rules"])
    return "\n".join(lines)


def main():
    o = asked()
    if not o.fill:
        flags = [flag for f in o.functions for flag in ("--start", f.replace("/", "::"))]
        run = subprocess.run(["rt", "check", *flags, *(["--allow-holes"] if o.goals else [])], cwd=f"crates/{o.crate}")
        if run.returncode and not o.rules:
            sys.exit(run.returncode)
    for function in o.functions if o.rules or o.fill else []:
        for path in glob.glob(f"crates/{o.crate}/proofs/**/{glob.escape(function)}/Answers.antt", recursive=True):
            before = open(path).read()
            text = filled(before, o)
            with open(path, "w") as file:
                file.write(text)
            print(f"{path}: {len(HOLE.findall(before))} holes filled")


if __name__ == "__main__":
    main()
