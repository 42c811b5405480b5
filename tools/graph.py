#!/usr/bin/env python3
"""Draws the rooms and crates as crates.txt has them: python3 tools/graph.py >docs/CRATES.md (the gate looks that the page is up to date).

A heading of crates.txt is a room: its name, and what it holds. What a crate or room reaches through another one is left out, so that an
arrow is a step that cannot be taken away.
"""
import functools
import pathlib
import re

ROOT = pathlib.Path(__file__).resolve().parent.parent


def rooms():
    """The headings of crates.txt in order: a room's name, what it holds, and its crates."""
    found = []
    for line in (ROOT / "crates.txt").read_text().splitlines():
        head = re.match(r"# (\w+): (.*)$", line)
        if head:
            found.append((head.group(1), head.group(2), []))
        elif line and not line.startswith("#"):
            found[-1][2].append(entry(line)[0])
    return found


def entry(line):
    """What a line of crates.txt says: a crate's name, whether C programs link it as a static library or not, and what it stands on."""
    name, _, below = line.partition(":")
    return name.removesuffix(" staticlib"), below.split()


def stands():
    """What each crate stands on, the kit's libraries apart."""
    below = dict(entry(line) for line in (ROOT / "crates.txt").read_text().splitlines() if line and not line.startswith("#"))
    return {name: [d for d in others if d in below] for name, others in below.items()}


def steps(below):
    """What stands right below each: what is not reached through another one."""

    @functools.cache
    def reached(name):
        return set(below[name]).union(*map(reached, below[name]))

    return {name: [d for d in names if not any(d in reached(o) for o in names if o != d)] for name, names in below.items()}


def holds(path):
    """The first sentence of a source."""
    said = []
    for line in path.read_text().splitlines():
        if not line.startswith("// "):
            break
        said.append(line[3:])
    return re.split(r"(?<=\.)\s", " ".join(said))[0].replace("|", "\\|")


def sources(name):
    """The crate's root, and its modules in the order in which it declares them."""
    folder = ROOT / f"crates/{name}/src"
    root = next(folder / file for file in ("lib.rt", "main.rt") if (folder / file).exists())
    return [root, *(folder / f"{module}.rt" for module in re.findall(r"^pub mod (\w+);", root.read_text(), re.M))]


def flow(below):
    print("```mermaid\nflowchart TD")
    for name, others in steps(below).items():
        for other in others:
            print(f"  {name} --> {other}")
    print("```\n")


def main():
    below = stands()
    right = steps(below)
    home = {name: room for room, _, names in rooms() for name in names}
    print("# The rooms and their crates\n")
    print("Drawn from crates.txt by tools/graph.py; the gate looks that it is true. A room is a heading of that file. Arrows lead from a room or crate to")
    print("what it stands on; what is reached through another one is left out. `crate::module` is `crates/crate/src/module.rt`, with its definitions in")
    print("`specs/module` and its proofs in `proofs/module`.\n")
    flow({room: sorted({home[d] for n in names for d in below[n]} - {room}) for room, _, names in rooms()})
    for room, words, names in rooms():
        print(f"## {room[0].upper()}{room[1:]}: {words}\n")
        print("| crate | what it holds | stands on |\n|---|---|---|")
        for name in names:
            root, *others = sources(name)
            print(f"| `{name}` | {holds(root)} | {', '.join(right[name]) or '-'} |")
            for path in others:
                print(f"| `{name}::{path.stem}` | {holds(path)} | |")
        print()
    print("## Every step\n")
    flow(below)


if __name__ == "__main__":
    main()
