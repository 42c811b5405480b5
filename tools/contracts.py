#!/usr/bin/env python3
"""Takes promises (`ensures`) away from the exported calls, and looks that a demand falls with each: `demands` has functions that make the
calls and promise what the demands say, so that each promise of each call is used. The prover must refuse `demands` and nothing below it,
in the function that makes the call twice, because a fact fails. What is not touched is taken over from what `rt all check` proved
(tools/copies.py), which comes first. The last line is 'N passed, M failed'.

  tools/contracts.py          one promise of each call at a time, as in the gate: first their last ones, then those before
  tools/contracts.py --one    each promise by itself, so that the calls' other promises stand
"""
import pathlib
import re
import sys
import tempfile
import time

from copies import ROOT, Tree, below, complaints, is_fact, is_proved, is_refused

CALLS = ("abo", "tell", "enrol")
ABOVE = "demands"


def promises():
    """Each exported call with its promises, as lines of its source."""
    calls, name = {}, None
    for crate in CALLS:
        for line in (ROOT / "crates" / crate / "src/lib.rt").read_text(encoding="utf-8").splitlines():
            found = re.match(r"pub fn (\w+)", line)
            name = found.group(1) if found else None if line.startswith("}") else name
            if name and line.strip().startswith("ensures"):
                calls.setdefault(name, []).append(line)
    return calls


def rounds(one):
    """What is taken away at a time: pairs of a call and its promise's number, counted from 1."""
    calls = promises()
    every = [(call, number) for call, lines in calls.items() for number in range(1, len(lines) + 1)]
    if one:
        return [[pair] for pair in every]
    most = max(len(lines) for lines in calls.values())
    return [[(call, number) for call, number in every if len(calls[call]) - number == behind] for behind in range(most)]


def without(texts, pairs):
    """The sources of the calls' crates without these promises."""
    for call, number in pairs:
        line = promises()[call][number - 1] + "\n"
        count = sum(text.count(line) for text in texts)
        if count != 1:
            sys.exit(f"promise {number} of {call} stands {count} times in the sources")
        texts = [text.replace(line, "") for text in texts]
    return texts


def refused(tree, pairs):
    """What the prover says of the crate above without these promises: a reason that it shows nothing, or None; and its complaints."""
    sources = [f"{crate}/src/lib.rt" for crate in CALLS]
    texts = [(tree.crates / source).read_text(encoding="utf-8") for source in sources]
    with tree.with_texts(dict(zip(sources, without(texts, pairs)))):
        status, said = tree.check(ABOVE)
    found = complaints(said)
    fell = re.search(r"^rt: the library (\w+) did not build", said, re.M)
    if not is_refused(status, said) or not found:
        return f"{ABOVE} is not refused (exit {status}): {said[-300:]}", found
    return f"what is refused is not only {ABOVE}: {fell[1]}" if fell else None, found


def falls(call, found):
    """Where a fact fails in the function that makes the call twice, or None."""
    mine = f"{call.removeprefix('abo_')}_twice"
    return next((place for place, words in found if place.startswith((f"proofs/{mine}/", f"{ABOVE}::{mine}")) and is_fact(words)), None)


def main():
    passed = tried = 0
    with tempfile.TemporaryDirectory() as folder:
        tree = Tree(pathlib.Path(folder).resolve() / "copy", below(ABOVE))
        status, said = tree.check(ABOVE)
        if not is_proved(status, said):
            print(f"failed: {ABOVE} is not proved with all promises: {said[-300:]}\n0 passed, 1 failed")
            return 1
        for pairs in rounds("--one" in sys.argv[1:]):
            began = time.monotonic()
            wrong, found = refused(tree, pairs)
            for call, number in pairs:
                place = None if wrong else falls(call, found)
                tried += 1
                passed += place is not None
                says = f"without it {ABOVE} is not proved, as it must be (first at {place})" if place else wrong or "no fact fails without it"
                print(f"{'' if place else 'failed: '}{call}, promise {number}: {says}", flush=True)
            print(f"{time.monotonic() - began:.0f} s", flush=True)
    print(f"{passed} passed, {tried - passed} failed")
    return 0 if passed == tried else 1


if __name__ == "__main__":
    sys.exit(main())
