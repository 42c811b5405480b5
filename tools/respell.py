#!/usr/bin/env python3
"""Brings the names of definitions to today's spelling: words in snake case, where they were in camel case, and constructors and fields of specs/ and
proofs/ without a dash. Types, facts and modules keep their capital, and so do names of the source and of C. Lemmas keep the dash between their words.
Files are rewritten in place; a second run changes nothing.

  tools/respell.py            in the repository, or in a copy of it: crates, tools and pages
"""
import pathlib
import re
import sys

ROOT = pathlib.Path(sys.argv[1] if len(sys.argv) > 1 else ".").resolve()
WORD = re.compile(r"[^\s(){}.;,@\"«»`'’|…]+")
CAMEL = re.compile(r"(?<![A-Za-z0-9_·:/\\])[a-z][a-z0-9]*(?:[A-Z][a-z0-9]*)+(?![A-Za-z0-9_])")
DECLARED = re.compile(r"^\s*(?:(?:abbrev|unfoldable|pub|ruleset) )*([^\s(){}.;,@\"«»]+)(?:\s*(?:\([^)]*\)|\{[^}]*\}))*\s*:\s", re.M)
ITEM = re.compile(r"^(\s+)(?:pub )?([^\s(){}.;,@\"«»]+)\s*:\s")
BLOCK = re.compile(r"^(\s*)(?:(?:abbrev|unfoldable|pub) )*(?:data|record) .*where\s*$")
# These are names of C, Python or shell, or words of the language that the repository is written in.
LEFT = set()


def snake(word):
    return re.sub(r"(?<=[a-z0-9])([A-Z]+)(?=$|[a-z0-9])", lambda m: "_" + m[1].lower(), word)


def code(text):
    return re.sub(r"--[^\n]*", "", text)


def files(*endings):
    for path in sorted(ROOT.rglob("*")):
        parts = path.relative_to(ROOT).parts
        # crates/NAME/out is the prover's, and crates/out a crate
        if path.is_file() and path.suffix in endings and "out" not in parts[2:3] and not {"target", "build", ".git"} & set(parts):
            yield path


def declared():
    """Names in camel case that files of specs/ and proofs/ declare or use, and constructors and fields with a dash."""
    camel, dashed, every = set(), set(), set()
    for path in files(".antt"):
        text = code(path.read_text(encoding="utf-8"))
        camel |= set(CAMEL.findall(text))
        inside = None
        for line in text.splitlines():
            opened = BLOCK.match(line)
            item = ITEM.match(line)
            if opened:
                inside = len(opened[1])
            elif inside is not None and line.strip() and len(line) - len(line.lstrip()) <= inside:
                inside = None
            if inside is not None and item and not opened and len(item[1]) > inside and "-" in item[2]:
                dashed.add(item[2])
        every |= set(WORD.findall(text))
    for path in files(".rt"):
        text = re.sub(r"//[^\n]*", "", path.read_text(encoding="utf-8"))
        camel |= set(CAMEL.findall(text))
    return camel - LEFT, dashed, every


def main():
    camel, dashed, every = declared()
    table = {word: snake(word) for word in camel}
    # a helper lemma that would fall together with a word keeps the dash between its words
    told = set(table.values())
    table |= {word: word.replace("_", "-") for word in sorted(every & told) if word not in camel and "_" in word}
    own = {m for path in files(".antt") for m in DECLARED.findall(code(path.read_text(encoding="utf-8")))}
    helpers = {w: d for w, d in table.items() if w in told}
    for word in list(helpers):
        if word not in own:
            del table[word]
    # so does a constructor or a field, where another word is spelled so
    fields = {word: new for word in dashed for new in (word.replace("-", "_"),) if new not in told | every}
    count = 0
    for path in files(".antt", ".rt", ".edit", ".py", ".md"):
        if path.name == "respell.py" or path.parts[-2:] == ("docs", "PORT.md"):
            continue
        text = old = path.read_text(encoding="utf-8")
        helper = {w: d for w, d in table.items() if w in told}
        if path.suffix == ".antt":
            text = WORD.sub(lambda m: helper.get(m[0], m[0]) if not path_word(text, m) else m[0], text)
            text = WORD.sub(lambda m: fields.get(m[0], m[0]), text)
        elif path.suffix in (".edit", ".rt"):
            text = WORD.sub(lambda m: fields.get(m[0], m[0]), text)
        text = CAMEL.sub(lambda m: table.get(m[0], m[0]) if m[0] in camel else m[0], text)
        if text != old:
            path.write_text(text, encoding="utf-8")
            count += 1
    print(f"{len(camel)} words, {len(helpers)} helpers, {len(fields)} constructors and fields; {count} files")


def path_word(text, found):
    """Is this a part of a path of modules (a folder of proofs is named as the function is)?"""
    return text[found.start() - 1 : found.start()] == "." or text[found.end() : found.end() + 1] == "."


if __name__ == "__main__":
    main()
