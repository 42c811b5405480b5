#!/usr/bin/env python3
"""Looks whether the house is in order, by rules that a reader can check by hand. The last line is 'N passed, M failed'.

  - crates.txt and crates/ name the same crates; a crate stands on crates above it only, and names each; README's table has the rooms of crates.txt
  - docs/CRATES.md draws the crates as crates.txt has them (tools/graph.py writes it)
  - each file of code, definitions or proofs says in its first line what it holds; lists of modules (Lib.antt, and a module's beside it) need not
  - a crate's root has, right under its first comment, the line that lets the prover try its tactics
  - a function has at most 40 lines without its contract, and at most one loop
  - a file of definitions or proofs has at most 400 lines
  - each file of code, definitions or proofs is laid out as `rt fmt` lays it out, which is seen on a copy of the crates
  - what an edit of must-fail/ or more-edits/ takes out stands in its file exactly once, or behind a text that does (`behind:`, more-edits/ alone);
    an edit of must-fail/ has no line `more:`, which `rt must-fail` would pass over
  - what a page links to is there, and so is each path that a page, script or C file names
  - each header, program and script of host/ and bench/ says in its first lines what it holds; a source beside its header need not
  - docs/TESTING.md names each folder of host/ and each test of host/run.sh, and what it says a test is made of is there
  - no two programs have one name, as build/NAME is made of the NAME.c of any folder
  - no proof names a line of the source by its number, as the next edit moves it
  - no law, definition or function is there that nothing uses, and no name is brought in for nothing (tools/laws.py finds them)
  - docs/PROOFS.md lists the files whose words say what is proved, and no other, with the lines that they have (tools/laws.py follows the words)
  - docs/WORKING.md says of each file of tools/ what it is for
  - docs/RULES.md names each file and each public definition of the rules and each field of a sheet, always as Module.name; what it names
    so is there
  - its table of the sheets has the values of their records, and so has the table of a style's flags in Texts.antt; its table of numbers has
    those of include/abo.h, and its whole run is the rewriting program's own
"""
import concurrent.futures
import os
import pathlib
import re
import shutil
import subprocess
import sys
import tempfile

import graph
import laws
from edits import found_at

ROOT = pathlib.Path(__file__).resolve().parent.parent
MOST_LINES = 40
MOST_FILE = 400
# the kit's own libraries
KIT = {"std", "check", "io", "bytes", "os", "libc"}

passed = 0
faults = []


def check(good, sentence):
    global passed
    if good:
        passed += 1
    else:
        faults.append(sentence)


def listed():
    """The crates of crates.txt in order, each with what it stands on."""
    crates = {}
    for line in (ROOT / "crates.txt").read_text().splitlines():
        if line and not line.startswith("#"):
            name, below = graph.entry(line)
            crates[name] = below
    return crates


def named(crate, other):
    """Does a file of the crate name something of the other one?"""
    texts = (path.read_text() for path in laws.sources(ROOT / "crates" / crate))
    return any(re.search(rf"(?<![\w:]){other}::|\bRattle\.{other}\.", text) for text in texts)


def the_list():
    crates = listed()
    there = {p.name for p in (ROOT / "crates").iterdir() if p.is_dir()}
    for name in sorted(there | set(crates)):
        check(name in crates, f"crates/{name} is not in crates.txt")
        check(name in there, f"crates.txt names {name}, which is not in crates/")
    done = set(KIT)
    for name, below in crates.items():
        for other in below:
            check(other in done, f"{name} stands on {other}, which is no crate above it")
            check(other in KIT or named(name, other), f"{name} stands on {other}, and does not name it")
        done.add(name)
    heads = re.findall(r"^# (\w+): (.*)$", (ROOT / "crates.txt").read_text(), re.M)
    rows = re.findall(r"^\| (\w+) \| (.*) \|$", (ROOT / "README.md").read_text().split("| room of `crates/` |")[-1], re.M)
    check(len(heads) == 13, f"crates.txt has {len(heads)} rooms")
    check(rows == heads, "README's table does not have the rooms as crates.txt heads them")


def the_drawing():
    drawn = subprocess.run([sys.executable, ROOT / "tools/graph.py"], capture_output=True, text=True).stdout
    page = ROOT / "docs/CRATES.md"
    check(page.exists() and page.read_text() == drawn, "docs/CRATES.md is not what tools/graph.py draws")


def first_lines():
    for path in laws.sources():
        if not laws.is_list(path):
            first = path.read_text().split("\n", 1)[0]
            check(re.match(r"(//|--) \S", first), f"{path.relative_to(ROOT)} does not say in its first line what it holds")


def roots():
    for name in listed():
        path = graph.sources(name)[0]
        asks = re.match(r"(// .*\n)+#!\[tactic\(auto\)\]\n", path.read_text())
        check(asks, f"{path.relative_to(ROOT)} has no line #![tactic(auto)] right under its first comment")


def functions():
    start = re.compile(r"^(pub )?(extern \"C\" )?fn (\w+)|^pub extern \"C\" fn (\w+)")
    for path in (path for path in laws.sources() if path.suffix == ".rt"):
        name, lines, loops = None, 0, 0
        for line in path.read_text().splitlines():
            text = line.strip()
            found = start.match(text) if not line.startswith("        ") else None
            if found and name is None:
                name, lines, loops, indent = found.group(3) or found.group(4), 0, 0, len(line) - len(text)
            if name is None:
                continue
            if not text.startswith(("requires", "ensures", "//", "invariant", "decreases")):
                lines += 1
            if re.match(r"(while|for|loop)\b", text):
                loops += 1
            if text == "}" and len(line) - len(text) == indent:
                where = f"{path.relative_to(ROOT)}: {name}"
                check(lines <= MOST_LINES, f"{where} has {lines} lines without its contract")
                check(loops <= 1, f"{where} has {loops} loops")
                name = None


def files():
    for path in (path for path in laws.sources() if path.suffix == ".antt"):
        text = path.read_text()
        count = text.count("\n")
        check(count <= MOST_FILE, f"{path.relative_to(ROOT)} has {count} lines")
        check(not re.search(r"src/\w+\.rt:\d", text), f"{path.relative_to(ROOT)} names lines of the source by number")


def laid_out(folder, crate):
    """The crate's files that rt fmt lays out otherwise, in a copy below that folder; or why it did not."""
    copy = folder / "crates" / crate.name
    for path in laws.sources(crate):
        (copy / path.relative_to(crate)).parent.mkdir(parents=True, exist_ok=True)
        shutil.copyfile(path, copy / path.relative_to(crate))
    run = subprocess.run(["rt", "fmt"], cwd=copy, stdin=subprocess.DEVNULL, stdout=subprocess.PIPE, stderr=subprocess.STDOUT, text=True)
    others = {path for path in laws.sources(crate) if (copy / path.relative_to(crate)).read_bytes() != path.read_bytes()}
    return others, run.stdout.strip() if run.returncode else ""


def layout():
    crates = [path for path in sorted((ROOT / "crates").iterdir()) if any(laws.sources(path))]
    with tempfile.TemporaryDirectory() as folder, concurrent.futures.ThreadPoolExecutor(os.cpu_count()) as pool:
        folder = pathlib.Path(folder)
        shutil.copy(ROOT / "crates.txt", folder)
        for crate, (others, why) in zip(crates, pool.map(lambda crate: laid_out(folder, crate), crates)):
            check(not why, f"rt fmt does not lay out crates/{crate.name}: {why}")
            for path in laws.sources(crate):
                check(path not in others, f"{path.relative_to(ROOT)} is not as rt fmt lays it out")


def edits():
    folders = ("must-fail", "more-edits")
    for path in sorted(p for f in folders for p in (ROOT / "crates").glob(f"*/{f}/*.edit")):
        crate, target, behind = path.parent.parent, "", None
        for line in path.read_text().splitlines():
            if line.startswith("file: "):
                file, behind = crate / line[6:], None
                check(file.is_file(), f"{path.relative_to(ROOT)}: {line[6:]} is not there")
                target = file.read_text() if file.is_file() else ""
            if line.startswith("behind: "):
                behind = line[8:]
            if line.startswith("more:"):
                check(path.parent.name == "more-edits", f"{path.relative_to(ROOT)}: `rt must-fail` passes over `more:`")
            if line.startswith("old: "):
                found = (not behind or path.parent.name == "more-edits") and found_at(target, behind, line[5:]) >= 0
                check(found, f"{path.relative_to(ROOT)}: what it takes out stands {target.count(line[5:])} times there: {line[5:].strip()}")


def pages():
    return [ROOT / "README.md", *sorted((ROOT / "docs").glob("*.md"))]


def c_side():
    files = (path for folder in ("host", "bench") for path in (ROOT / folder).rglob("*"))
    return sorted(path for path in files if path.suffix in (".c", ".h", ".sh"))


def links():
    for page in pages():
        for target in re.findall(r"\]\(([^)#:]+)(?:#[^)]*)?\)", page.read_text()):
            check((page.parent / target).exists(), f"{page.relative_to(ROOT)} links to {target}, which is not there")


def tool_files():
    return sorted(path for path in (ROOT / "tools").rglob("*") if path.suffix in (".sh", ".py", ".c"))


def paths():
    named = re.compile(r"(?<![\w/.$}-])((?:host|bench|tools|peer|include|docs)/[\w./-]*\w)")
    scripts = [ROOT / "Makefile", ROOT / ".ci/run", *tool_files()]
    for path in [*pages(), *c_side(), *scripts]:
        for target in sorted(set(named.findall(path.read_text()))):
            check((ROOT / target).exists(), f"{path.relative_to(ROOT)} names {target}, which is not there")


def c_files():
    programs = {}
    for path in c_side():
        text, place = path.read_text(), path.relative_to(ROOT)
        says = re.match(r"(#!.*\n)?# \S" if path.suffix == ".sh" else r"/\*(\n \*)? \S", text)
        beside = path.suffix == ".c" and path.with_suffix(".h").exists()
        check(says or beside, f"{place} does not say in its first lines what it holds")
        if re.search(r"^int main\(", text, re.M):
            other = programs.setdefault(path.name, place)
            check(other == place, f"{place} and {other} are programs of one name")


def the_tests():
    page = (ROOT / "docs/TESTING.md").read_text()
    rows = [[cell.strip() for cell in line.split("|")[1:-1]] for line in page.splitlines() if line.startswith("| `")]
    every = re.search(r"^all='(.*)'$", (ROOT / "host/run.sh").read_text(), re.M).group(1).split()
    made_of = {row[0].strip("`"): row[2] for row in rows if len(row) == 3 and row[2].startswith("`host/")}
    for name in sorted(set(every) | set(made_of)):
        check(name in made_of, f"docs/TESTING.md does not say what the test {name} is made of")
        check(name in every, f"docs/TESTING.md names the test {name}, which host/run.sh does not run")
    for folder in sorted(p.name for p in (ROOT / "host").iterdir() if p.is_dir()):
        check(any(f"`{folder}/`" in row[0] for row in rows), f"docs/TESTING.md does not say what host/{folder} holds")
    for name, files in made_of.items():
        folder = None  # of the path before, where a name alone stands
        for file in re.findall(r"`([\w./]+)`", files):
            path = ROOT / file if "/" in file else folder / file
            folder = path.parent
            check(path.exists(), f"docs/TESTING.md: {name} is made of {path.relative_to(ROOT)}, which is not there")


def unused():
    files = laws.load()
    check(len(files) > 500, "tools/laws.py does not find the files of the crates")
    for sentence in (*laws.unused(files), *laws.brought_in(files)):
        check(False, sentence)


def modules(*crates):
    """The files of definitions of these crates, by the names of their modules."""
    specs = (path for crate in crates for path in sorted((ROOT / f"crates/{crate}/specs").glob("*.antt")))
    return {path.stem: laws.File(path) for path in specs if not laws.is_list(path)}


def the_rules():
    page = (ROOT / "docs/RULES.md").read_text()
    said = set(re.findall(r"(?<![\w/])([A-Z]\w*\.(?!(?:antt|md)\b)[A-Za-z]\w*)", page))
    structs = re.findall(r"^pub struct (\w+) \{(.*?)^\}", (ROOT / "crates/sheet/src/lib.rt").read_text(), re.M | re.S)
    fields = {f"{struct}.{name}" for struct, body in structs for name in re.findall(r"^    pub (\w+):", body, re.M)}
    rules, others = modules("paper", "sheet"), {name: file for name, file in modules("base", "reader", "gpc", "register", "against").items() if name not in modules("paper", "sheet")}
    there = fields | {f"{module}.{name}" for module, file in {**rules, **others}.items() for name in (*file.says, *file.parts)}
    owed = fields | {f"{module}.{name}" for module, file in rules.items() for name in file.shown}
    check(len(fields) > 30 and len(owed) > 300, "tools/house.py does not find the definitions of the rules")
    for name in sorted(said | owed):
        check(name in there, f"docs/RULES.md names {name}, which is not there")
        check(name in said, f"docs/RULES.md does not name {name}")
    for module in rules:
        check(f"/specs/{module}.antt`" in page, f"docs/RULES.md does not say what {module}.antt states")
    for path in sorted(set(re.findall(r"`(crates/[^`]+)`", page))):
        check((ROOT / path).exists(), f"docs/RULES.md names {path}, which is not there")
    bare = {name for file in rules.values() for name in file.shown if re.search(r"[a-z][A-Z]|[a-z]_[a-z]", name)}
    for name in sorted(bare & set(re.findall(r"`(\w+)`", page))):
        check(False, f"docs/RULES.md names {name} without its module")


def means(cell, value):
    """Does a cell of the table of the sheets say what a record does?"""
    if value in ("true", "false"):
        return cell == {"true": "yes", "false": "no"}[value]
    if value.startswith("any"):
        return cell == "any"
    digits = cell.replace(",", "")
    return value == (str(int(digits)) if digits.isdigit() else str(ord(cell)) if len(cell) == 1 else cell)


def the_sheets():
    text = (ROOT / "crates/sheet/specs/Sheets.antt").read_text()
    found = re.findall(r"^(\w+) =\s+record \{(.*?)\}", text, re.M | re.S)
    records = {name: dict(re.findall(r"(\w+) = (\w+)", body)) for name, body in found}
    page = (ROOT / "docs/RULES.md").read_text()
    rows = [[cell.strip() for cell in line.split("|")[1:-1]] for line in page.splitlines() if line.startswith("|")]
    letters = next((row[1:-1] for row in rows if row[-1] == "field"), [])
    sheets = [name for name in records if "text" in records[name]]
    check(sheets and sheets == [f"sheet_{letter.lower()}" for letter in letters], "docs/RULES.md does not have the sheets in a table")
    left = set().union(*records.values()) - {"text"}
    for row in rows:
        struct, _, field = row[-1].strip("`").partition(".")
        if struct not in ("Sheet", "Style"):
            continue
        left.discard(field)
        for sheet, cell in zip(sheets, row[1:-1]):
            record = records[sheet] if struct == "Sheet" else records[records[sheet]["text"]]
            value = record.get(field, "not there")
            check(means(cell, value), f"docs/RULES.md: {row[-1]} of {sheet} is {value}, not {cell}")
    for field in sorted(left):
        check(False, f"docs/RULES.md: the table of the sheets has no row of {field}")
    the_flags(records, sheets, letters)


def the_flags(records, sheets, letters):
    """the table of a style's flags at the top of Texts.antt has a row for each, with the values of the records"""
    lines = (ROOT / "crates/paper/specs/Texts.antt").read_text().splitlines()
    rows = [line.split()[1:] for line in lines if line.startswith("--   ")]
    check(bool(rows) and rows[0][: len(letters) + 1] == ["flag", *letters], "Texts.antt has no table of a style's flags")
    left = set().union(*(records[records[sheet]["text"]] for sheet in sheets))
    for flag, *cells in rows[1:]:
        left.discard(flag)
        for sheet, cell in zip(sheets, cells):
            value = records[records[sheet]["text"]].get(flag, "not there")
            check(means(cell, value), f"Texts.antt: {flag} of {sheet} is {value}, not {cell}")
    for flag in sorted(left):
        check(False, f"Texts.antt: the table of flags has no row of {flag}")


def the_numbers():
    page = (ROOT / "docs/RULES.md").read_text()
    header = (ROOT / "include/abo.h").read_text()
    pairs = r"\b(ABO_\w+) = (\d+)"
    here = {name: number for number, name in re.findall(r"^\| (\d+) \| `(ABO_\w+)` \|", page, re.M)}
    there = dict(re.findall(pairs, re.search(r"enum abo_number \{(.*?)\};", header, re.S).group(1)))
    for name in sorted({*here, *there}):
        check(here.get(name) == there.get(name), f"docs/RULES.md: {name} is {here.get(name)} and in include/abo.h {there.get(name)}")
    for name in sorted(set(re.findall(r"\bABO_\w+", page))):
        check(name in dict(re.findall(pairs, header)), f"docs/RULES.md names {name}, which include/abo.h does not have")


def the_whole_run():
    page = (ROOT / "docs/RULES.md").read_text()
    for name in ("stdin", "stdout"):
        text = (ROOT / f"crates/rewrite/{name}").read_bytes().decode().replace("\r", "")
        check(f"```\n{text}```" in page, f"docs/RULES.md does not have crates/rewrite/{name} as it is")


def the_words():
    page = (ROOT / "docs/PROOFS.md").read_text()
    table = page[page.index("## What a sceptic must read"):].split("\n\n")[2]
    listed = set()
    for row in (line.split("|") for line in table.splitlines() if line.startswith("| `")):
        paths = [path for name in re.findall(r"`(crates/[^`]+)`", row[1]) for path in sorted(ROOT.glob(name))]
        count = sum(path.read_text().count("\n") for path in paths)
        check(row[2].strip() == f"{count:,}", f"docs/PROOFS.md: {row[1].strip()} have {count:,} lines, not {row[2].strip()}")
        listed |= {str(path.relative_to(ROOT / "crates").with_suffix("")) for path in paths}
    spoken = laws.spoken(laws.load())
    check(len(spoken) > 30, "tools/laws.py does not find the words of the demands")
    said = {key for key in listed if "/specs/" in key and not key.endswith("/Lib")}
    for key in sorted(spoken | said):
        check(key in said, f"docs/PROOFS.md does not list crates/{key}.antt, whose words say what is proved")
        check(key in spoken, f"docs/PROOFS.md lists crates/{key}.antt, of whose words none is needed")


def the_tools():
    said = set(re.findall(r"^\| `([\w./]+\.(?:sh|py|c))` \|", (ROOT / "docs/WORKING.md").read_text(), re.M))
    there = {str(path.relative_to(ROOT / "tools")) for path in tool_files()}
    for name in sorted(said | there):
        check(name in said and name in there, f"docs/WORKING.md and the folder of tools do not agree on {name}")


looks = [the_list, the_drawing, first_lines, roots, functions, files, layout, edits, links, paths, c_files, the_tests, unused, the_tools]
looks += [the_words, the_rules, the_sheets, the_numbers, the_whole_run]
for look in looks:
    look()
for sentence in faults:
    print(f"failed: {sentence}")
print(f"{passed} passed, {len(faults)} failed")
sys.exit(1 if faults else 0)
