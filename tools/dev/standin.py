#!/usr/bin/env python3
"""Translates the crates to Rust, without their contracts and unproved, and compiles them with rustc to a static library of the same calls, in the
same three units. So code is measured before it is proved, in seconds; nothing of it is in the product or in the gate.

  tools/dev/standin.py build/standin.a      then: LIB=build/standin.a BYTES=300000 TIMES=0 bench/run.sh

Its counts of reading were between 3 % above and 11 % below the archive's where both were taken; its counts of writing are nearly
twice the archive's, so it serves for reading alone. Indices are not tested in it: they were proved to be inside."""
import pathlib
import re
import subprocess
import sys

ROOT = pathlib.Path(__file__).resolve().parent.parent.parent
sys.path.insert(0, str(ROOT / "tools"))
import copies

# what the language has and a crate without Rust's library lacks
FRONT = """#![allow(warnings)]
#![no_std]
#[unsafe(no_mangle)] pub extern "C" fn rust_eh_personality() {}
#[panic_handler] fn panic(_: &core::panic::PanicInfo) -> ! { loop {} }
pub mod num {
    #[inline(always)] pub fn wrapping_sub_u64(a: u64, b: u64) -> u64 { a.wrapping_sub(b) }
    #[inline(always)] pub fn wrapping_add_usize(a: usize, b: usize) -> usize { a.wrapping_add(b) }
}
"""

PLACE = r"(\w+(?:\.\w+)*)"


UNITS = ["abo_c", "tell_c", "enrol_c"]


def libraries(unit):
    """The crates of a unit's calls and those that they stand on: what is above them makes the calls, which are C's here."""
    return [name for name in copies.below(unit) if (ROOT / "crates" / name / "src/lib.rt").exists()]


def without_contracts(source):
    """The source without clauses, which end where their braces do, lines for the prover, and derives: each struct gets Rust's own"""
    kept, open_braces = [], 0
    for line in source.splitlines(keepends=True):
        if open_braces or re.match(r"\s*(requires|ensures)\b.*\{", line):
            open_braces += line.count("{") - line.count("}")
        elif not re.match(r"\s*(ghost |#!?\[(tactic|cycle|derive|repr)\b)", line):
            kept.append(line)
    return "".join(kept)


def untested_indices(source):
    source = re.sub(rf"&mut {PLACE}\[([^\[\]]*\.\.[^\[\]]*)\]", r"\1.get_unchecked_mut(\2)", source)
    source = re.sub(rf"&{PLACE}\[([^\[\]]*\.\.[^\[\]]*)\]", r"\1.get_unchecked(\2)", source)
    source = re.sub(rf"(?m)^(\s*){PLACE}\[([^\[\]]+)\] ([-+*|&]?=)(?!=) ", r"\1*\2.get_unchecked_mut(\3) \4 ", source)
    word = r"(?<![\w#&\]])((?!mut\b|let\b|return\b|match\b|in\b|if\b)[a-z_]\w*(?:\.\w+)*)"
    return re.sub(rf"{word}\[([^\[\]]+)\]", r"(*\1.get_unchecked(\2))", source)


def lent_in_two_words(call):
    """C hands a slice over as a pointer and a count; Rust's own rule for slices in C calls differs where registers run out."""
    head, body = call.group(1), call.group(2)
    slices = "".join(
        f"let {name} = core::slice::from_raw_parts{'_mut' if mut else ''}({name}_at, {name}_len);\n"
        for name, mut in re.findall(r"(\w+): &(mut )?\[u8\]", head)
    )
    head = re.sub(r"(\w+): &mut \[u8\]", r"\1_at: *mut u8, \1_len: usize", head)
    head = re.sub(r"(\w+): &\[u8\]", r"\1_at: *const u8, \1_len: usize", head)
    return head + "{\n" + slices + body


def joined(name):
    """The crate's root with its modules inside, each path from the top of all crates."""
    folder = ROOT / "crates" / name / "src"
    source = (folder / "lib.rt").read_text()
    inner = re.findall(r"(?m)^pub mod (\w+);\n", source)
    source = re.sub(r"(?m)^pub mod \w+;\n", "", source)
    source += "".join(f"pub mod {module} {{\n{(folder / f'{module}.rt').read_text()}\n}}\n" for module in inner)
    return source.replace("crate::", f"{name}::")


def translated(name, names):
    source = untested_indices(without_contracts(joined(name)))
    source = source.replace("std::num::", "crate::num::")
    source = re.sub(rf"(?<![\w:.])({'|'.join(names)})::", r"crate::\1::", source)
    source = re.sub(r"(?m)^(pub )?(struct|enum) ", r"#[derive(Clone, Copy)] \1\2 ", source)
    source = source.replace("(Clone, Copy)] pub struct Abo", "(Clone, Copy)] #[repr(C)] pub struct Abo")
    source = re.sub(r'(?m)^(\s*)(pub )?(extern "C" )?fn ', r"\1\2unsafe \3fn ", source)
    source = re.sub(r'(?ms)^(pub unsafe extern "C" fn .*?)^\{(.*?^\})', lent_in_two_words, source)
    return f"pub mod {name} {{ use super::*;\n{source}\n}}\n"


def compiled(unit, folder):
    """The unit's object, in which its calls alone are seen from outside."""
    names = libraries(unit)
    rust, whole, compiled = (folder / f"standin_{unit}.{end}" for end in ("rs", "a", "o"))
    rust.write_text(FRONT + "".join(translated(name, names) for name in names))
    calls = re.findall(r'extern "C" fn (\w+)', (ROOT / "crates" / unit / "src/lib.rt").read_text())
    options = ["--edition", "2021", "--crate-type", "staticlib", "--crate-name", "standin", "-C", "opt-level=3", "-C", "panic=abort"]
    subprocess.run(["rustc", *options, "-C", "codegen-units=1", "-o", whole, rust], check=True)
    subprocess.run(["ld", "-r", "--gc-sections", "-o", compiled, *(f"--undefined={call}" for call in calls), whole], check=True)
    subprocess.run(["objcopy", "--remove-section=.llvmbc", "--remove-section=.llvmcmd", *(f"--keep-global-symbol={call}" for call in calls), compiled], check=True)
    return compiled


def main():
    if len(sys.argv) != 2 or sys.argv[1].startswith("-"):
        sys.exit(__doc__)
    archive = pathlib.Path(sys.argv[1])
    archive.parent.mkdir(parents=True, exist_ok=True)
    archive.unlink(missing_ok=True)
    objects = [compiled(unit, archive.parent) for unit in UNITS]
    sys.exit(subprocess.run(["ar", "rcs", archive, *objects]).returncode)


if __name__ == "__main__":
    main()
