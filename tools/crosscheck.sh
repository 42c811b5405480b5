#!/usr/bin/env bash
# The definitions against the second program, with nothing between them: random files and batches, statements, and registers are answered by
# peer/, and the prover computes what the definitions of crates/paper, crates/why, crates/gpc, crates/register and crates/against answer; each
# equation is one that it must accept.
# The last line is 'N passed, M failed'.    tools/crosscheck.sh [SEED [FILES [BATCHES]]]
set -eu
cd "$(dirname "$0")/.."
build=${BUILD_DIR:-build/peer}
# apart from the repository, whose gate takes no file of definitions or proofs outside its crates
work=$(mktemp -d)
trap 'rm -rf "$work"' EXIT
mkdir -p "$build" "$work/crates"
sources=$(ls peer/*.c | grep -v rewrite.c)
# shellcheck disable=SC2086
gcc -std=c11 -O2 -shared -fPIC -o "$build/libpeer.so" $sources
for crate in base sheet paper why gpc; do
    mkdir "$work/crates/$crate"
    cp -r "crates/$crate/src" "crates/$crate/specs" "$work/crates/$crate/"
    [ ! -d "crates/$crate/proofs" ] || cp -r "crates/$crate/proofs" "$work/crates/$crate/"
done
rm -r "$work/crates/why/proofs" # they stand on more crates; its definitions do not
# of these, the definitions that stand on no code
definitions() { # CRATE MODULE ..
    crate=$1
    shift
    mkdir -p "$work/crates/$crate/src" "$work/crates/$crate/specs"
    printf '%s\n' '// Definitions. No code.' '#![tactic(auto)]' >"$work/crates/$crate/src/lib.rt"
    for module in "$@"; do
        cp -r "crates/$crate/specs/$module".antt "$work/crates/$crate/specs/"
        echo "pub mod $module"
    done >"$work/crates/$crate/specs/Lib.antt"
}
definitions fileline seen
mkdir "$work/crates/fileline/specs/seen"
cp crates/fileline/specs/seen/Bits.antt "$work/crates/fileline/specs/seen/"
definitions register Marks Register
definitions against Against Registered
mkdir -p "$work/crates/crosscheck/src" "$work/crates/crosscheck/proofs"
printf 'base:\nsheet: base\npaper: base sheet\nwhy: base sheet paper\ngpc: base paper\nfileline: base paper\nregister: base paper fileline\nagainst: base sheet paper register\ncrosscheck: base sheet paper why gpc fileline register against\n' >"$work/crates.txt"
printf '%s\n' '// Equations between the definitions and the second program. No code.' '#![tactic(auto)]' >"$work/crates/crosscheck/src/lib.rt"
cases=$(python3 tools/crosscheck.py "$build/libpeer.so" "$work/crates/crosscheck/proofs" "${1:-1}" "${2:-120}" "${3:-110}")
if (cd "$work/crates/crosscheck" && rt check >"$work/check.log" 2>&1); then
    echo "$cases passed, 0 failed"
else
    grep -a 'error' "$work/check.log" | cut -c1-300 | head -n 20
    wrong=$(grep -ac 'error: `case' "$work/check.log" || true)
    [ "$wrong" -gt 0 ] || wrong=1
    echo "$((cases - wrong)) passed, $wrong failed"
    exit 1
fi
