#!/bin/sh
# The rewriting program over the inputs of host/runs: what it writes for NAME.in is NAME.out, byte by byte. These were written by the second
# program (peer/rewrite.c). The last line is 'N passed, M failed', and the exit status is 0 only if nothing failed.
#
#   host/rewrite_runs.sh                         `rt ci`, or `rt run` in crates/rewrite, first writes crates/rewrite/out/rewrite
#   PROGRAM=build/peer/rewrite host/rewrite_runs.sh    another program, here the second one as peer/test.sh builds it
#
# The program is x86-64; elsewhere it is run by qemu, unless PROGRAM names another one.
set -u
cd "$(dirname "$0")/.." || exit 2
program=${PROGRAM:-crates/rewrite/out/rewrite}
[ -x "$program" ] || { echo "$program is not there: run rt run in crates/rewrite" >&2; exit 2; }
. host/target.sh
. host/tally.sh
[ -z "${PROGRAM:-}" ] || run=
out=$(mktemp) || exit 2
trap 'rm -f "$out"' EXIT
rewritten() { # NAME.in: is written as NAME.out
    $run "$program" <"$1" >"$out" && cmp "$out" "${1%.in}.out"
}
for input in host/runs/*.in; do check "$input" rewritten "$input"; done
last_line
