#!/bin/sh
# What it costs to say why a file is refused in its last line, beside what judging it costs on all known sheets: for each sheet and kind of
# file the instructions a byte of both, and their ratio, which is to be at most LIMIT.
#
#   bench/passes.sh                                  files of 10 MB; explaining and listing
#   SHEETS='K C' KINDS=wages BYTES=300000 bench/passes.sh
#   LIMIT=1.1 bench/passes.sh                        fails where telling takes more than so many times the instructions
#
# Judging is reading with no room for rows, which ends with its first pass. The last line is 'N passed, M failed'. bench/build.sh and
# host/target.sh name the other variables.
set -eu
cd "$(dirname "$0")/.."
. bench/build.sh
build_test passes || exit 2
measure=$build/passes
size=${BYTES:-10000000}

line() { # SHEET KIND
    none=$(counted none "$1" "$2" "$size") && bytes=$(said bytes) && judge=$(counted judge "$1" "$2" "$size") || { refused "$1 $2"; return; }
    for call in explain findings; do
        told=$(counted $call "$1" "$2" "$size") || { refused "$call $1 $2"; return; }
        ratio=$(quotient $((told - none)) $((judge - none)))
        printf '%-9s %-5s %-11s %10s %9s %9s %7s\n' $call "$1" "$2" "$bytes" "$(quotient $((told - none)) "$bytes")" "$(quotient $((judge - none)) "$bytes")" "$ratio"
        check "$call $1 $2: $ratio times the passes of judging, over ${LIMIT:-}" holds "$ratio <= ${LIMIT:-$ratio}"
    done
}

printf '%-9s %-5s %-11s %10s %9s %9s %7s\n' call sheet kind bytes told judged ratio
for sheet in ${SHEETS:-K S C E P}; do
    for kind in ${KINDS:-wages invoices shortest longest groups files}; do line "$sheet" "$kind"; done
done
last_line
