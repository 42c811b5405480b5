#!/bin/sh
# Where a call's instructions go, for each item of a file: by function, or instruction by instruction in one of them.
#
#   bench/profile.sh read abo K wages               CALL WHO SHEET KIND [BYTES]: 1 MB by default; WHO is abo or peer
#   bench/profile.sh read abo K wages 1000000 NAME  the instructions of function NAME, each with how often an item executes it
#
# `own` are a function's instructions, `whole` those with what it calls, `calls` how often it is entered. It needs a
# qemu-x86_64 that takes a plugin (apt-get install qemu-user) and objdump. host/target.sh names the other variables.
set -eu
cd "$(dirname "$0")/.."
[ $# -ge 4 ] || { sed -n 's/^# \{0,1\}//; 2,6p' "$0" >&2; exit 2; }
COUNTER=qemu
. bench/build.sh
call=$1 who=$2 sheet=$3 kind=$4 size=${5:-1000000} name=${6:-}

TO=$build/none.functions counted "$call" none "$sheet" "$kind" "$size" >/dev/null
TO=$build/functions AT=$build/places counted "$call" "$who" "$sheet" "$kind" "$size" >/dev/null
items=$(said items)

if [ -z "$name" ]; then
    # What making the file took is taken off again.
    echo "$call $who $sheet $kind: $items items, $(said bytes) bytes; for each item"
    echo "      own     whole   calls  function"
    awk -v items="$items" '
        NR == FNR { own[$4] = $1; whole[$4] = $2; calls[$4] = $3; next }
        $1 - own[$4] >= items / 10 || $2 - whole[$4] >= items {
            printf "%9.1f %9.1f %7.2f  %s\n", ($1 - own[$4]) / items, ($2 - whole[$4]) / items, ($3 - calls[$4]) / items, $4
        }' "$build/none.functions" "$build/functions" | sort -rn
else
    objdump=$(command -v x86_64-linux-gnu-objdump || echo objdump)
    "$objdump" -d --no-show-raw-insn --disassemble="$name" "$measure" | awk -v items="$items" '
        NR == FNR { runs[$2] += $1; next }
        /^ *[0-9a-f]+:/ {
            place = $1; sub(":", "", place)
            if (place in runs) printf "%9.2f %s\n", runs[place] / items, $0; else printf "%9s %s\n", ".", $0
        }' "$build/places" -
fi
