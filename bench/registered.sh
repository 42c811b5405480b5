#!/bin/sh
# What a register of the day's numbers costs. For each kind of K's files and each size: the instructions a byte of reading without one, of
# reading against one with nothing marked, and of reading against one in which the last account file's number is used, so that the file is
# refused there; the ratio of each of the two to the first; and on x86-64 the same ratios of time, of medians of runs that take turns. Then the
# instructions of asking for the lowest number and for how many are free.
#
#   bench/registered.sh                                files of 10 MB and of 70 KB; `files` has 70 KB, 1,000 account files, at most
#   SIZES=70000 KINDS='wages files' bench/registered.sh
#   LIMIT=1.01 TWICE=2 bench/registered.sh             fails where the ratio of instructions is above these, which are the default
#   TIMES=0 bench/registered.sh                        how often each is timed (9 on x86-64, elsewhere 0)
#
# It also fails where a question takes more than it takes in a full register. The last line is 'N passed, M failed'. bench/build.sh and
# host/target.sh name the other variables.
set -eu
cd "$(dirname "$0")/.."
. bench/build.sh
build_test register_cost || exit 2
measure=$build/register_cost
times=${TIMES:-$([ -n "$run" ] && echo 0 || echo 9)}

ratio() { # A B: to four places, since one part in a hundred is looked for
    awk -v a="$1" -v b="$2" 'BEGIN { printf "%.4f", a / b }'
}

timed() { # KIND SIZE: the ratios of time
    "$measure" "$times" "$1" "$2" >"$build/measure.out" 2>"$build/measure.err" || return 1
    printf ' %7s %7s' "$(quotient "$(said registered_ns)" "$(said read_ns)")" "$(quotient "$(said used_ns)" "$(said read_ns)")"
}

line() { # KIND SIZE
    none=$(counted none "$1" "$2") && bytes=$(said bytes) && files=$(said files) &&
        read=$(counted read "$1" "$2") && registered=$(counted registered "$1" "$2") && used=$(counted used "$1" "$2") ||
        { refused "$1 $2"; return; }
    read=$((read - none)) registered=$((registered - none)) used=$((used - none))
    more=$(ratio "$registered" "$read")
    late=$(ratio "$used" "$read")
    speed=
    if [ "$times" -gt 0 ]; then speed=$(timed "$1" "$2") || { refused "$1 $2"; return; }; fi
    printf '%-9s %9s %6s %8s %10s %8s %8s %8s%s\n' "$1" "$bytes" "$files" "$(quotient "$read" "$bytes")" "$(quotient "$registered" "$bytes")" "$more" \
        "$(quotient "$used" "$bytes")" "$late" "$speed"
    check "$1 $2: against a register $more times the instructions of reading, over ${LIMIT:-1.01}" holds "$more <= ${LIMIT:-1.01}"
    check "$1 $2: refused with 22 at the last account file $late times the instructions, over ${TWICE:-2}" holds "$late <= ${TWICE:-2}"
}

question() { # lowest|free: at most what a full register takes
    none=$(counted none 1000) && full=$(counted "$1" 1000) || { refused "$1"; return; }
    full=$((full - none))
    printf '%-9s' "$1"
    for marked in 0 1 500 999 1000; do
        none=$(counted none "$marked") && took=$(counted "$1" "$marked") || { refused "$1 $marked"; return; }
        printf ' %4s: %-4s' "$marked" $((took - none))
        check "$1: $((took - none)) instructions with $marked marked, $full with all" holds "$((took - none)) <= $full"
    done
    echo
}

printf '%-9s %9s %6s %8s %10s %8s %8s %8s' kind bytes files read registered ratio used ratio
if [ "$times" -gt 0 ]; then printf ' %7s %7s' 'time' 'used'; fi
echo
for size in ${SIZES:-10000000 70000}; do
    for kind in ${KINDS:-wages invoices shortest longest groups files}; do line "$kind" "$size"; done
done
echo 'instructions of a question, by how many numbers are marked'
for what in lowest free; do question "$what"; done
last_line
