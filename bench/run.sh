#!/bin/sh
# What the library costs beside the second program: for each sheet and kind of file the instructions a byte of both and their
# ratio; and on x86-64, where both run as they are, the megabytes a second, each the median of several runs in one process.
# Lower ratios are better for the library, of instructions and of time alike.
#
#   bench/run.sh                                 reading and writing, files of 10 MB
#   CALLS='read write explain findings' bench/run.sh   these calls; a byte is one of the file read, or written
#   CALLS=read_registered SHEETS=K bench/run.sh  reading against a register of the day's numbers
#   SHEETS='K C' KINDS=wages bench/run.sh        some of them; host/generate/sized.h names the kinds
#   BYTES=100000 bench/run.sh                    another size
#   TIMES=0 bench/run.sh                         how often each is timed (9 on x86-64, elsewhere 0: an emulator's time says nothing)
#   LIMIT=1.0 bench/run.sh                       fails where the library takes more than so many times the instructions
#   BY=1 bench/run.sh                            and by function, below each line (bench/profile.sh)
#
# A file of S ends at 1,000 items and one of the kind `files` at 1,000 account files, so these are smaller. That both calls
# accept each file, give the same count of bytes and, if timed, leave the same bytes, is tested too. The last line is
# 'N passed, M failed'. bench/build.sh and host/target.sh name the other variables.
set -eu
cd "$(dirname "$0")/.."
. bench/build.sh
size=${BYTES:-10000000}
times=${TIMES:-$([ -n "$run" ] && echo 0 || echo 9)}

timed() { # CALL SHEET KIND: megabytes a second of both and the ratio of their times
    "$measure" "$1" "$times" "$2" "$3" "$size" >"$build/measure.out" 2>"$build/measure.err" || return 1
    awk -v b="$(said bytes)" -v l="$(said abo_ns)" -v p="$(said peer_ns)" \
        'BEGIN { printf " %9.1f %9.1f %7.2f", b * 1000 / l, b * 1000 / p, l / p }'
}

line() { # CALL SHEET KIND
    a_byte "$1" "$2" "$3" "$size" || { refused "$1 $2 $3"; return; }
    ratio=$(quotient "$library" "$peer")
    speed=
    if [ "$times" -gt 0 ]; then speed=$(timed "$1" "$2" "$3") || { refused "$1 $2 $3"; return; }; fi
    printf '%-5s %-11s %10s %9s %9s %7s%s\n' "$2" "$3" "$bytes" "$library" "$peer" "$ratio" "$speed"
    check "$1 $2 $3: $ratio times the instructions, over ${LIMIT:-}" holds "$ratio <= ${LIMIT:-$ratio}"
    if [ -n "${BY:-}" ]; then for who in abo peer; do LIB=$lib sh bench/profile.sh "$1" $who "$2" "$3" "$size"; done; fi
}

for call in ${CALLS:-read write}; do
    printf '%s\n%-5s %-11s %10s %9s %9s %7s' "$call" sheet kind bytes library peer ratio
    if [ "$times" -gt 0 ]; then printf ' %9s %9s %7s' 'lib MB/s' 'peer MB/s' ratio; fi
    echo
    for sheet in ${SHEETS:-K S C E P}; do
        for kind in $(kinds_for "$call" "$sheet" wages invoices shortest longest groups files); do line "$call" "$sheet" "$kind"; done
    done
done
last_line
