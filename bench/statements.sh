#!/bin/sh
# What statements cost: for reading and writing, each kind of file and each size, the instructions a record of the library and of the
# second program and their ratio; on x86-64 also the megabytes a second, at the last size. It fails if the instructions at any size are not
# within 10 % of those at the first one.
#
#   bench/statements.sh                          10 KB to 100 MB: some 5 minutes by valgrind
#   SIZES='10000 1000000' bench/statements.sh    other sizes, in bytes of the file
#   CALLS=statement_read KINDS=one bench/statements.sh
#   LIMIT=1.0 bench/statements.sh                fails where the library takes more than so many times the instructions
#   TIMES=0 bench/statements.sh                  how often each is timed (9 on x86-64, elsewhere 0)
#
# The kinds are one statement of all movements (`one`), statements of one movement (`single`) and of 1,000 (`thousand`). A record has 130
# bytes, its row 136. The lines are those of a table of docs/SPEED.md. The last line is 'N passed, M failed'. bench/build.sh and
# host/target.sh name the other variables.
set -eu
cd "$(dirname "$0")/.."
. bench/build.sh
sizes=${SIZES:-10000 100000 1000000 10000000 100000000}
times=${TIMES:-$([ -n "$run" ] && echo 0 || echo 9)}

a_record() { # CALL KIND SIZE: sets records, and library and peer to the instructions a record; false if a call refused
    none=$(counted "$1" none - "$2" "$3") &&
        library=$(counted "$1" abo - "$2" "$3") &&
        records=$(said items) &&
        peer=$(counted "$1" peer - "$2" "$3") &&
        library=$(quotient $((library - none)) "$records") &&
        peer=$(quotient $((peer - none)) "$records")
}

timed() { # CALL KIND SIZE: megabytes a second of both and the ratio of their times, as cells
    "$measure" "$1" "$times" - "$2" "$3" >"$build/measure.out" 2>"$build/measure.err" || return 1
    awk -v b="$(said bytes)" -v l="$(said abo_ns)" -v p="$(said peer_ns)" \
        'BEGIN { printf "%.1f | %.1f | %.2f", b * 1000 / l, b * 1000 / p, l / p }'
}

alike() { # WHAT A B
    check "$1: $2 instructions a record in a smaller file, $3 in a larger" holds "$3 <= $2 * 1.1 && $2 <= $3 * 1.1"
}

grow() { # CALL KIND
    first=
    for size in $sizes; do
        a_record "$1" "$2" "$size" || { refused "$1 $2"; return; }
        ratio=$(quotient "$library" "$peer")
        speed=' | | '
        if [ "$times" -gt 0 ] && [ "$size" = "${sizes##* }" ]; then speed=$(timed "$1" "$2" "$size") || { refused "$1 $2"; return; }; fi
        echo "| $1 | $2 | $records | $library | $peer | $ratio | $speed |"
        check "$1 $2: $ratio times the instructions, over ${LIMIT:-}" holds "$ratio <= ${LIMIT:-$ratio}"
        if [ -z "$first" ]; then
            first=$library first_peer=$peer
        else
            alike "$1 $2 by the library" "$first" "$library"
            alike "$1 $2 by the second program" "$first_peer" "$peer"
        fi
    done
}

echo '| call | kind | records | library | peer | ratio | MB/s | peer | ratio |'
echo '|---|---|---|---|---|---|---|---|---|'
for call in ${CALLS:-statement_read statement_write}; do
    for kind in ${KINDS:-one single thousand}; do grow "$call" "$kind"; done
done
last_line
