#!/bin/sh
# How cost grows with the file: instructions a byte of the library and of the second program from 10 KB to 100 MB. It fails
# if those at any size are not within 10 % of those at the first one.
#
#   bench/growth.sh                              reading and writing of wages and groups; collections on C and P, cut texts on C
#   CALLS=read SHEETS='K C' KINDS=longest bench/growth.sh
#   SIZES='10000 100000 1000000' bench/growth.sh
#
# A file of S ends at 1,000 items, and one of the kind `files` at 1,000 account files: no larger one can be. Rows take 192 bytes
# for an item, so for 100 MB of the shortest items 1.1 GB are lent. The last line is 'N passed, M failed'. bench/build.sh
# and host/target.sh name the other variables.
set -eu
cd "$(dirname "$0")/.."
. bench/build.sh

alike() { # WHAT A B
    check "$1: $2 instructions a byte on a smaller file, $3 on a larger" holds "$3 <= $2 * 1.1 && $2 <= $3 * 1.1"
}

grow() { # CALL SHEET KIND
    before=0
    for size in ${SIZES:-10000 100000 1000000 10000000 100000000}; do
        a_byte "$1" "$2" "$3" "$size" || { refused "$1 $2 $3"; return; }
        if [ "$bytes" = "$before" ]; then
            echo "      no file of this kind is larger"
            return
        fi
        printf '%-5s %-11s %10s %9s %9s\n' "$2" "$3" "$bytes" "$library" "$peer"
        if [ "$before" = 0 ]; then
            first_library=$library first_peer=$peer
        else
            alike "$1 $2 $3 by the library" "$first_library" "$library"
            alike "$1 $2 $3 by the second program" "$first_peer" "$peer"
        fi
        before=$bytes
    done
}

for call in ${CALLS:-read write}; do
    printf '%s\n%-5s %-11s %10s %9s %9s\n' "$call" sheet kind bytes library peer
    for sheet in ${SHEETS:-K S C E P}; do
        for kind in $(kinds_for "$call" "$sheet" wages groups); do grow "$call" "$sheet" "$kind"; done
    done
done
last_line
