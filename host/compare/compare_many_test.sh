#!/bin/sh
# Compares eleven of the calls with the second program's on many files, the library being in a process of its own
# (host/compare/compare_many.c); then sees that wrong answers and a server that ends are found. The last line is 'N passed, M failed'.
#
#   host/compare/compare_many_test.sh FILES SEED     so many files for each call, from this seed on
#
# host/target.sh names the variables.
set -u
cd "$(dirname "$0")/../.." || exit 2
. host/target.sh
. host/tally.sh
[ $# -eq 2 ] || { sed -n '2,7s/^# \{0,1\}//p' "$0" >&2; exit 2; }
files=$1
seed=$2
calls='read write explain findings statement_read statement_write read_registered register_start register_lowest register_free register_give_back'
build_test library_server wrong_server native/compare_many || exit 2

compare() { # CALL FILES SERVER
    # shellcheck disable=SC2086
    "$build/native/compare_many" "$1" "$2" "$seed" $run "$3"
}

finds_wrong() { # CALL: host/compare/wrong_server.c spoils every hundredth call, in each of its ten ways twice
    last=$(compare "$1" 2000 "$build/wrong_server" | tail -n 1)
    echo "$last"
    [ "$last" = "1981 passed, 20 failed" ]
}

for call in $calls; do
    echo "$call:"
    add "$call" compare "$call" "$files" "$build/library_server"
done
for call in $calls; do
    check "each wrong answer is found, and no other: $call" finds_wrong "$call"
done
check "a server that ends at once is found" refuses "$build/native/compare_many" read 1 "$seed" true
last_line
