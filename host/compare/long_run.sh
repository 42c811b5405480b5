#!/bin/sh
# The long comparison of the library with the second program (host/compare/compare_many.c): each of seven calls on so many files, from this
# seed on, one call after another, its files in equal parts on all cores. Prints for each the first seed, the files asked for, the calls
# compared, the differences found and the seconds; below it how often each number came. What was said of differences is kept in
# build/long_run. The exit status is 0 only if there is none.
#
#   host/compare/long_run.sh FILES SEED [FILES SEED ..]
#   CALLS=read host/compare/long_run.sh 10000000 1000001      some of read, write, explain, findings, line, statement_read, statement_write, read_registered
#                                                             and those of a register: register_start and its kin
#   CORES=1 host/compare/long_run.sh 1000000 1                on so many cores (default: all)
#
# host/target.sh names the other variables.
set -u
cd "$(dirname "$0")/../.." || exit 2
. host/target.sh
[ $# -ge 2 ] && [ $(($# % 2)) -eq 0 ] || { sed -n '2,12s/^# \{0,1\}//p' "$0" >&2; exit 2; }
cores=${CORES:-$(nproc)}
build_test library_server native/compare_many || exit 2
kept=$build/long_run
mkdir -p "$kept" || exit 2
wrong=0

row() { printf '%-18s %12s %12s %12s %12s %9s\n' "$@"; }

compare() { # CALL FILES SEED: leaves a log for each core; the status is 0 if each of them passed
    rm -f "$kept/$1.$3".*.log
    started=''
    part=0
    while [ "$part" -lt "$cores" ]; do
        first=$(($2 * part / cores))
        part=$((part + 1))
        # shellcheck disable=SC2086
        "$build/native/compare_many" "$1" $(($2 * part / cores - first)) $(($3 + first)) $run "$build/library_server" >"$kept/$1.$3.$part.log" 2>&1 &
        started="$started $!"
    done
    bad=0
    for one in $started; do wait "$one" || bad=1; done
    return "$bad"
}

told() { # CALL FILES SEED SECONDS: adds up what the logs say
    cat "$kept/$1.$3".*.log | awk -v cores="$cores" '
        /^number +[0-9]+: [0-9]+$/ { number = $2 + 0; if (number > last) last = number; came[number] += $3; calls += $3 }
        /^[0-9]+ passed, [0-9]+ failed$/ { ended++; differences += $3 }
        END {
            print calls + 0, (ended == cores ? differences : "?")
            for (number = 0; number <= last; number++) if (came[number] > 0) { printf "%s%d: %d", comma, number, came[number]; comma = ", " }
            print ""
        }' | {
        read -r calls differences
        read -r numbers
        row "$1" "$3" "$2" "$calls" "$differences" "$4"
        echo "                numbers $numbers"
        [ "$calls" -eq "$2" ]
    }
}

row call seed files calls differences seconds
while [ $# -gt 0 ]; do
    for call in ${CALLS:-read write explain findings statement_read statement_write read_registered}; do
        began=$(date +%s)
        compare "$call" "$1" "$2" || wrong=1
        told "$call" "$1" "$2" $(($(date +%s) - began)) || wrong=1
    done
    shift 2
done
exit "$wrong"
