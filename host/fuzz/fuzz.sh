#!/bin/sh
# Looks for a difference between the library and the second program with clang's libFuzzer, which follows the branches that the second
# program takes. It begins with generated files, batches, statements and registers. A difference stops it, and the input stays in the folder it names.
#
#   host/fuzz/fuzz.sh [SECONDS]          default 300
#   FILL=1 host/fuzz/fuzz.sh [SECONDS]   then fills host/fuzz/corpus anew: an input for each call and number, and those that add the most
#                                        branches
#
# On x86-64 the fuzzer links the archive; elsewhere it is built for this machine, and a server makes the library's calls
# (host/fuzz/call_by_server.c). CLANG is the compiler (default clang); host/target.sh names the other variables. The last line is 'N passed,
# M failed', N being the inputs that were kept, each of which took a way that no other did.
set -u
cd "$(dirname "$0")/../.." || exit 2
seconds=${1:-300}
longest=1400
. host/target.sh
work=$build/fuzz_work
mkdir -p "$work/made" "$work/found" || exit 2
build_test fuzz library_server || exit 2
parts=$(sh host/parts.sh host/fuzz/fuzz.c)
linked=$lib
if [ -n "$run" ]; then
    parts=$({ echo "$parts"; sh host/parts.sh host/fuzz/call_by_server.c; } | sort -u | grep -v host/call/call_abo.c)
    linked=''
    export SERVER="$run $build/library_server"
fi
# shellcheck disable=SC2086
$run "$build/fuzz" -make "$work/made" 4000 || exit 2

# All in one, since the second program must be compiled so that its branches can be followed.
# shellcheck disable=SC2086
${CLANG:-clang} -std=c11 ${CFLAGS:--O2} -Iinclude -DLIBFUZZER -fsanitize=fuzzer -o "$build/libfuzzer" $parts $linked || {
    echo "no libFuzzer: ${CLANG:-clang} -fsanitize=fuzzer does not link here" >&2
    exit 2
}

merge() { # CONTROL TO FROM ..: the inputs that take all branches taken. Without counters it is all one how often
    control=$1
    shift
    "$build/libfuzzer" -set_cover_merge=1 -use_counters=0 -max_len="$longest" -merge_control_file="$control" "$@" >"$work/merge.log" 2>&1 || {
        tail -n 3 "$work/merge.log" >&2
        exit 2
    }
}

one_of_each() { # FOLDER: the shortest input for each call and number; what chooses no call is thrown away
    for name in $(ls -S -r "$1"); do
        # shellcheck disable=SC2086
        if $run "$build/fuzz" "$1/$name" >"$work/one.log"; then
            echo "$(sed -n 1p "$work/one.log") $1/$name"
        else
            rm "$1/$name"
        fi
    done | awk '{ input = $NF; $NF = "" } !($0 in seen) { seen[$0]; print input }'
}

choose() { # FIRST CONTROL: then always the input that adds the most branches to those of the ones before, up to 80
    awk -v most=80 '
        function take(i) { chosen++; print name[i]; n = split(branches[i], list, " "); for (k = 1; k <= n; k++) taken[list[k]] }
        FNR == NR { first[$1]; next }
        FNR == 1 { inputs = $1 }
        FNR > 2 && named < inputs { name[named++] = $1; next }
        $1 == "FT" { i = $2; sub(/^FT [0-9]+ */, "", $0); branches[i] = $0 }
        END {
            for (i = 0; i < inputs; i++) if (name[i] in first) take(i)
            while (chosen < most) {
                best = 0
                for (i = 0; i < inputs; i++) {
                    gain = 0
                    n = split(branches[i], list, " ")
                    for (k = 1; k <= n; k++) gain += !(list[k] in taken)
                    if (gain > best) { best = gain; which = i }
                }
                if (best == 0) exit
                take(which)
            }
        }' "$1" "$2"
}

fill_corpus() {
    rm -rf "$work/fewest" "$work/again" "$work/first.control" "$work/second.control"
    mkdir -p "$work/fewest" "$work/again" host/fuzz/corpus
    merge "$work/first.control" "$work/fewest" "$work/found" "$work/made"
    # Some numbers take no branch of their own.
    for input in $(one_of_each "$work/made"); do cp "$input" "$work/fewest"; done
    one_of_each "$work/fewest" >"$work/first"
    # The second time there are few enough inputs to compare each with each.
    merge "$work/second.control" "$work/again" "$work/fewest"
    rm -f host/fuzz/corpus/*
    choose "$work/first" "$work/second.control" | while read -r input; do
        cp "$input" "host/fuzz/corpus/$(basename "$input" | cut -c 1-12)"
    done
}

"$build/libfuzzer" -max_len="$longest" -max_total_time="$seconds" -artifact_prefix="$work/" -verbosity=0 "$work/found" "$work/made"
status=$?
count=$(ls "$work/found" | wc -l)
if [ "$status" -ne 0 ]; then
    echo "$count passed, 1 failed"
    exit 1
fi
if [ "${FILL:-0}" = 1 ]; then fill_corpus; fi
echo "$count passed, 0 failed"
