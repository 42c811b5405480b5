#!/bin/sh
# The tests of the C side, one after another, each with the seconds that it took. The last line is 'N passed, M failed', and the exit
# status is 0 only if nothing failed. docs/TESTING.md says what each of them does.
#
#   host/run.sh                  all of them; `make test` is the same
#   host/run.sh compare_read ..  those named, in this order
#   FILES=1000000 host/run.sh    how many files and batches are generated; SEED is the first one's seed
#   STEP=1 host/run.sh           every so many-th of the large files is tried
#
# By default 150,000 files are generated and all large ones tried. By an emulator, which is some 25 times slower, 4,000 and every fifth;
# but ten times as many in `compare_many`, which has only the library's calls emulated.
# host/target.sh names the other variables.
set -u
cd "$(dirname "$0")/.." || exit 2
. host/target.sh
. host/tally.sh
if [ -z "$run" ]; then files=150000 step=1 times=1; else files=4000 step=5 times=10; fi
files=${FILES:-$files}
seed=${SEED:-1}
step=${STEP:-$step}
all='header boundary statement_samples api installed first_run demo_test letters_test output_test abo_test tell_test register_test orderbook_test corpus stack attack compare_read compare_write compare_explain compare_line compare_statement compare_register compare_many'

program() { # NAME ARG ..: builds a test that is a program, and runs it
    build_test "$1" || return
    program=$build/$1
    shift
    # shellcheck disable=SC2086
    $run "$program" "$@"
}

run_test() { # NAME
    case $1 in
    header | api | installed | first_run) sh "host/api/$1.sh" ;;
    demo_test) sh host/demo_test.sh ;;
    letters_test) build_test native/letters_test && "$build/native/letters_test" ;;
    output_test) sh host/common/output_test.sh ;;
    abo_test | tell_test | register_test) sh "host/abo/$1.sh" ;;
    orderbook_test) sh host/orderbook/orderbook_test.sh ;;
    compare_many) sh host/compare/compare_many_test.sh "$((files * times))" "$seed" ;;
    boundary) program boundary ;;
    statement_samples) program statement_samples host/statements ;;
    corpus) program fuzz host/fuzz/corpus/* ;;
    stack) program stack 0 "$seed" "$step" ;;
    attack | compare_explain | compare_line) program "$1" "$((files / 2))" "$seed" "$step" ;;
    compare_read | compare_write | compare_statement | compare_register) program "$1" "$files" "$seed" "$step" ;;
    *) echo "There is no test $1. They are: $all" && return 2 ;;
    esac
}

build_test libabo.a || exit 2
[ $# -gt 0 ] || eval "set -- $all"
for name in "$@"; do
    echo "== $name"
    began=$(date +%s)
    add "$name" run_test "$name"
    echo "== $name: $(($(date +%s) - began)) s"
done
last_line
