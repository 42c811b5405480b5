# Read by the scripts of this folder at the top of the repository: builds bench/measure.c with the library and the second
# program, and counts what it executes. host/target.sh says how, and names LIB, CC and the other variables.
#
# Counted by tools/count.sh (apt-get install qemu-user), or by valgrind if there is no qemu that takes a plugin; COUNTER=qemu
# or COUNTER=valgrind chooses. A count is exact and the same in each run; under qemu also on each machine, where valgrind lets
# the C library take the variants of memchr and memcpy that suit the processor.
. host/target.sh
. host/tally.sh
static=-static
build_test measure || exit 2
measure=$build/measure

if [ -z "${COUNTER:-}" ]; then
    COUNTER=valgrind
    if command -v qemu-x86_64 >/dev/null && qemu-x86_64 -h | grep -q -- -plugin; then COUNTER=qemu; fi
fi

counted() { # CALL WHO SHEET KIND BYTES: prints the instructions in all; the program's own line goes to $build/measure.out
    if [ "$COUNTER" = qemu ]; then
        tools/count.sh "$measure" "$@" >"$build/measure.out" 2>"$build/measure.err" &&
            sed -n 's/^count: *\([0-9]*\)  in all$/\1/p' "$build/measure.err"
    else
        valgrind --tool=callgrind --callgrind-out-file=/dev/null "$measure" "$@" \
            >"$build/measure.out" 2>"$build/measure.err" &&
            sed -n 's/.*Collected : \([0-9]*\)$/\1/p' "$build/measure.err"
    fi
}

said() { # WORD: the number behind it in what the program said last
    sed -n "s/^\(.* \)\{0,1\}$1 \([0-9]*\).*/\2/p" "$build/measure.out"
}

a_byte() { # CALL SHEET KIND BYTES: sets bytes, and library and peer to the instructions a byte; false if a call refused
    none=$(counted "$1" none "$2" "$3" "$4") &&
        library=$(counted "$1" abo "$2" "$3" "$4") &&
        bytes=$(said bytes) &&
        peer=$(counted "$1" peer "$2" "$3" "$4") &&
        [ "$bytes" = "$(said bytes)" ] &&
        library=$(quotient $((library - none)) "$bytes") &&
        peer=$(quotient $((peer - none)) "$bytes")
}

quotient() { # A B
    awk -v a="$1" -v b="$2" 'BEGIN { printf "%.2f", a / b }'
}

kinds_for() { # CALL SHEET KIND ..: KINDS or these; C and P have collections too, and C texts that are cut, which are short when written
    more=
    case $2 in C | P) more=collections ;; esac
    if [ "$2" = C ] && [ "$1" != write ]; then more="$more cut"; fi
    # what is found: a warning in each item, and a file that is refused at its end
    case $1 in explain | findings) more="$more late"; [ "$2" != C ] || more="$more warned" ;; esac
    shift 2
    echo "${KINDS:-$* $more}"
}

holds() { # CONDITION-OF-AWK
    awk "BEGIN { exit !($1) }"
}

refused() { # WHAT: a call that refused, or two that differ
    cat "$build/measure.out" "$build/measure.err"
    check "$1: not accepted, or not alike" false
}
