#!/bin/sh
# The public headers: they compile without a warning as C99, C11, C17, C++11 and C++17, the layout is that of docs/ROWS.md, the names
# are those of docs/NUMBERS.md, and abo.h's own assertions refuse another layout; abo_say.c and abo_tell.c compile as C99, and have words for
# everything, for the records of docs/RULES.md too, and sentences in both languages. The last line is 'N passed, M failed', and the exit status is 0 only if nothing failed. host/target.sh names the variables.
set -u
cd "$(dirname "$0")/../.." || exit 2
. host/target.sh
. host/tally.sh
have "$cc" "$cxx"
build_test libabo.a || exit 2
work=$build/header
mkdir -p "$work/wrong" || exit 2
flags="-O2 $strict -pedantic"

compile() { # STANDARD FOLDER ARG ..: by the compiler of that language, with the header of that folder
    standard=$1 folder=$2
    shift 2
    # shellcheck disable=SC2086
    case $standard in
    c++*) $cxx -x c++ -std="$standard" $flags -I"$folder" "$@" ;;
    *) $cc -x c -std="$standard" $flags -I"$folder" "$@" ;;
    esac
}

wrong() { # WHAT SED: a header with this edit is refused in every language
    sed "$2" include/abo.h >"$work/wrong/abo.h"
    check "the edit '$1' changes the header" refuses cmp -s include/abo.h "$work/wrong/abo.h"
    for standard in c99 c11 c++11; do
        check "$standard refuses $1" refuses compile "$standard" "$work/wrong" -fsyntax-only "$work/alone.c"
    done
}

tested() { # NAME STANDARD ARG ..: the program NAME of this folder by this standard, over the archive, abo_say.c and abo_tell.c, run with the arguments
    name=$1 by=$2
    shift 2
    program=$work/${name}_$by
    check "host/api/$name.c as $by" compile "$by" include -c -o "$program.o" "host/api/$name.c"
    # linked as C in each language, since it wants no library of C++, and Debian's cross compiler has no static libm to go with that
    # shellcheck disable=SC2086
    check "host/api/$name.c as $by, linked" $cc $static -o "$program" "$program.o" "$work/abo_tell.o" "$work/abo_say.o" "$lib"
    # shellcheck disable=SC2086
    add "$name as $by" $run "$program" "$@"
}

# twice, because a header may be read twice; and first, because it may need no other before it
printf '#include <abo.h>\n#include <abo.h>\nint main(void) { return 0; }\n' >"$work/alone.c"
for words in abo_say abo_tell; do
    printf '#include <%s.h>\n#include <%s.h>\nint main(void) { return 0; }\n' "$words" "$words" >"$work/alone_$words.c"
done
for standard in c99 c11 c17 c++11 c++17; do
    check "the header alone as $standard" compile "$standard" include -fsyntax-only "$work/alone.c"
    for words in abo_say abo_tell; do
        check "$words.h alone as $standard" compile "$standard" include -fsyntax-only "$work/alone_$words.c"
    done
done
for standard in c17 c11 c99; do
    for words in abo_say abo_tell; do
        check "$words.c as $standard" compile "$standard" include -c -o "$work/$words.o" "include/$words.c"
    done
done
for standard in c99 c11 c++11; do
    tested header "$standard" docs/ROWS.md docs/NUMBERS.md
    tested say "$standard" include/abo.h docs/ROWS.md
    tested tell "$standard" include/abo.h
    tested register_calls "$standard" docs/ROWS.md
    tested statement_rows "$standard" docs/ROWS.md
    tested say_statement "$standard" docs/ROWS.md docs/RULES.md
done
wrong 'two fields of an item exchanged' 's/uint64_t bank, amount,/uint64_t amount, bank,/'
wrong 'a field that is missing' 's/uint64_t due;//'
wrong 'a row one word too long' 's/uint64_t unused\[2\]/uint64_t unused[3]/'
wrong 'the reference behind an unused word' 's/uint64_t reference; /uint64_t more, reference; /; s/uint64_t unused\[2\]/uint64_t unused[1]/'
wrong 'an answer one word too long' 's/uint64_t bytes;/uint64_t bytes, more;/'
wrong 'two fields of a movement exchanged' 's/uint64_t amount, code,/uint64_t code, amount,/'
wrong 'two balances exchanged' 's/int64_t old_balance, new_balance,/int64_t new_balance, old_balance,/'
wrong 'kept bytes of a movement one too few' 's/uint8_t document\[13\]/uint8_t document[12]/'
wrong 'kept bytes of a head one too many' 's/rest\[14\]/rest[15]/'
wrong "a statement's answer one word too short" 's/uint64_t needed; .*else 0 .*$//'
wrong 'two words of a finding exchanged' 's/uint64_t least, most;/uint64_t most, least;/'
wrong 'a finding one word too short' 's/uint64_t line;   .*from 1, as in refusals .*$//'
wrong 'a register one word too short' 's/uint64_t numbers\[16\]/uint64_t numbers[15]/'
wrong "a register's date behind its numbers" 's/uint64_t date;        .*$//; s/uint64_t numbers\[16\];/uint64_t numbers[16], date;/'
wrong "a register's answer one word too long" 's/uint64_t value;  /uint64_t value, more;  /'
wrong 'a line found with one word too few' 's/uint64_t at; //'
last_line
