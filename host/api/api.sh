#!/bin/sh
# The page docs/C-API.md against what it speaks of: its programs are host/api/example.c, example_register.c and example_statement.c beside it, word by
# word, which compile and print what the page says, also of a batch or statement that is refused; its commands work as they stand; its names are in the headers, and their functions
# in the page; the archive has no state. The last line is 'N passed, M failed', and the exit status is 0 only if nothing failed.
# host/target.sh names the variables.
set -u
cd "$(dirname "$0")/../.." || exit 2
. host/target.sh
. host/tally.sh
have "$cc"
build_test libabo.a || exit 2
work=$build/api
mkdir -p "$work" || exit 2
page=docs/C-API.md

block() { # NAME: the fenced block behind the line '<!-- NAME -->'
    awk -v mark="<!-- $1 -->" '
        $0 == mark { marked = 1; next }
        marked && !open && /^```/ { open = 1; next }
        open && /^```$/ { exit }
        open { print }' "$page"
}

compile() { # STANDARD PROGRAM: the program by this standard, with the words of abo_say.c
    # shellcheck disable=SC2086
    $cc -std="$1" -O2 $strict -pedantic -Iinclude $static -o "$work/api_$1" "$2" include/abo_say.c "$lib"
}

prints() { # STANDARD: exits with 0 and prints what the page says, CR LF shown as LF
    # shellcheck disable=SC2086
    $run "$work/api_$1" >"$work/printed" && tr -d '\r' <"$work/printed" | diff "$work/said" -
}

refused() { # without a bank of the first payee the example fails, and says what the page says
    # shellcheck disable=SC2086
    ! $run "$work/api_c99" >"$work/printed" 2>"$work/told" && cat "$work/told" "$work/printed" | diff "$work/said_refused" -
}

by_the_page() { # the page's commands, in a folder of their own that has its program as wages.c, the headers, abo_say.c and the archive
    rm -rf "$work/by_hand"
    mkdir -p "$work/by_hand/include" "$work/by_hand/build"
    cp include/abo.h include/abo_say.h include/abo_say.c "$work/by_hand/include/"
    cp "$lib" "$work/by_hand/build/libabo.a"
    block example.c >"$work/by_hand/wages.c"
    block link >"$work/by_hand/link.sh"
    # on another machine the compiler is the cross compiler, and what it makes is run by qemu
    sed -i "s|^cc |$cc $static |; s|^\./|$run ./|" "$work/by_hand/link.sh"
    (cd "$work/by_hand" && sh -eu link.sh) >"$work/printed" && tr -d '\r' <"$work/printed" | diff "$work/said" -
}

of_statements() { # the page's program of statements, of one that is accepted and of one that is refused
    # shellcheck disable=SC2086
    $cc -std=c99 -O2 $strict -pedantic -Iinclude $static -o "$work/of_statements" host/api/example_statement.c include/abo_say.c "$lib" &&
        $run "$work/of_statements" <host/statements/pond.gpc | diff "$work/said_statement" - &&
        ! $run "$work/of_statements" <host/statements/document_003.gpc 2>"$work/told" >"$work/printed" &&
        diff "$work/said_statement_refused" "$work/told" && [ ! -s "$work/printed" ]
}

of_a_day() { # the page's program of a register, of a file that is accepted, and of one that is refused for another reason
    # shellcheck disable=SC2086
    $cc -std=c99 -O2 $strict -pedantic -Iinclude $static -o "$work/of_a_day" host/api/example_register.c include/abo_tell.c \
        include/abo_say.c "$lib" &&
        $run "$work/of_a_day" <host/ledger/pond_K.kpc | diff "$work/said_register" - &&
        ! $run "$work/of_a_day" <host/ledger/bad_total.kpc >"$work/printed" &&
        [ "$(cut -d : -f 1 "$work/printed")" = 'Refused at line 10' ]
}

symbols() { # TYPES: names of this archive that nm gives one of these types
    "$($cc -print-prog-name=nm)" "$lib" | awk -v types="^[$1]$" 'NF > 1 && $(NF - 1) ~ types { print $NF }' | sort -u
}

no_state() { # nothing that could change between calls is in the archive, and nothing but memcpy and memset is wanted from elsewhere
    [ -n "$(symbols T)" ] && [ -z "$(symbols BbCDdSs)" ] && [ "$(symbols U | tr '\n' ' ')" = 'memcpy memset ' ]
}

in_header() { # NAME: is declared, as a whole word
    grep -qw "$1" include/abo.h include/abo_say.h include/abo_tell.h
}

block example.c >"$work/shown.c"
block printed >"$work/said"
block refused >"$work/said_refused"
block example_statement.c >"$work/shown_statement.c"
block 'statement printed' >"$work/said_statement"
block example_register.c >"$work/shown_register.c"
block 'register printed' >"$work/said_register"
block 'statement refused' >"$work/said_statement_refused"
sed 's/}, 800, /}, 0, /' host/api/example.c >"$work/spoilt.c"
check "the page's program is host/api/example.c" diff host/api/example.c "$work/shown.c"
for standard in c99 c11; do
    check "the example as $standard" compile "$standard" host/api/example.c
    check "the example as $standard prints what the page says" prints "$standard"
done
check "the example without a payee's bank" compile c99 "$work/spoilt.c"
check "the example without a payee's bank says what the page says" refused
check "the page's commands work" by_the_page
check "the page's program of a register is host/api/example_register.c" diff host/api/example_register.c "$work/shown_register.c"
check "the page's program of a register prints what the page says" of_a_day
check "the page's program of statements is host/api/example_statement.c" diff host/api/example_statement.c "$work/shown_statement.c"
check "the page's program of statements prints what the page says" of_statements
check "the archive has no state and calls nothing but memcpy and memset" no_state
# names of files apart
for name in $(sed 's/[a-z_]*\.[ch]//g' "$page" | grep -oE '\b(ABO|abo)_[A-Za-z0-9_]+' | sort -u); do
    check "$name is in a header" in_header "$name"
done
for call in $(grep -ohE '\babo_[a-z_]+\(' include/abo.h include/abo_say.h include/abo_tell.h | tr -d '(' | sort -u); do
    check "$call is in the page" grep -qw "$call" "$page"
done
last_line
