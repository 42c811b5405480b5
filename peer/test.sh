#!/bin/sh
# Builds the peer with its tests, runs them, and ends with the counts.
# Build output goes to BUILD_DIR, taken from the project's root.
set -eu

cd -- "$(dirname -- "$0")"
here=$(basename -- "$(pwd)")
cd ..
build=${BUILD_DIR:-build/peer}
cc=${CC:-gcc}
warn="-std=c11 -Wall -Wextra -Werror"
check="$warn -O1 -g -fsanitize=address,undefined -fno-sanitize-recover=all"
library=$(ls "$here"/*.c | grep -v '/rewrite\.c$')
mkdir -p "$build"

passed=0
failed=0
count() { # count NAME COMMAND...: one more check, by the command's status
    name=$1
    shift
    if "$@"; then
        passed=$((passed + 1))
    else
        failed=$((failed + 1))
        echo "failed: $name"
    fi
}

# objects DIRECTORY FLAGS...: the library's objects, built there
objects() {
    into=$build/$1
    shift
    rm -rf "$into"
    mkdir -p "$into"
    for source in $library; do
        $cc "$@" -c -o "$into/$(basename "$source" .c).o" "$source" || return 1
    done
}

objects checked $check
$cc $check -o "$build/test_peer" "$here"/tests/*.c "$build"/checked/*.o
$cc $check -o "$build/rewrite" "$here/rewrite.c" "$build"/checked/*.o

if "$build/test_peer" >"$build/test_peer.log" 2>&1; then status=0; else status=$?; fi
sed '$d' "$build/test_peer.log"
counts=$(tail -n 1 "$build/test_peer.log")
case $counts in
*[!0-9\ ]* | '' | *' '*' '*)
    echo "$counts"
    failed=1
    ;;
*)
    passed=${counts% *}
    failed=${counts#* }
    ;;
esac
if [ "$status" -ne 0 ] && [ "$failed" -eq 0 ]; then
    failed=1
fi

# The program itself: the whole run of document 01, and a refusal.
printf 'C 010118\nUHL1\n1 1501 000000 0300\n2 005001 20180102\n19-19 705 5001 0042 03000558 0000017 led\n3+\n5+\n' \
    >"$build/run.in"
printf 'UHL1\r\n1 1501 000000 0300\r\n2 5001 020118\r\n19-19 705 5001 42 03000558 17 AV:led\r\n3 +\r\n5 +\r\n' \
    >"$build/run.want"
"$build/rewrite" <"$build/run.in" >"$build/run.out" || true
count 'the whole run' cmp -s "$build/run.want" "$build/run.out"
printf 'refused 16 line 0 byte 0\n' >"$build/long.want"
{ cat "$build/run.in"; head -c 9000 /dev/zero; } | "$build/rewrite" >"$build/long.out" || true
count 'a long input' cmp -s "$build/long.want" "$build/long.out"
printf 'refused 1 line 0 byte 0\n' >"$build/none.want"
"$build/rewrite" </dev/null >"$build/none.out" || true
count 'no input' cmp -s "$build/none.want" "$build/none.out"

# As a library beside other code: no warnings with -O2, and only its own names.
builds_as_library() {
    objects library $warn -O2 && ld -r -o "$build/library.o" "$build"/library/*.o
}
names_are_ours() {
    ! nm -g --defined-only "$build/library.o" | awk 'NF == 3 { print $3 }' |
        grep -v '^peer_'
}
# peer.h draws the layers; a circle is what tsort cannot put in order.
is_layered() {
    for source in "$here"/*.[ch]; do
        name=$(basename "${source%.*}")
        sed -n "s/^#include \"\(.*\)\.h\"\$/$name \1/p" "$source"
    done | tsort >/dev/null
}
count 'no warnings with -O2' builds_as_library
count 'names begin with peer_' names_are_ours
count 'no two files use each other' is_layered

echo "$passed passed, $failed failed"
[ "$failed" -eq 0 ]
