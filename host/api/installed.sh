#!/bin/sh
# What `make install` leaves: its files and nothing else, with DESTDIR the same ones below it, and enough of them that programs are
# built from there by pkg-config alone and the tool runs; that the versions of the Makefile and of the header are one; and what
# `make uninstall` leaves: nothing. The last line is 'N passed, M failed', and the exit status is 0 only if nothing failed.
# host/target.sh names the variables.
set -u
cd "$(dirname "$0")/../.." || exit 2
. host/target.sh
. host/tally.sh
packages="$packages pkgconf"
have "$cc" pkg-config
build_test libabo.a || exit 2
rm -rf "$build/installed"
mkdir -p "$build/installed" || exit 2
work=$(cd "$build/installed" && pwd)

made() { # VARIABLE ..: `make` of these, with a build folder of its own
    "${MAKE:-make}" LIB="$lib" BUILD="$work/made" "$@"
}

same_tree() { # FOLDER FILE ..: has these files, and nothing else
    tree=$1
    shift
    printf '%s\n' "$@" | LC_ALL=C sort >"$work/due"
    (cd "$tree" && find . ! -type d | LC_ALL=C sort) | diff "$work/due" -
}

asked() { # ARG ..: pkg-config, that sees nothing but what was installed
    PKG_CONFIG_PATH='' PKG_CONFIG_LIBDIR="$work/prefix/lib/pkgconfig" pkg-config "$@" abo
}

due='./bin/abo ./include/abo.h ./include/abo_say.h ./include/abo_tell.h ./lib/libabo.a ./lib/pkgconfig/abo.pc ./share/abo/abo_say.c
    ./share/abo/abo_tell.c ./share/man/man1/abo.1'
# where it is not x86-64, bin/abo is the launcher, and this the program
[ -z "$static" ] || due="$due ./lib/abo/abo"

built_from_it() { # the example, with the words that it says, in a folder from which the sources are not seen
    cp host/api/example.c "$work/wages.c"
    # shellcheck disable=SC2046,SC2086
    (cd "$work" && $cc -std=c99 $strict -pedantic $(asked --cflags) $static -o wages wages.c "$(asked --variable=say)" $(asked --libs)) &&
        $run "$work/wages"
}

told_from_it() { # sentences in Czech, by what pkg-config names
    cat >"$work/told.c" <<'END'
#include <abo_tell.h>
#include <stdio.h>
int main(void) { return puts(abo_tell_field(ABO_CZECH, ABO_FOUND_PAYEE)) < 0; }
END
    # shellcheck disable=SC2046,SC2086
    (cd "$work" && $cc -std=c99 $strict -pedantic $(asked --cflags) $static -o told told.c "$(asked --variable=tell)" \
        "$(asked --variable=say)" $(asked --libs)) && [ "$($run "$work/told")" = 'účet příjemce' ]
}

versions() { # the one of abo.pc, the header's and that of the header's parts: they are one
    cat >"$work/version.c" <<'END'
#include <abo.h>
#include <stdio.h>
int main(void) { return printf("%s %d.%d\n", ABO_VERSION, ABO_VERSION_MAJOR, ABO_VERSION_MINOR) < 0; }
END
    # shellcheck disable=SC2046,SC2086
    (cd "$work" && $cc -std=c99 $strict $(asked --cflags) $static -o version version.c) || return
    version=$(asked --modversion)
    [ -n "$version" ] && [ "$($run "$work/version")" = "$version $version" ]
}

tool_runs() { # FOLDER: the tool there, as it is, and from a folder and by a link that know nothing of it
    ln -sf "$1/bin/abo" "$work/link"
    version=$(cd / && "$1/bin/abo" --version) && [ "$version" = "abo $(asked --modversion)" ] && [ "$("$work/link" --version)" = "$version" ]
}

check "make install" made install PREFIX="$work/prefix"
# shellcheck disable=SC2086
check "what is installed" same_tree "$work/prefix" $due
for file in include/abo.h include/abo_say.h include/abo_tell.h; do check "$file is the one here" cmp "$file" "$work/prefix/$file"; done
for file in abo_say.c abo_tell.c; do check "$file is the one here" cmp "include/$file" "$work/prefix/share/abo/$file"; done
check "the page for man is the one here" cmp host/abo/abo.1 "$work/prefix/share/man/man1/abo.1"
check "the archive is the one given" cmp "$lib" "$work/prefix/lib/libabo.a"
check "pkg-config finds it" asked --exists
check "its version is the header's" versions
check "a program is built from it and runs" built_from_it
check "a program with sentences is built from it and runs" told_from_it
check "the installed tool runs" tool_runs "$work/prefix"
check "make install with DESTDIR" made install DESTDIR="$work/dest" PREFIX=/usr/abo
# shellcheck disable=SC2086
check "what is installed below DESTDIR" same_tree "$work/dest/usr/abo" $due
check "the tool below DESTDIR runs" tool_runs "$work/dest/usr/abo"
check "nothing is installed beside it" test "$(ls "$work/dest")" = usr
check "abo.pc does not know DESTDIR" refuses grep -q "$work" "$work/dest/usr/abo/lib/pkgconfig/abo.pc"
echo kept >"$work/dest/usr/abo/share/abo/notes"
check "make uninstall with DESTDIR" made uninstall DESTDIR="$work/dest" PREFIX=/usr/abo
check "it leaves only what is not ours" same_tree "$work/dest/usr/abo" ./share/abo/notes
check "make uninstall" made uninstall PREFIX="$work/prefix"
check "it leaves nothing" test -z "$(find "$work/prefix" ! -type d)"
check "nor a folder of its own" test -z "$(find "$work/prefix" -name abo)"
check "make uninstall where nothing is" made uninstall PREFIX="$work/prefix"
check "make clean" made clean
check "make clean leaves nothing" refuses test -e "$work/made"
check "a missing archive is refused" refuses "${MAKE:-make}" LIB="$work/none.a" BUILD="$work/none"
last_line
