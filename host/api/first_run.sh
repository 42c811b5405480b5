#!/bin/sh
# The first run on a new machine: tools/packages.sh, tools/prove.sh, tools/first_run.sh, `make` without rt, and the launcher over an
# emulator, each with what may be missing or wrong there. What they call (rt, apt-get, id, the emulator) is played by small scripts, so
# that nothing is installed and nothing is proved. The last line is 'N passed, M failed', and the exit status is 0 only if nothing
# failed. host/target.sh names the variables.
set -u
cd "$(dirname "$0")/../.." || exit 2
. host/target.sh
. host/tally.sh
have bash
build_test libabo.a abo orderbook || exit 2
rm -rf "$build/first_run"
mkdir -p "$build/first_run" || exit 2
work=$(cd "$build/first_run" && pwd)
make=$(command -v "${MAKE:-make}")
bash=$(command -v bash)

plays() { # FILE: makes a command of the lines that it reads
    mkdir -p "$(dirname "$1")"
    { echo '#!/bin/sh' && cat; } >"$1"
    chmod +x "$1"
}

ends() { # STATUS COMMAND ..: the command ends with this status; what it says is kept
    due=$1
    shift
    "$@" >"$work/said" 2>&1 </dev/null
    is=$?
    [ "$is" -eq "$due" ] || { echo "it ended with $is and said:" && cat "$work/said" && return 1; }
}

said() { # TEXT ..: the last command said each of these
    for text in "$@"; do
        grep -qF -e "$text" "$work/said" || { echo "not said: $text" && cat "$work/said" && return 1; }
    done
}

# the commands of this machine that the scripts need, and no others: no rt, no compiler, no emulator
mkdir "$work/few"
for name in awk cat cmp cp dirname find install mkdir printf readlink rm sed sh tee tr uname; do
    ln -s "$(command -v "$name" | grep / || echo "/usr/bin/$name")" "$work/few/$name"
done

# ---- make ----

bare() { # ARG ..: make where there is no rt
    PATH="$work/few" "$make" --no-print-directory "$@"
}

check "make without rt fails" ends 2 bare LIB= BUILD="$work/none"
check "it names LIB=" said 'There is no rt here' 'make LIB=path/to/libabo.a'
check "it built nothing before" refuses test -e "$work/none"
check "so does make of one program" ends 2 bare LIB= BUILD="$work/none" "$work/none/abo"
check "it names LIB= too" said 'make LIB=path/to/libabo.a'
mkdir "$work/old"
touch -d 1990-01-01 "$work/old/libabo.a"
check "an old archive is not made anew without rt" ends 2 bare LIB= BUILD="$work/old" "$work/old/libabo.a"
check "it names LIB= then" said 'make LIB=path/to/libabo.a'
check "a ready archive needs no rt" ends 0 bare LIB="$lib" BUILD="$work/given" "$work/given/libabo.a"
check "it is the one given" cmp "$lib" "$work/given/libabo.a"
check "make clean needs no rt" ends 0 bare LIB= BUILD="$work/none" clean
check "make help needs no rt" ends 0 bare LIB= BUILD="$work/none" help
targets=$(sed -n 's/^\.PHONY: \(.*\) FORCE$/\1/p' Makefile)
for name in ${targets:-none}; do
    check "make help names $name" grep -qw "make $name" "$work/said"
done
check "it names the variables" said LIB= FILES= PREFIX DESTDIR
check "it says no more than the Makefile's first lines" refuses grep -q 'VERSION\|#' "$work/said"

# ---- tools/packages.sh ----

wanted=$(sed -n 's/^ *wants \([^ ]*\) .*/\1/p' tools/packages.sh)

packages() { # UID MACHINE MISSING ..: as this user, on a machine that has all that is wanted but these
    rm -rf "$work/debian" "$work/apt"
    for name in $wanted apt-get; do echo "echo $name \$* >>'$work/apt'" | plays "$work/debian/$name"; done
    echo "echo $1" | plays "$work/debian/id"
    echo "echo $2" | plays "$work/debian/uname"
    shift 2
    for name in "$@"; do rm "$work/debian/$name"; done
    PATH="$work/debian" "$bash" tools/packages.sh
}

check "nothing is missing" ends 0 packages 1000 aarch64
check "then nothing is said" test ! -s "$work/said"
check "then nothing is called" test ! -e "$work/apt"
for name in $wanted; do
    check "$name is missing, and this is not root" ends 1 packages 1000 aarch64 "$name"
    check "it names $name and a command" said "Missing here: $name." 'sudo apt-get install'
    check "it installs nothing" test ! -e "$work/apt"
done
check "the emulator is missing" ends 1 packages 1000 aarch64 qemu-x86_64
check "its package is named" grep -qx '    sudo apt-get update && sudo apt-get install qemu-user' "$work/said"
check "on x86-64 none is wanted" ends 0 packages 1000 x86_64 qemu-x86_64
check "root installs" ends 0 packages 0 aarch64 gcc
check "what is missing is installed" grep -q '^apt-get install .* gcc libc6-dev$' "$work/apt"
check "no apt-get" ends 1 packages 0 aarch64 gcc apt-get
check "the commands that are wanted are named" said 'Missing here: gcc.' 'no apt-get' libc6-dev

# ---- tools/prove.sh, over a repository of three crates that count and one that does not ----

repo=$work/repo
mkdir -p "$repo/tools" "$repo/host" "$repo/crates/base/src" "$repo/crates/read/src" "$repo/crates/lone/src" "$repo/crates/abo_c/src"
cp tools/prove.sh "$repo/tools/"
cp host/target.sh "$repo/host/"
printf '# the ground\nbase:\nread: base io   # io is of the kit\nlone: base\n\nabo_c staticlib: base read # the calls\n' >"$repo/crates.txt"
printf '%9000s' '' >"$repo/crates/read/src/lib.rt"
echo 'an object' >"$work/abo_c.o"
ar=$($cc -print-prog-name=ar)
"$ar" rc "$work/libabo_c.a" "$work/abo_c.o"

plays_rt() { # LIB: what `rt lib` does
    printf '%s\n' "echo \$(basename \$PWD) \$* >>'$work/rt'" "case \$1 in lib) $1 ;; esac" | plays "$work/kit/rt"
    rm -f "$work/rt"
}

proves() { # LIB: prove.sh where rt does this
    plays_rt "$@"
    PATH="$work/kit:$PATH" BUILD="$work/proved" "$bash" "$repo/tools/prove.sh"
}

last_said() { # TEXT: is how the last line begins
    case $(tail -n 1 "$work/said") in "$1"*) ;; *) cat "$work/said" && return 1 ;; esac
}

on_terminal() { # what is said where standard error is a terminal, each renewal of the line on a line of its own
    PATH="$work/kit:$PATH" BUILD="$work/proved" script -qec "bash '$repo/tools/prove.sh'" /dev/null | tr '\r' '\n'
}

base='echo fn base::f: proved; echo crate base: modules loaded=1 checked=4; echo logic=proved functions=1;'
read='echo a note; echo crate read: modules loaded=2 checked=5; echo logic=proved functions=1;'
abo="mkdir -p out; cp '$work/libabo_c.a' out; echo crate abo_c: modules loaded=3 checked=1; echo logic=proved functions=1"
check "all is proved" ends 0 proves "$base $read $abo"
check "by one call of rt, in the unit's folder" test "$(cat "$work/rt")" = 'abo_c lib'
check "each crate is counted, once" test "$(grep -o 'crate . of 3 ([a-z]*)' "$work/said")" = "crate 1 of 3 (base)
crate 2 of 3 (read)"
check "with the seconds" said 's so far, about '
check "at last all are" last_said 'proving: 3 of 3 crates are proved, '
check "what rt says of a proved crate is not shown" refuses grep -q 'a note\|fn base' "$work/said"
check "it is in the log" grep -qx 'a note' "$work/proved/prove.log"
check "the archive has the unit's object" test "$("$ar" t "$repo/target/staticlib/libabo.a")" = abo_c.o
check "the rest is estimated" ends 0 proves "sleep 1; $base $read $abo"
# base weighs 1000 of 12000 and took a second; a slow machine may say more, but not less
check "by the length of the sources" grep -Eq 'crate 1 of 3 .* about (1[1-9]|[2-9][0-9]|[0-9]{3}) s to go' "$work/said"
check "nothing has changed" ends 0 proves "echo library base: modules loaded=2 checked=0; echo crate abo_c: modules loaded=3 checked=0; echo logic=proved functions=1"
check "that is no line for each crate" test "$(wc -l <"$work/said")" -eq 2
check "all are proved then" last_said 'proving: 3 of 3 crates are proved, '
check "a crate is not proved" ends 1 proves "$base echo why not; echo crate read: modules loaded=2 checked=5; echo logic=not-proved; echo rt: the library read did not build; exit 1"
check "what rt said of it is shown" said 'why not' 'rt: the library read did not build' 'The library is not proved.' "$work/proved/prove.log"
check "no more are counted" said '1 of 3 crates are proved'
check "the unit itself is not proved" ends 3 proves "$base $read echo abo is wrong; exit 3"
check "what rt said of it is shown too" said 'abo is wrong' '2 of 3 crates are proved'
if command -v script >/dev/null; then
    plays_rt "sleep 1; $base sleep 2; $abo"
    check "on a terminal" ends 0 on_terminal
    check "the line is renewed while a crate takes long" said 'crate 1 of 3 (base) done, 2 s so far'
    check "what is unchanged takes no time" refuses grep -q 'crate 2 of 3.* about [0-9][0-9]' "$work/said"
    check "and at last all are proved" said '3 of 3 crates are proved'
fi

# ---- tools/first_run.sh, and README's two commands ----

mkdir -p "$work/clone/tools"
cp tools/first_run.sh "$work/clone/tools/"

runs() { # STATUS: first_run.sh where packages.sh ends with this
    rm -f "$work/called"
    printf '%s\n' "echo packages >>'$work/called'" "exit $1" | plays "$work/clone/tools/packages.sh"
    echo "echo \$* >>'$work/called'" | plays "$work/builds/make"
    PATH="$work/builds:$PATH" "$bash" "$work/clone/tools/first_run.sh"
}

check "the first run" ends 0 runs 0
check "it installs, then proves, builds and shows" test "$(cat "$work/called")" = "packages
-s --no-print-directory demo"
check "the first run, where a package is missing" ends 1 runs 1
check "it ends there" test "$(cat "$work/called")" = packages
for command in 'bash tools/first_run.sh' 'bash .ci/run'; do
    check "README says: $command" grep -q "^    $command" README.md
done

# ---- the launcher ----

mkdir -p "$work/launch" "$work/usr/bin" "$work/else"
cp host/launch.sh "$work/launch/show"
cp host/launch.sh "$work/usr/bin/show"
cp host/launch.sh "$work/else/show"
plays "$work/launch/x86-64/show" <<'END'
printf '[%s]' "$@"
cat
exit 7
END
plays "$work/usr/lib/abo/show" <<'END'
echo "the installed one: $*"
END
plays "$work/emulator/qemu-x86_64" <<'END'
[ "$1" = -0 ] || exit 99
echo "as $2"
shift 2
exec "$@"
END
ln -s ../launch/show "$work/else/link"

launched() { # PATH COMMAND ARG ..: by the emulator of that folder, if it has one
    folder=$1
    shift
    PATH="$folder:$work/few" "$@"
}

in_place() { # the program runs in the place of the launcher, so that what is sent to one reaches the other
    plays "$work/launch/x86-64/show" <<'END'
echo $$ >"$1"
kill -TERM $$
END
    PATH="$work/emulator:$work/few" "$work/launch/show" "$work/pid" >/dev/null 2>&1 &
    began=$!
    wait "$began"
    is=$?
    [ "$is" -eq 143 ] && [ "$(cat "$work/pid")" = "$began" ]
}

# shellcheck disable=SC1003,SC2016
check "the launcher gives the program's status" ends 7 launched "$work/emulator" "$work/launch/show" 'a b' '' "it's" '"$x"' '*' '-0' '\'
check "it gives its arguments as they are" said "[a b][][it's][\"\$x\"][*][-0][\\]"
check "it gives the name that was called" said "as $work/launch/show"
check "it is started through a link" ends 7 launched "$work/emulator" "$work/else/link" linked
check "the program is found there" said '[linked]' "as $work/else/link"
check "standard input is the program's" test "$(echo words | launched "$work/emulator" "$work/launch/show" | tail -n 1)" = '[]words'
check "signals reach the program, and are told" in_place
check "the installed launcher" ends 0 launched "$work/emulator" "$work/usr/bin/show" 1 2
check "it runs the installed program" said 'the installed one: 1 2'
check "the launcher without a program" ends 127 launched "$work/emulator" "$work/else/show"
check "it says so" said 'show: ' 'only starts the program'
check "the launcher without an emulator" ends 127 launched "$work/else" "$work/usr/bin/show"
check "it says where there is one" said 'show: ' 'no qemu-x86_64 here' 'apt-get install qemu-user'
mkdir -p "$work/rattle/bin" "$work/rattle/on/$(uname -m)/toolchain/bin" "$work/local"
plays "$work/rattle/bin/rt" </dev/null
ln -s "$work/rattle/bin/rt" "$work/local/rt"
cp "$work/emulator/qemu-x86_64" "$work/rattle/on/$(uname -m)/toolchain/bin/"
check "the emulator of the kit will do" ends 0 launched "$work/local" "$work/usr/bin/show" 3

runs_as_it_is() { # NAME: what `make` leaves of a program runs on this machine
    "$build/$1" --nonsense >"$work/said" 2>&1
    is=$?
    [ "$is" -eq 2 ] && said "$1: "
}

check "build/abo runs as it is" runs_as_it_is abo
check "build/orderbook runs as it is" runs_as_it_is orderbook
# on x86-64, and there alone, the program needs no launcher
case $static in
'') check "build/abo is the program" refuses cmp -s host/launch.sh "$build/abo" ;;
*) check "build/abo is a launcher" cmp host/launch.sh "$build/abo" ;;
esac
last_line
