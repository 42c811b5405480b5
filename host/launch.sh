#!/bin/sh
# Runs the program of its own name, which is x86-64, by an emulator. Where the machine is another one, the Makefile puts this at
# build/abo, build/orderbook and, installed, bin/abo; the program stands in x86-64/ beside it or, installed, in ../lib/abo/.
self=$(readlink -f "$0")
name=${self##*/}
program=${self%/*}/x86-64/$name
[ -f "$program" ] || program=${self%/*}/../lib/abo/$name
[ -f "$program" ] || { echo "$name: $self only starts the program, which is neither in x86-64/ beside it nor in ../lib/abo/." >&2; exit 127; }
emulator=$(command -v qemu-x86_64)
if [ -z "$emulator" ] && rt=$(command -v rt); then # the kit of rt has one too
    kit=$(readlink -f "$rt")
    emulator=${kit%/bin/*}/on/$(uname -m)/toolchain/bin/qemu-x86_64
fi
[ -x "$emulator" ] || { echo "$name: The program is x86-64, and there is no qemu-x86_64 here to run it. Debian has it: apt-get install qemu-user" >&2; exit 127; }
exec "$emulator" -0 "$0" "$program" "$@"
