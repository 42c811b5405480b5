#!/usr/bin/env bash
# Installs the Debian packages that the host tests need and that are not there yet: compilers for C and C++, make, pkg-config, Python
# and what starts programs in another way (on a terminal, as another user, with a file system of their own). The library is x86-64;
# elsewhere the programs that link it are cross compiled and run by an emulator. The proofs need none beyond Rattle itself. Where it
# may not install, it says what to do, and fails.
set -eu
need=() missing=()
wants() { # COMMAND PACKAGE ..: the packages, if the command is not there
    command -v "$1" >/dev/null || { missing+=("$1") need+=("${@:2}"); }
}
wants gcc gcc libc6-dev
wants g++ g++
wants make make
wants pkg-config pkgconf
wants python3 python3
wants nm binutils
wants script bsdutils
wants setpriv util-linux
wants mount mount
if [ "$(uname -m)" != x86_64 ]; then
    wants x86_64-linux-gnu-gcc gcc-x86-64-linux-gnu libc6-dev-amd64-cross
    wants x86_64-linux-gnu-g++ g++-x86-64-linux-gnu
    wants qemu-x86_64 qemu-user
fi
[ ${#need[@]} -eq 0 ] && exit 0
if ! command -v apt-get >/dev/null; then
    echo "Missing here: ${missing[*]}. There is no apt-get to install them; other systems may call the packages as Debian does: ${need[*]}" >&2
    exit 1
fi
if [ "$(id -u)" -ne 0 ]; then
    echo "Missing here: ${missing[*]}. Only root may install; do it by this, then start again:" >&2
    echo "    sudo apt-get update && sudo apt-get install ${need[*]}" >&2
    exit 1
fi
export DEBIAN_FRONTEND=noninteractive
apt-get update -qq
apt-get install -y -qq --no-install-recommends "${need[@]}" >/dev/null
