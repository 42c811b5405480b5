# Read at the top of the repository by the Makefile and by every script that builds or runs a C program: which compilers make programs
# that link the library's archive, and what runs them. The archive is x86-64; elsewhere programs are cross compiled, linked -static
# and run by qemu.
#
#   LIB      a ready archive (default: tools/prove.sh proves the library and writes one)
#   CC, CXX  the compilers     CFLAGS  default -O2; warnings are always asked for and are errors
#   HOSTCC   the compiler for programs of this machine, which do not link the archive (default: on x86-64 CC, else cc)
#   BUILD    the folder that all is built in (default: build)
#   MACHINE  what to take this machine for (default: uname -m)
#
# For the sanitizers: CFLAGS='-O1 -g -fsanitize=address,undefined'.

build=${BUILD:-build}
lib=$build/libabo.a
strict='-Wall -Wextra -Werror'
case ${MACHINE:-$(uname -m)} in
x86_64)
    cc=${CC:-cc} cxx=${CXX:-c++} static='' run=''
    native=${HOSTCC:-$cc}
    packages='gcc g++ libc6-dev make'
    ;;
*)
    cc=${CC:-x86_64-linux-gnu-gcc} cxx=${CXX:-x86_64-linux-gnu-g++} static=-static
    native=${HOSTCC:-cc}
    packages='gcc gcc-x86-64-linux-gnu g++-x86-64-linux-gnu libc6-dev-amd64-cross make'
    # programs that rt links want a loader of x86-64, which comes with the cross compiler's C library
    export QEMU_LD_PREFIX="${QEMU_LD_PREFIX:-/usr/x86_64-linux-gnu}"
    run=$(command -v qemu-x86_64 || true)
    if [ -z "$run" ] && command -v rt >/dev/null; then
        kit=$(dirname "$(dirname "$(readlink -f "$(command -v rt)")")")
        run=$kit/on/$(uname -m)/toolchain/bin/qemu-x86_64
    fi
    ;;
esac

have() { # COMMAND ..: stops with a sentence if one is not there
    for wanted in "$@"; do
        command -v "$wanted" >/dev/null || {
            echo "There is no $wanted here. Debian has it: apt-get install $packages" >&2
            exit 2
        }
    done
}

build_test() { # NAME ..: has the Makefile build these in $build, as compare_read or libabo.a
    have "${MAKE:-make}"
    for name in "$@"; do "${MAKE:-make}" -s --no-print-directory STATIC="$static" "$build/$name" || return; done
}
