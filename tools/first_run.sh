#!/usr/bin/env bash
# The first run, all of it: installs the Debian packages that are missing, proves the library and says how far it is, builds it, and
# shows the order book at work. Wanted beforehand: Debian and the Rattle toolchain (`rt`).
#
#   tools/first_run.sh        LIB=libabo.a: a ready archive, so that nothing is proved
set -eu
cd "$(dirname "$0")/.."
bash tools/packages.sh
exec make -s --no-print-directory demo
