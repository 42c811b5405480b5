#!/bin/sh
# The order book at work, as README shows it: a ledger becomes the file for a bank, is read back and shown; refusals, with the place
# marked, in English and Czech; the tool on the same file; and the register of the day's numbers. Each command is printed before what it says. `make demo` builds what it needs.
#
#   host/demo.sh
set -u
cd "$(dirname "$0")/.." || exit 2
. host/target.sh
unset LC_ALL LC_MESSAGES LANG # README shows what is said where no language is asked for
out=$(mktemp -d) || exit 2
trap 'rm -rf "$out"' EXIT

shows() { # STATUS PROGRAM ARG ..: the command as it is typed, then what it prints; STATUS is the exit status that is due
    due=$1 program=$2
    shift 2
    echo
    echo "\$ build/$program $(echo "$*" | sed "s|$out/||g")"
    "$build/$program" "$@" >"$out/said" 2>&1
    status=$?
    sed "s|$out/||g" "$out/said" # what it says names the files as they are typed
    [ $status -eq "$due" ] || exit 1
}

shows 0 orderbook host/ledger/pond.txt --sheet K --day 2026-11-15 -o "$out/pond.kpc"
echo
echo '$ cat pond.kpc'
tr -d '\r' <"$out/pond.kpc"
shows 0 abo check "$out/pond.kpc" --sheet K --day 2026-11-15
shows 0 abo register start "$out/day.reg" --date 2026-11-15
shows 0 abo check "$out/pond.kpc" --sheet K --day 2026-11-15 --register "$out/day.reg"
shows 1 abo check "$out/pond.kpc" --sheet K --day 2026-11-15 --register "$out/day.reg"
shows 1 orderbook host/ledger/pond.txt --sheet K --day 2026-11-15 -o "$out/more.kpc" --register "$out/day.reg"
shows 1 abo check "$out/pond.kpc" --sheet S --day 2026-11-15
shows 1 abo check host/ledger/bad_total.kpc --sheet K --day 2026-11-15
shows 1 abo check host/ledger/bad_total.kpc --sheet K --day 2026-11-15 --lang cs
shows 0 abo check host/ledger/bad_total.kpc --day 2026-11-15 --all-sheets
shows 1 orderbook host/ledger/bad_account.txt --sheet K --day 2026-11-15 -o wages.kpc
