#!/usr/bin/env bash
# Proves the rewriting program and shows it at work: on the left a file as a bank takes it, its first line the sheet's letter and the day;
# on the right what the program writes, the one canonical spelling or the refusal with its place. One file for each sheet, and a refusal.
#   tools/sample.sh          these six
#   tools/sample.sh FILE ..  your own
set -eu
cd "$(dirname "$0")/.."
if [ ! -x crates/rewrite/out/rewrite ]; then echo "proving the rewriting program and all that it stands on: some minutes, once" >&2; fi
(cd crates/rewrite && rt run </dev/null) >/dev/null 2>&1 || true
. host/target.sh
[ $# -gt 0 ] || set -- host/runs/sheet_k.in host/runs/sheet_s.in host/runs/sheet_c_joined.in host/runs/sheet_e.in host/runs/sheet_p.in host/runs/sheet_k_total.in
for file in "$@"; do
    echo "== $file"
    # a line's end is shown as a line's end, whichever it was
    $run crates/rewrite/out/rewrite <"$file" | tr -d '\r' |
        paste -d '\t' <(sed 's/\r$//' "$file" | tr '\r' '\n') - | awk -F '\t' '{ printf "%-62s | %s\n", $1, $2 }'
done
