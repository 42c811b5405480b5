#!/bin/sh
# README's run against what the demonstration prints: each line of the page's console block is printed, in this order; a line `..` stands
# for lines that the page leaves out. The last line is 'N passed, M failed'. host/target.sh names the variables.
set -u
cd "$(dirname "$0")/.." || exit 2
. host/target.sh
. host/tally.sh
mkdir -p "$build/demo" || exit 2
build_test abo orderbook || exit 2

printed() { # every command of the demonstration ended as it is due to
    sh host/demo.sh >"$build/demo/printed"
}

shown() { # the page's lines come in the demonstration, none but those at `..` left out
    awk '/^```console$/ { open = 1; next } /^```$/ { open = 0 } open' README.md >"$build/demo/page"
    [ -s "$build/demo/page" ] || return 1
    awk 'NR == FNR { page[++lines] = $0; next }
        { while (page[at + 1] == "..") { at++; free = 1 } }
        $0 == page[at + 1] { at++; free = 0; next }
        at > 0 && at < lines && !free { print "the page says: " page[at + 1]; print "it prints: " $0; wrong = 1; exit }
        END { while (page[at + 1] == "..") at++; exit wrong || at < lines }' "$build/demo/page" "$build/demo/printed"
}

check "the demonstration's commands end as they should" printed
check "README shows what it prints" shown
last_line
