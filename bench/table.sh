#!/bin/sh
# The tables of docs/SPEED.md: what bench/run.sh printed, one or more times, side by side in Markdown.
#
#   bench/run.sh >target/after.txt; bench/table.sh bench/before.txt target/after.txt
#
# A file's name without its ending heads its columns: the library's and the second program's instructions a byte, their ratio,
# and if they were timed the megabytes a second and the ratio of times.
set -eu
[ $# -gt 0 ] || { sed -n 's/^# \{0,1\}//; 2,4p' "$0" >&2; exit 2; }
awk '
    FNR == 1 { files++; name[files] = FILENAME; sub(".*/", "", name[files]); sub("[.][^.]*$", "", name[files]) }
    NF == 1 { call = $1; if (!(call in seen)) { seen[call] = 1; calls[++ncalls] = call } }
    (NF == 6 || NF == 9) && $1 != "sheet" {
        key = call " " $1 " " $2
        if (!(key in size)) { size[key] = $3; keys[++nkeys] = key }
        cells[key, files] = $4 " | " $5 " | " $6
        if (NF == 9) { timed[files] = 1; times[key, files] = $7 " | " $8 " | " $9 }
    }
    END {
        for (c = 1; c <= ncalls; c++) {
            printf "\n| %s: sheet | kind | bytes", calls[c]
            rule = "|---|---|---"
            for (f = 1; f <= files; f++) {
                printf " | %s | peer | ratio", name[f]
                rule = rule "|---|---|---"
                if (timed[f]) { printf " | MB/s | peer | ratio"; rule = rule "|---|---|---" }
            }
            printf " |\n%s|\n", rule
            for (k = 1; k <= nkeys; k++) {
                split(keys[k], part, " ")
                if (part[1] != calls[c]) continue
                printf "| %s | %s | %s", part[2], part[3], size[keys[k]]
                for (f = 1; f <= files; f++) {
                    printf " | %s", (keys[k], f) in cells ? cells[keys[k], f] : " | | "
                    if (timed[f]) printf " | %s", (keys[k], f) in times ? times[keys[k], f] : " | | "
                }
                print " |"
            }
        }
    }' "$@"
