#!/bin/sh
# Names the sources that a program is made of: its own, and for each header that one of them includes by quotation marks, or as
# <abo_NAME.h>, the source beside it of the same name, if there is one. peer/peer.h is the second program's, so it stands for all of
# that but its `main`.
#
#   host/parts.sh SOURCE.c     as host/abo.c, from the top of the repository
set -u
cd "$(dirname "$0")/.." || exit 2
[ -f "$1" ] || { echo "parts: $1 is not there." >&2; exit 2; }
awk -v first="$1" '
    function add(file) { if (!(file in known)) { known[file] = 1; queue[count++] = file } }
    function folder(file) { sub(/[^\/]*$/, "", file); return file }
    function plain(file) { while (sub(/[^\/.]+\/\.\.\//, "", file)); return file }
    BEGIN {
        while (("ls */*.c host/*/*.c" | getline source) > 0) there[source] = 1
        add(first)
        for (i = 0; i < count; i++) {
            file = queue[i]
            if (file ~ /\.c$/) print file
            if (file == "peer/peer.h") {
                for (source in there) if (source ~ /^peer\// && source != "peer/rewrite.c") print source
                continue
            }
            while ((getline line <file) > 0)
                if (line ~ /^#include ("|<abo_)/) {
                    split(line, part, /["<>]/)
                    header = line ~ /^#include "/ ? plain(folder(file) part[2]) : "include/" part[2]
                    source = header
                    sub(/h$/, "c", source)
                    add(header)
                    if (source in there) add(source)
                }
            close(file)
        }
    }'
