#!/bin/sh
# The order book on the ledgers and bank files of host/ledger. What it says in a case and its exit status are those of CASE.expected,
# and the file that it writes is CASE.kpc, byte by byte; where it refuses, it leaves no file. lines.expected has a ledger of a few lines in
# each case, commands.expected a command line. Numbers are taken from registers of a day and marked there. The last line is 'N passed, M failed', and the exit status is 0 only if nothing failed.
# host/target.sh names the variables.
set -u
# what the system says of faults is in English
LC_ALL=C
export LC_ALL
cd "$(dirname "$0")/../.." || exit 2
. host/target.sh
. host/tally.sh
packages="$packages python3"
have python3
build_test abo orderbook references_test || exit 2
work=$build/ledger
rm -rf "$work"
mkdir -p "$work" || exit 2
cases=host/ledger
day=2026-11-15

book() { "$build/orderbook" "$@"; }

tell() { # ARG ..: what it says is kept in out and err, and its status
    book "$@" >"$work/out" 2>"$work/err"
    status=$?
}

run_case() { # CASE ARG ..: what it says, and its status behind it, are CASE.expected
    case=$1
    shift
    tell "$@"
    { cat "$work/out" "$work/err" && echo "status $status"; } >"$work/$case.said"
    check "$case: what it says" diff "$cases/$case.expected" "$work/$case.said"
}

write_case() { # CASE LEDGER SHEET ARG ..: the file is CASE.kpc, or there is none
    name=$1 ledger=$2 sheet=$3
    shift 3
    run_case "$name" "$cases/$ledger.txt" --sheet "$sheet" --day "$day" -o "$work/$name.kpc" "$@"
    if [ -f "$cases/$name.kpc" ]; then
        check "$name: the file" cmp "$cases/$name.kpc" "$work/$name.kpc"
    else
        check "$name: no file is left behind" [ ! -e "$work/$name.kpc" ]
    fi
}

writes() { # FILE ARG ..: it accepts, and what goes to standard output is the file
    written=$1
    shift
    tell "$@"
    [ "$status" -eq 0 ] && cmp "$work/out" "$written" || { cat "$work/err"; false; }
}

refused() { # STATUS SENTENCE ARG ..: it ends so, says this in its first line, and writes nothing to standard output
    due=$1 sentence=$2
    shift 2
    tell "$@"
    [ "$status" -eq "$due" ] && [ "$(head -n 1 "$work/err")" = "orderbook: $sentence" ] && [ ! -s "$work/out" ] ||
        { echo "status $status" && cat "$work/err"; false; }
}

expected() { # FILE MARK NUMBER: the lines of the case of that number, without comments
    awk -v mark="$2" -v number="$3" 'substr($0, 1, length(mark)) == mark { count++ } count == number && !/^#/' "$cases/$1.expected"
}

same_as_expected() { # FILE MARK NUMBER: what was said is what the case has
    expected "$1" "$2" "$3" | diff - "$work/said"
}

# ---- ledgers that become files, and files that are read again ----

for sheet in K S C E P; do
    write_case "pond_$sheet" pond $sheet
    cp "$work/out" "$work/first"
    # what was written is shown the same when it is read from the disk
    tell --read "$work/pond_$sheet.kpc" --sheet $sheet --day "$day"
    check "pond_$sheet: it is read again" [ "$status" -eq 0 ]
    head -n "$(wc -l <"$work/out")" "$work/first" >"$work/table"
    check "pond_$sheet: it is read as the same" cmp "$work/table" "$work/out"
done
write_case bad_account_K bad_account K
write_case bad_message_C bad_message C
write_case bad_day_K bad_day K
write_case hash_P hash P
# the same ledgers where they are no fault: another sheet carries the message, and C only warns of the day, in two places
write_case message_E bad_message E
write_case message_P bad_message P
write_case past_day_C bad_day C
write_case hash_C hash C

# ---- which payments have left the account ----

statements=host/statements
run_case paid_K --read $cases/pond_K.kpc --paid $statements/pond.gpc --sheet K --day "$day"
run_case paid_refused --read $cases/pond_K.kpc --paid $statements/document_003.gpc --sheet K --day "$day"
tell --read $cases/pond_K.kpc --paid $statements/document_000.gpc --sheet K --day "$day"
check 'paid: another account pays nothing' \
    [ "$status $(tail -n 1 "$work/out")" = '0 0 of 6 payments left the account, 0 came back, 6 not yet.' ]
# the same wage three times in the file, and two debits of it: the first two have left
{ head -n 2 $cases/pond_K.kpc; printf '2 174-1999738514 7350000 201126\r\n'; for _ in 1 2 3; do sed -n 4p $cases/pond_K.kpc; done
    printf '3 +\r\n5 +\r\n'; } >"$work/thrice.kpc"
debit() { tail -c +391 $statements/pond.gpc | head -c 130; } # the fourth record, a wage of 24500.00
statement() { # OLD NEW DEBIT: the head of pond.gpc with these fields
    head -c 45 $statements/pond.gpc
    printf '%s%s%s000000000000000041161126              \r\n' "$1" "$2" "$3"
}
{ statement 00000005000000+ 00000000100000+ 000000049000000; debit; debit; } >"$work/twice.gpc"
tell --read "$work/thrice.kpc" --paid "$work/twice.gpc" --sheet K --day "$day"
check 'paid: each movement is for one payment' [ "$(cut -c 57- "$work/out" | sed -n '2,4p' | tr '\n' ,)$(tail -n 1 "$work/out")" = \
    'left the account,left the account,not yet,2 of 3 payments left the account, 0 came back, 1 not yet.' ]
{ statement 00000005000000+ 00000002550000+ 000000024500000; debit; debit | sed 's/24500001/24500004/'; debit; } >"$work/anew.gpc"
tell --read "$work/thrice.kpc" --paid "$work/anew.gpc" --sheet K --day "$day"
check 'paid: what came back and was made anew has left' [ "$(tail -n 1 "$work/out")" = '1 of 3 payments left the account, 1 came back, 1 not yet.' ]
tell --read $cases/pond_K.kpc --paid "$work/none" --sheet K --day "$day"
check 'paid: no such statement' [ "$status $(cat "$work/err")" = "2 orderbook: $work/none cannot be read: No such file or directory." ]

# ---- lines that could mean two things, letters, and refusals by field and sheet ----

front() { # none, head or due: what stands before a case's own lines
    [ "$1" = none ] && return
    printf 'firm Rybnik Pond s.r.o.\nclient 1234567890\ninterval 001 002\npayer 174-1999738514\n'
    [ "$1" = head ] || printf 'file 1501 001001\ndue 2026-11-20\n'
}

number=0
grep '^== ' "$cases/lines.expected" >"$work/lines"
while read -r mark front sheet line; do
    number=$((number + 1))
    { front "$front"; printf '%b\n' "$line"; } >"$work/line.txt"
    tell - --sheet "$sheet" --day "$day" <"$work/line.txt"
    {
        printf '%s\n' "$mark $front $sheet $line"
        tr -d '\r' <"$work/out" | iconv -f CP1250 -t UTF-8
        cat "$work/err"
        echo "status $status"
    } >"$work/said"
    check "lines, case $number" same_as_expected lines '== ' "$number"
done <"$work/lines"
check 'lines: all were tried' [ "$number" -eq "$(grep -c '^== ' "$cases/lines.expected")" ]

# items are numbered by their lines, whatever ends these, and whatever stands between them
{ printf '# Wages\r\n\r\nfirm R\rclient 1\r  \rinterval 0 999\npayer 19-19\n\rfile 1501 000001\r\ndue 2026-11-20\r\n'
    printf 'wage Z 19-19/0800 5 vs=1\r\n\r\nwage Y 19-19/0800 5 vs=2\n\n# one more\n\t\nwage X 19-19/0800 5 vs=3\r\rdue 2026-11-21\n'
    printf 'wage W 19-19/0800 5 vs=4'; } >"$work/ends.txt"
references() { # LEDGER
    # shellcheck disable=SC2086
    $run "$build/references_test" "$1" 2>"$work/err"
}
for ledger in $cases/pond.txt $cases/czech.txt "$work/ends.txt"; do
    add "the references of $ledger" references "$ledger"
    check "a reference that is too large in $ledger" grep -qx 'orderbook: the reference 4294967296 is not allowed: it must be 0 to 4294967295; it is the number of the line (20, row [0-9]*, field 21).' "$work/err"
    check "a reference that is too large in $ledger: no more is said" [ "$(wc -l <"$work/err")" -eq 1 ]
done
# the last of them is refused, in a line without an end
{ cat "$work/ends.txt"; printf ' priority=2'; } >"$work/refused.txt"
check 'the last line of many ends is refused' refused 1 "the priority 2 is not allowed: it must be 3 to 9 (20, row 7, field 10)." \
    "$work/refused.txt" --sheet K --day "$day"
check 'the last line of many ends is shown' [ "$(tail -n 3 "$work/err")" = "$(printf '%s, line 20:\n  wage W 19-19/0800 5 vs=4 priority=2\n                                    ^' "$work/refused.txt")" ]

# one item or account file too many
awk 'BEGIN {
    print "firm R\nclient 1\ninterval 0 999\npayer 19-19\nfile 1501 000001\ndue 2026-11-20"
    for (i = 0; i < 1001; i++) print "wage Z 19-19/0800 5 vs=1"
}' >"$work/items"
run_case items_S - --sheet S --day "$day" <"$work/items"
awk 'BEGIN {
    print "firm R\nclient 1\ninterval 0 999\npayer 19-19"
    for (i = 0; i < 1001; i++) print "file 1501 000001\ndue 2026-11-20\nwage Z 19-19/0800 5 vs=1"
}' >"$work/files"
run_case files_E - --sheet E --day "$day" <"$work/files"
awk 'BEGIN {
    print "firm R\nclient 1\ninterval 0 999\npayer 19-19\nfile 1501 000001\ndue 2026-11-20"
    for (i = 0; i < 100000; i++) print "wage Z 19-19/0800 5 vs=1"
}' >"$work/items"
run_case items_E - --sheet E --day "$day" <"$work/items"

# ---- encodings ----

for sheet in C K; do
    write_case "czech_$sheet" czech $sheet
    printf '\357\273\277' | cat - $cases/czech.txt >"$work/marked"
    check "a byte order mark is passed over on $sheet" writes $cases/czech_$sheet.kpc "$work/marked" --sheet $sheet --day "$day"
done
cp "$work/err" "$work/table"
for encoding in cp1250 Windows-1250; do
    check "a ledger by --encoding $encoding" \
        writes $cases/czech_K.kpc $cases/czech_1250.txt --sheet K --day "$day" --encoding $encoding
    check "a ledger by --encoding $encoding: the table" cmp "$work/table" "$work/err"
done
check 'utf-8 by its name' writes $cases/czech_K.kpc $cases/czech.txt --sheet K --day "$day" --encoding=UTF-8
iconv -f CP1250 -t UTF-8 $cases/czech_C.kpc >"$work/utf8.kpc"
tell --read "$work/utf8.kpc" --sheet C --day "$day"
check 'a file whose texts look like UTF-8 is shown with a note' grep -q '^note: 7 texts look like UTF-8' "$work/out"
run_case windows_1250 $cases/czech_1250.txt --sheet K --day "$day"
run_case not_1250 $cases/czech.txt --sheet K --day "$day" --encoding cp1250
iconv -f UTF-8 -t UTF-16 $cases/czech.txt >"$work/utf16"
check 'UTF-16 is known' refused 2 'the ledger is UTF-16: save it as UTF-8.' "$work/utf16" --sheet K --day "$day"
for byte in 81 83 88 90 98; do
    { front due; printf 'wage Z 19-19/0800 5 vs=1 a%b\n' "\\0$(printf '%o' "0x$byte")"; } >"$work/line.txt"
    check "the byte 0x$byte is no letter" \
        refused 2 "the message goes into the file. Here stands the byte 0x$byte, which is no letter of Windows-1250." \
        "$work/line.txt" --sheet C --day "$day" --encoding cp1250
done

# ---- the command line ----

number=0
grep '^\$' "$cases/commands.expected" >"$work/commands"
while read -r mark arguments; do
    number=$((number + 1))
    # shellcheck disable=SC2086
    tell $arguments </dev/null
    { echo "$mark${arguments:+ $arguments}"; cat "$work/out" "$work/err"; echo "status $status"; } >"$work/said"
    check "commands, case $number" same_as_expected commands '$' "$number"
done <"$work/commands"
check 'commands: all were tried' [ "$number" -eq "$(grep -c '^\$' "$cases/commands.expected")" ]
for sheet in 2 s 0800; do
    check "sheet $sheet is S" writes $cases/pond_S.kpc $cases/pond.txt --sheet $sheet --day "$day"
done
for spelled in 15.11.2026 20261115; do
    check "the day $spelled" writes $cases/pond_K.kpc --sheet=K --day=$spelled -- $cases/pond.txt
done
# whatever today is, its name is not a fault of the command line
check 'the day today' [ "$(book $cases/pond.txt --sheet C --day today 2>&1 | grep -c 'no day')" -eq 0 ]
check 'a ledger on standard input' writes $cases/pond_K.kpc - --sheet K --day "$day" <$cases/pond.txt
check 'the table then goes to standard error' [ "$(tail -n 1 "$work/err")" = 'Written: 518 bytes.' ]
check 'a name that would do something to a terminal is escaped' \
    refused 2 'a\x1b[31m\n. cannot be read: No such file or directory.' "$(printf 'a\033[31m\n.')" --sheet K --day "$day"

version=$(sed -n 's/^#define ABO_VERSION "\(.*\)"$/\1/p' include/abo.h)
check 'the version' [ "$(book --version)" = "orderbook $version" ]

for help in --help -h; do
    tell $help
    check "$help: the status" [ "$status" -eq 0 ]
    check "$help: nothing on standard error" [ ! -s "$work/err" ]
done
cp "$work/out" "$work/help"
for word in --sheet --day --read --paid --encoding --register -o vs ks ss priority firm client interval payer file due wage invoice 8100 0800 0300 6100 \
    15.11.2026 20261115 today 20.11.2026; do
    check "the help names $word" grep -qw -e "$word" "$work/help"
done
sed -n '/For example:/,$p' "$work/help" | tail -n +3 >"$work/example"
tell - --sheet K --day "$day" <"$work/example"
check "the help's example is a ledger" grep -q '^The bank accepts it: 2 payments, 29330.20 crowns, 0 warnings.$' "$work/err"

# ---- output that is whole or not there: host/common/output_test.sh tries each step; here the order book as a whole ----

folder=$work/folder
mkdir "$folder"
fresh() { # a folder with a ledger and an old file in it
    rm -rf "$folder"
    mkdir "$folder"
    cp $cases/pond.txt "$folder/led.txt"
    echo old >"$folder/old.kpc"
}
stands() { # NAME ..: the ledger and the old file are as they were, and nothing is beside them but these
    cmp $cases/pond.txt "$folder/led.txt" && [ "$(cat "$folder/old.kpc")" = old ] &&
        [ "$(ls -A "$folder" | tr '\n' ' ')" = "$(printf '%s\n' led.txt old.kpc "$@" | sort | tr '\n' ' ')" ] || { ls -lA "$folder"; false; }
}

# by whatever name, the ledger is not written to
lost='leads to the file that is read, which would be lost. `orderbook --help` says how it is used.'
fresh
ln -s led.txt "$folder/symbolic"
ln "$folder/led.txt" "$folder/hard"
for name in led.txt ../folder/led.txt symbolic hard; do
    check "-o $name is the ledger" refused 2 "$folder/$name $lost" "$folder/led.txt" --sheet K --day "$day" -o "$folder/$name"
    check "-o $name: the ledger stands" stands symbolic hard
done
check '-o is the ledger on standard input' refused 2 "$folder/led.txt $lost" - --sheet K --day "$day" -o "$folder/led.txt" <"$folder/led.txt"
book "$folder/led.txt" --sheet K --day "$day" >>"$folder/led.txt" 2>"$work/err"
check 'the end of the ledger is no output either' [ $? -eq 2 ]
check 'the ledger stands' stands symbolic hard

# a file that is not written in one go, stopped in its middle
awk 'BEGIN {
    print "firm R\nclient 1\ninterval 0 999\npayer 19-19\nfile 1501 000001\ndue 2026-11-20"
    for (i = 0; i < 20000; i++) print "wage Z 19-19/0800 5 vs=1"
}' >"$work/items"
book "$work/items" --sheet E --day "$day" >"$work/new.kpc" 2>"$work/err"
fresh
(ulimit -f 64 && book "$work/items" --sheet E --day "$day" -o "$folder/old.kpc" >/dev/null 2>"$work/err")
check 'a size limit: the status' [ $? -eq 2 ]
check 'a size limit: it says so' [ "$(cat "$work/err")" = "orderbook: $folder/old.kpc could not be written whole: File too large." ]
check 'a size limit: the old file stands' stands
tell "$folder/led.txt" --sheet S --day 2026-11-17 -o "$folder/old.kpc"
check 'a refusal: the old file stands' stands
tell "$folder/led.txt" --sheet K --day "$day" -o "$folder"
check 'a folder: the status' [ "$status" -eq 2 ]
check 'a folder: it says so' [ "$(cat "$work/err")" = "orderbook: $folder could not be written whole: Is a directory." ]
check 'a folder: nothing is in it' stands
if [ -c /dev/full ]; then
    tell "$folder/led.txt" --sheet K --day "$day" -o /dev/full
    check 'a full device: the status' [ "$status" -eq 2 ]
    check 'a full device: it says so' [ "$(cat "$work/err")" = 'orderbook: /dev/full could not be written whole: No space left on device.' ]
    book "$folder/led.txt" --sheet K --day "$day" -o "$folder/new.kpc" >/dev/full 2>"$work/err"
    check 'a table that is lost: the status' [ $? -eq 2 ]
    check 'a table that is lost: the file is whole' cmp $cases/pond_K.kpc "$folder/new.kpc"
fi
check '/dev/stdout is the file, and not the table too' writes $cases/pond_K.kpc "$folder/led.txt" --sheet K --day "$day" -o /dev/stdout
ln -s old.kpc "$folder/link"
tell "$folder/led.txt" --sheet K --day "$day" -o "$folder/link"
check 'a link is followed' cmp $cases/pond_K.kpc "$folder/old.kpc"
check 'a link stays' [ "$(readlink "$folder/link")" = old.kpc ]

# killed while it reads, writes the table or the file: the old file stands, or the new one does
fresh
whole() { # the old file or the new one, and nothing beside it
    cmp -s "$work/new.kpc" "$folder/old.kpc" && echo old >"$folder/old.kpc"
    stands
}
for wait in 0.00 0.02 0.04 0.08 0.16; do
    "$build/orderbook" "$work/items" --sheet E --day "$day" -o "$folder/old.kpc" >/dev/null 2>"$work/err" &
    sleep "$wait"
    kill -9 $! 2>"$work/err"
    wait $! 2>"$work/err"
    check "killed after $wait seconds: the output is the old file or the new one" whole
done

# ---- numbers of the day, by a register ----

fresh
reg=$folder/day.reg
wide=$work/wide.txt
sed 's/^interval .*/interval 000 999/' $cases/pond.txt >"$wide"
numbered() { # INTERVAL ONE OTHER: the file of the pond's ledger with this interval and these first three digits
    sed "1s/001002/$1/; s/^1 1501 001/1 1501 $2/; s/^1 1501 002/1 1501 $3/" $cases/pond_K.kpc >"$work/numbered.kpc"
}
marks() { # NUMBER ..: the register is of the day, with just these marks
    said=$(python3 -c 'import sys
b = open(sys.argv[1], "rb").read()
print(int.from_bytes(b[:8], "little"), len(b), *("%03d" % n for n in range(1024) if b[8 + n // 8] >> n % 8 & 1))' "$reg")
    [ "$said" = "20261115 136${1:+ $*}" ] || { echo "$said"; false; }
}
ordered() { # LEDGER ARG ..: the order book on the register, to new.kpc
    ledger=$1
    shift
    rm -f "$folder/new.kpc"
    cp "$reg" "$work/before.reg"
    tell "$ledger" --sheet K --day "$day" -o "$folder/new.kpc" --register "$reg" "$@"
}
left_alone() { # WHAT STATUS SENTENCE: it ends so, says this first, makes no file and marks nothing
    check "$1: the status is $2" [ "$status" -eq "$2" ]
    check "$1: it says so" [ "$(head -n 1 "$work/err")" = "orderbook: $3" ]
    check "$1: there is no file" [ ! -e "$folder/new.kpc" ]
    check "$1: nothing is marked" cmp "$reg" "$work/before.reg"
}
"$build/abo" register start "$reg" --date "$day" >"$work/started"
ordered $cases/pond.txt
check 'a register: the status is 0' [ "$status" -eq 0 ]
check 'a new register: the file is the one without' cmp $cases/pond_K.kpc "$folder/new.kpc"
check 'a new register: what is said is the same, and what was marked' \
    [ "$(cat "$work/out")" = "$(sed '$d' $cases/pond_K.expected)
Marked in $reg: 2; 998 numbers are free on $day, the lowest is 000." ]
check 'a new register: the file'"'"'s numbers are marked' marks 001 002
"$build/abo" check "$folder/new.kpc" --sheet K --day "$day" --register "$reg" >"$work/out"
check 'the tool finds them used' grep -q 'found "001001"; .* (22)\.$' "$work/out"
ordered $cases/pond.txt
left_alone 'no number is left in the interval' 1 \
    "no number is left for this account file: $reg has no free one of 001 to 002, the ledger's interval, on $day."
check 'no number is left: the ledger'"'"'s line is shown' [ "$(tail -n 3 "$work/err")" = "$cases/pond.txt, line 8:
  file 1501 001001
            ^~~~~~" ]
"$build/abo" register give-back "$reg" 2 >"$work/started"
ordered $cases/pond.txt
left_alone 'one number for two account files' 1 \
    "no number is left for this account file: $reg has no free one of 001 to 002, the ledger's interval, on $day."
check 'one number for two account files: the second one'"'"'s line is shown' grep -qx "$cases/pond.txt, line 14:" "$work/err"
ordered "$wide"
numbered 000999 000 002
check 'the lowest free numbers are taken' cmp "$work/numbered.kpc" "$folder/new.kpc"
check 'the lowest free numbers are marked' marks 000 001 002
check 'the table has them' grep -qx 'account file 1501 number 000001, payments' "$work/out"
book "$wide" --sheet K --day "$day" --register "$reg" >"$work/out" 2>"$work/err"
numbered 000999 003 004
check 'to standard output' cmp "$work/numbered.kpc" "$work/out"
check 'what was marked goes to standard error then' \
    [ "$(tail -n 1 "$work/err")" = "Marked in $reg: 2; 995 numbers are free on $day, the lowest is 005." ]

# the same as before where another sheet is asked for: the register is not opened
chmod 000 "$reg"
for sheet in S C E P; do
    tell $cases/pond.txt --sheet $sheet --day "$day" -o "$folder/new.kpc" --register "$reg"
    check "a register on $sheet: the file is the one without" cmp $cases/pond_$sheet.kpc "$folder/new.kpc"
    check "a register on $sheet: it says so" [ "$status $(tail -n 1 "$work/out")" = "0 note: sheet $sheet has no register of numbers, so $reg was not looked at." ]
done
chmod 644 "$reg"
check 'a register on other sheets: it is as it was' marks 000 001 002 003 004

# what is refused marks nothing
sed 's/^interval .*/interval 000 999/' $cases/bad_account.txt >"$work/account.txt"
ordered "$work/account.txt"
left_alone 'a ledger that is refused' 1 "$(sed -n '1s/^orderbook: //p' $cases/bad_account_K.expected)"
sed 's/^interval .*/interval 009 005/' $cases/pond.txt >"$work/turned.txt"
ordered "$work/turned.txt"
left_alone 'an interval that is turned round' 1 "the interval's end 005 is not allowed on sheet K (8100 Komerční banka): it must be not below the interval's start, which is 009 (21, row 0, field 5)."
sed 's/^interval .*/interval 009 1000/' $cases/pond.txt >"$work/turned.txt"
ordered "$work/turned.txt"
left_alone 'an interval that is too wide' 1 "the interval's end 1000 is not allowed: it must be 0 to 999 (20, row 0, field 5)."
sed 's/^due 2026-11-20/dew 2026-11-20/' $cases/pond.txt >"$work/misread.txt"
ordered "$work/misread.txt"
check 'a line that is not known' [ "$status $(cmp "$reg" "$work/before.reg")" = '2 ' ]
tell "$wide" --sheet K --day 2026-11-16 -o "$folder/new.kpc" --register "$reg"
left_alone 'the register of another day' 1 \
    "$reg is the register of 2026-11-15, and the file is made on 2026-11-16 (23). \`abo register start\` starts a day."
head -c 135 "$reg" >"$folder/short"
tell "$wide" --sheet K --day "$day" -o "$folder/new.kpc" --register "$folder/short"
left_alone 'what is no register' 1 "$folder/short is not laid out as a register: it has 135 bytes, and a register has 136 (23)."
check 'what is no register stays' [ "$(wc -c <"$folder/short")" -eq 135 ]
check 'what is no register has no lock beside it' [ ! -e "$folder/short.lock" ]
for name in day.reg ../folder/day.reg; do
    cp "$reg" "$work/before.reg"
    tell "$wide" --sheet K --day "$day" -o "$folder/$name" --register "$reg"
    check "-o $name is the register" [ "$status $(cat "$work/err")" = \
        "2 orderbook: $folder/$name leads to the register, which would be lost. \`orderbook --help\` says how it is used." ]
    check "-o $name: the register stands" cmp "$reg" "$work/before.reg"
done
book "$wide" --sheet K --day "$day" --register "$reg" >>"$reg" 2>"$work/err"
check 'the end of the register is no output either' [ "$? $(cmp "$reg" "$work/before.reg")" = '2 ' ]
tell "$wide" --sheet K --day "$day" -o "$folder" --register "$reg"
check 'a file that cannot be written: nothing is marked' [ "$status $(cmp "$reg" "$work/before.reg")" = '2 ' ]

# at once: each file has numbers of its own
"$build/abo" register start "$reg" --date "$day" --again >"$work/started"
count=0
while [ $count -lt 10 ]; do
    "$build/orderbook" "$wide" --sheet K --day "$day" -o "$work/at_once$count.kpc" --register "$reg" >"$work/said$count" 2>&1 &
    count=$((count + 1))
done
wait
check 'ten order books at once: each has two numbers of its own' \
    [ "$(cat "$work"/at_once?.kpc | tr -d '\r' | sed -n 's/^1 1501 \(...\)001 8100$/\1/p' | sort -u | wc -l)" -eq 20 ]
# shellcheck disable=SC2046
check 'ten order books at once: all are marked' marks $(seq -f %03g 0 19)

# a file that may not be written to; root may, so another user tries
mine=$(mktemp -d) || exit 2
trap 'chmod -R u+w "$mine" && rm -rf "$mine"' EXIT
chmod 755 "$mine"
for program in "$build/orderbook" "$build/x86-64/orderbook"; do [ ! -f "$program" ] || cp "$program" "$mine/orderbook"; done
cp $cases/pond.txt "$mine/led.txt"
mkdir -m 777 "$mine/theirs"
echo old >"$mine/theirs/old.kpc"
chmod 444 "$mine/theirs/old.kpc" "$mine/led.txt"
as_other() { # COMMAND ..
    if [ "$(id -u)" -eq 0 ]; then setpriv --reuid=65534 --regid=65534 --clear-groups "$@"; else "$@"; fi
}
# shellcheck disable=SC2086
as_other $run "$mine/orderbook" "$mine/led.txt" --sheet K --day "$day" -o "$mine/theirs/old.kpc" >"$work/out" 2>"$work/err"
check 'a file that is not to be written to: the status' [ $? -eq 2 ]
check 'a file that is not to be written to: it says so' \
    [ "$(cat "$work/err")" = "orderbook: $mine/theirs/old.kpc could not be written whole: Permission denied." ]
check 'a file that is not to be written to: it stands' [ "$(cat "$mine/theirs/old.kpc") $(ls -A "$mine/theirs")" = 'old old.kpc' ]

# the file is written and the register is not: that is said, and how to mark the numbers; no byte is lost
mkdir "$mine/registers"
reg=$mine/registers/day.reg
"$build/abo" register start "$reg" --date "$day" >"$work/started"
chmod 666 "$reg"
chmod 555 "$mine/registers"
cp "$reg" "$work/before.reg"
# shellcheck disable=SC2086
as_other $run "$mine/orderbook" "$mine/led.txt" --sheet K --day "$day" -o "$mine/theirs/new.kpc" --register "$reg" >"$work/out" 2>"$work/err"
check 'numbers that cannot be marked: the status' [ $? -eq 2 ]
check 'numbers that cannot be marked: the file is whole' cmp $cases/pond_K.kpc "$mine/theirs/new.kpc"
check 'numbers that cannot be marked: the register is as it was' cmp "$reg" "$work/before.reg"
check 'numbers that cannot be marked: it says so' diff - "$work/err" <<END
orderbook: $reg could not be written whole: no file can be made beside it (Permission denied).
orderbook: the file is written, but its numbers are not marked in $reg. Before another file is made that day, \`abo check FILE --sheet K --day $day --register REGISTER\` has to mark them.
END
chmod 755 "$mine/registers"
"$build/abo" check "$mine/theirs/new.kpc" --sheet K --day "$day" --register "$reg" >"$work/out"
check 'numbers that cannot be marked: so they are' marks 001 002
chmod 444 "$reg"
rm "$mine/theirs/new.kpc"
# shellcheck disable=SC2086
as_other $run "$mine/orderbook" "$mine/led.txt" --sheet K --day "$day" -o "$mine/theirs/new.kpc" --register "$reg" >"$work/out" 2>"$work/err"
check 'a register that is not to be written to: the status' [ $? -eq 2 ]
check 'a register that is not to be written to: no file is made' [ ! -e "$mine/theirs/new.kpc" ]
check 'a register that is not to be written to: it says so' \
    [ "$(cat "$work/err")" = "orderbook: $reg cannot be read and written: Permission denied." ]

last_line
