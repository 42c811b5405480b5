#!/bin/sh
# The tool host/abo.c, run as a person runs it: over the inputs of host/runs without their first line, generated files, a large
# one, one refusal for each number, and command lines that are wrong. Its answers are compared with the second program's
# (host/compare/compare_abo.c), its page for man with its help. The last line is 'N passed, M failed', and the exit status is 0 only if nothing failed.
#
#   SEEDS=1000 host/abo/abo_test.sh    how many files are generated (default 40, by an emulator 8); SEED is the first one's seed
#
# host/target.sh names the other variables.
set -u
LC_ALL=C
export LC_ALL
cd "$(dirname "$0")/../.." || exit 2
. host/target.sh
. host/tally.sh
build_test abo compare_abo || exit 2
build=$(cd "$build" && pwd) # a test runs the tool in another folder
work=$(mktemp -d) || exit 2
trap 'rm -rf "$work"' EXIT
file=$work/file

abo() { "$build/abo" "$@"; }
second() { $run "$build/compare_abo" "$@"; }

tell() { # COMMAND ARG ..: runs the tool; its output, what it says on standard error and its status are kept
    abo "$@" >"$work/out" 2>"$work/err"
    status=$?
}

dashed() { # YYYYMMDD: as the tool takes a day
    echo "$1" | sed 's/\(..\)\(..\)$/-\1-\2/'
}

dotted() { # a dot for each letter that is not ASCII, as compare_abo has it; the letters themselves are tested in host/common
    sed "s/[$(printf '\302')-$(printf '\364')][$(printf '\200')-$(printf '\277')]*/./g"
}

dotted_day() { # YYYYMMDD: as Czechs write it
    echo "$1" | sed 's/\(....\)0*\([1-9]*[0-9]\)\(..\)$/\3.\2.\1/'
}

in_columns() { # no line of a refusal is wider than a terminal, but for its sentences
    [ "$(tail -n +2 "$1" | grep -v '^note: ' | dotted | awk 'length > 80' | wc -l)" -eq 0 ]
}

# TEXT NUMBER BYTE: the caret of this refusal stands under the byte: what is shown from there on is what the file has there.
caret() {
    column=$(sed -n '3s/\^$//p' "$1" | awk '{ print length }')
    seen=$(sed -n 2p "$1" | dotted | cut -c "$((column + 1))-" | cut -c 1-30)
    [ "$2" -eq 3 ] && [ "$3" -eq "$(wc -c <"$file")" ] && wanted='(the file ends here)' ||
        wanted=$(tail -c "+$(($3 + 1))" "$file" | head -c 30 | tr '\r' '\n' | sed -n '1p' | tr -c '\n -~' '.')
    [ "$seen" = "$wanted" ] || { echo "shown '$seen', in the file '$wanted'"; false; }
}

# The refusal that check prints, in the words of explaining.
plainly='1s/^refused at line \([0-9]*\), column [0-9]*, byte \([0-9]*\): .* (\([0-9]*\))\.$/refused \3 line \1 byte \2/'

same_answer() { # WHAT SHEET YYYYMMDD: all commands on the file, against the second program
    day=$(dashed "$3")
    second answer "$file" "$2" "$3" "$work"
    due=$?
    for command in check explain rewrite show; do
        [ "$command" = rewrite ] && whatever=--accept-warnings || whatever=
        # shellcheck disable=SC2086
        tell "$command" "$file" --sheet "$2" --day "$day" $whatever
        check "$1: the status of $command is $due" [ "$status" -eq "$due" ]
        mv "$work/out" "$work/$command.out"
        mv "$work/err" "$work/$command.err"
    done
    [ "$due" -eq 2 ] && return
    [ "$due" -eq 0 ] && said=$work/accepted || said=$work/line
    sed "$plainly" "$work/check.out" | head -n 1 >"$work/check.line"
    check "$1: check says what it should" cmp "$work/check.line" "$said"
    check "$1: explain says what it should" cmp "$work/explain.out" "$work/text"
    check "$1: rewrite writes what it should" cmp "$work/rewrite.out" "$work/canonical"
    grep -E '^    .*[0-9]\.[0-9]' "$work/show.out" | dotted | tr -s ' ' >"$work/show.items"
    tr -s ' ' <"$work/items" >"$work/items.squeezed"
    check "$1: show has every item" cmp "$work/show.items" "$work/items.squeezed"
    if [ "$due" -eq 1 ]; then same_refusal "$1"; else same_acceptance "$1" "$2"; fi
}

same_acceptance() { # WHAT SHEET: show ends as check does, and warnings count where they are asked to
    check "$1: show ends with what check says" same_end
    warnings=$(sed 's/.* //' "$work/line")
    check "$1: check tells each warning" [ "$(grep -ac '^warning at line ' "$work/check.out")" -eq "$warnings" ]
    [ "$warnings" -eq 0 ] && strictly=0 || strictly=1
    tell rewrite "$file" --sheet "$2" --day "$day"
    check "$1: rewrite without --accept-warnings: the status is $strictly" [ "$status" -eq "$strictly" ]
    [ "$strictly" -eq 0 ] && return
    check "$1: nothing is written" [ ! -s "$work/out" ]
    check "$1: how many warnings there are" grep -q " is accepted with $warnings warning" "$work/err"
    check "$1: with --accept-warnings it says how many" grep -q " was accepted with $warnings warning" "$work/rewrite.err"
    tell check "$file" --sheet "$2" --day "$day" --strict
    check "$1: --strict counts warnings" [ "$status" -eq 1 ]
}

same_refusal() { # WHAT: check, rewrite and show tell one refusal, check as its output
    read -r _ number _ _ _ byte <"$work/line"
    check "$1: the caret is at its place" caret "$work/check.out" "$number" "$byte"
    check "$1: the refusal is no wider than a terminal" in_columns "$work/check.out"
    check "$1: rewrite tells the same" cmp "$work/check.out" "$work/rewrite.err"
    check "$1: show tells the same" cmp "$work/check.out" "$work/show.err"
}

same_end() { tail -n 1 "$work/show.out" | cmp - "$work/check.line"; }

number_of() { # LETTER
    case $1 in K) echo 1 ;; S) echo 2 ;; C) echo 3 ;; E) echo 4 ;; P) echo 5 ;; *) echo "$1" ;; esac
}

# ---- host/runs: the first line becomes the options ----

run_of() { # NAME.in: the rewriting program and the tool agree, where the tool's room is not more
    name=$(basename "$1" .in)
    line=$(head -c 9 "$1" | tr '\r' '\n' | head -n 1)
    letter=$(printf %s "$line" | cut -c 1)
    small=$(printf %s "$letter" | tr KSCEP kscep)
    rest=$(printf %s "$line" | cut -c 3-)
    today=$(printf %s "$rest" | sed 's/^\(..\)\(..\)\(.*\)$/20\3\2\1/')
    case $line in
    [KSCEP]' '[0-9][0-9][0-9][0-9][0-9][0-9]) ;;
    *) today=none ;;
    esac
    head -c 10 "$1" | tail -c 2 | od -An -c | grep -q '\\r  *\\n' && past=11 || past=10
    tail -c "+$past" "$1" >"$file"
    if [ "$today" = none ]; then
        tell check "$file" --sheet "$letter" --day "$rest"
        check "$name: the options are refused" [ "$status" -eq 2 ]
        return
    fi
    same_answer "$name" "$(number_of "$letter")" "$today"
    if [ "$due" -eq 2 ] || grep -aq '^refused 16 ' "${1%.in}.out"; then return; fi
    [ "$due" -eq 0 ] && said=$work/rewrite.out || said=$work/line
    check "$name: what the rewriting program says" cmp "$said" "${1%.in}.out"
    tell check "$file" --sheet "$letter" --day "$today"
    check "$name: a letter is as good as a number" cmp "$work/out" "$work/check.out"
    tell check "$file" --sheet "$small" --day "$(dotted_day "$today")"
    check "$name: and so is a small one" cmp "$work/out" "$work/check.out"
}

for input in host/runs/*.in; do run_of "$input"; done

# ---- generated files ----

seed=${SEED:-1}
[ -z "$run" ] && seeds=40 || seeds=8
last=$((seed + ${SEEDS:-$seeds}))
while [ "$seed" -lt "$last" ]; do
    # shellcheck disable=SC2046
    set -- $(second generate "$seed" "$file")
    same_answer "seed $seed" "$1" "$2"
    seed=$((seed + 1))
done

# ---- one refusal for each number, word by word ----

head_of() { # SHEET [INTERVAL]: a first line
    [ "$1" = C ] && printf 'UHL1\n' || printf 'UHL1010118Firma               1234567890%s000000000000\n' "${2:-001999}"
}

says() { # SHEET LINE-OF-FILE .. EXPECTED: the file, behind a first line, is refused on 1 January 2018 in these words
    sheet=$1
    shift
    head_of "$sheet" "${interval:-}" >"$file"
    while [ $# -gt 1 ]; do
        printf '%b\n' "$1" >>"$file"
        shift
    done
    tell check "$file" --sheet "$sheet" --day 2018-01-01
    printf '%b\n' "$1" >"$work/wanted"
    check "$1" diff "$work/wanted" "$work/out"
    check "$1: the status is 1" [ "$status" -eq 1 ]
    same_answer "$1" "$(number_of "$sheet")" 20180101
}

k='1 1501 001001 8100' c='1 1501 000000 0300' g='2 19 1 010118' i='19 1 0 03000558'
says C "$c" 'refused at line 3, column 1, byte 24: the line: an account file must begin with a group; found the end of the file; allowed: a group, 2 (3).\n  (the file ends here)\n  ^'
says C "$g" "refused at line 2, column 1, byte 5: the line: an account file must follow the first line; found \"$g\"; allowed: an account file, 1 (3).\n  $g\n  ^"
says C "$c" "$g" '19 1 x 03000558' \
    'refused at line 4, column 6, byte 43: the variable symbol: it is not spelled as it must be; found "x"; allowed: 1 to 10 digits (4).\n  19 1 x 03000558\n       ^'
says C "$c" "$g" '19 1' \
    'refused at line 4, column 5, byte 42: the variable symbol: it is missing, and so is the space before it; found nothing; allowed: a space and the variable symbol behind it (4).\n  19 1\n      ^'
says C "$c" "$g" '18 1 0 03000558' \
    'refused at line 4, column 1, byte 38: the payee'"'"'s account: the base breaks the rule of weighted digits; found "18"; allowed: a base whose weighted digits add up to a multiple of 11 (5).\n  18 1 0 03000558\n  ^'
says C "$c" "$g" '19 0 0 03000558' \
    'refused at line 4, column 4, byte 41: the amount: it is zero; found "0"; allowed: 0.01 to 999999999999.99 crowns (6).\n  19 0 0 03000558\n     ^'
says K '1 1502 001001 8100' \
    'refused at line 2, column 3, byte 61: the account file'"'"'s kind: this kind is not on the sheet; found "1502"; allowed: 1501 (7).\n  1 1502 001001 8100\n    ^'
says K '1 1501 001001 0800' \
    "refused at line 2, column 15, byte 73: the payer's bank: this bank is not the sheet's; found \"0800\"; allowed: 8100 (8).\n  1 1501 001001 0800\n                ^
note: the file names bank 0800, Česká spořitelna, whose sheet is S; it was judged by sheet K, Komerční banka."
says K '1 1501 000001 8100' \
    "refused at line 2, column 8, byte 66: the account file's number: its first three digits are outside the interval; found \"000001\"; allowed: first three digits 001 to 999 (9).\n  1 1501 000001 8100\n         ^"
interval=002001
says K "$k" \
    "refused at line 1, column 44, byte 43: the interval's end: it is below the interval's start; found \"001\"; allowed: 002 to 999 (9).\n  UHL1010118Firma               1234567890002001000000000000\n$(printf '%45s' '')^"
interval=
says K "$k" '2 19 2 010118' "$i" '3 +' \
    "refused at line 3, column 6, byte 83: the group's total: it is not the sum of the items; found \"2\"; allowed: the sum of the items, 1, which is 0.01 crowns (10).\n  2 19 2 010118\n       ^"
much='19 99999999999999 0 03000558'
says C "$c" "$g" "$much" "$i" '3 +' \
    "refused at line 3, column 6, byte 29: the group's total: the sum of the items has too many digits; found \"1\"; allowed: items of at most 999999999999.99 crowns together (10).\n  $g\n       ^"
says K "$k" '2 19 1 300218' \
    'refused at line 3, column 8, byte 85: the due date: there is no such day; found "300218"; allowed: a real day of 2000 to 2099 (11).\n  2 19 1 300218\n         ^'
# a collection's day is told at its item's bank, and the group's line in a note
d='1 1502 000000 0300'
early="the bank field: the group's day is too early for a collection from this bank; found"
late="the bank field: the group's day is too late for a collection; found"
says C "$d" "$g" '19 1 0 08000558' "refused at line 4, column 8, byte 45: $early \"08000558\"; allowed: a group's day after 2018-01-01 (11).\n  19 1 0 08000558\n         ^
note: its group is due 2018-01-01, by line 3; the file was judged on 2018-01-01."
says P "$d" "$g" "$i" '19 1 0 0008000558 17' "refused at line 5, column 8, byte 115: $early \"0008000558\"; allowed: a group's day after 2018-01-01 (11).\n  19 1 0 0008000558 17\n         ^
note: its group is due 2018-01-01, by line 3; the file was judged on 2018-01-01."
says C "$d\r\n2 19 1 20180202\r\n$i\r" "refused at line 4, column 8, byte 49: $late \"03000558\"; allowed: a group's day at most one month after 2018-01-01 (11).\n  $i\n         ^
note: its group is due 2018-02-02, by line 3; the file was judged on 2018-01-01."
says P "$d" "$g" "$i" '3 +' '2 1 311217' '19 19 1 0 0003000558' \
    "refused at line 7, column 11, byte 133: $early \"0003000558\"; allowed: a group's day not before 2018-01-01 (11).\n  19 19 1 0 0003000558\n            ^
note: its group is due 2017-12-31, by line 6; the file was judged on 2018-01-01."
says C "$d" '2 19 1 290218' \
    'refused at line 3, column 8, byte 31: the due date: there is no such day; found "290218"; allowed: a real day of 2000 to 2099 (11).\n  2 19 1 290218\n         ^'
says C "$d" '2 19 1 010119' '19 1 0 00000558' \
    "refused at line 4, column 8, byte 45: the bank field: the payee's bank is 0000; found \"00000558\"; allowed: 0001 to 9999 (12).\n  19 1 0 00000558\n         ^"
says C "$c" "$g" '19 1 0 00000558' \
    "refused at line 4, column 8, byte 45: the bank field: the payee's bank is 0000; found \"00000558\"; allowed: 0001 to 9999 (12).\n  19 1 0 00000558\n         ^"
says C "$c" "$g" '19 1 0 103000558' \
    'refused at line 4, column 8, byte 45: the bank field: the ninth digit from the right is not allowed; found "103000558"; allowed: 0 as the ninth digit from the right (13).\n  19 1 0 103000558\n         ^'
says C "$c" "$g" "$i 0 a|b|c|d|e" \
    "refused at line 4, column 19, byte 56: the text: it has too many parts; found \"a|b|c|d|e\"; allowed: at most 4 parts (14).\n  $i 0 a|b|c|d|e\n                    ^"
says P "$c" "$g" "$i 0 AV:a|b#" \
    "refused at line 4, column 19, byte 110: the text: it holds # or ~; found \"AV:a|b#\"; allowed: no # and no ~ (14).\n  $i 0 AV:a|b#\n                    ^"
says P "$c" "$g" "$i 0 AV:~" \
    "refused at line 4, column 19, byte 110: the text: it holds # or ~; found \"AV:~\"; allowed: no # and no ~ (14).\n  $i 0 AV:~\n                    ^"
says P "$c" "$g" "$i 0 #" \
    "refused at line 4, column 19, byte 110: the text: it does not begin with AV:; found \"#\"; allowed: a text that begins with AV: (14).\n  $i 0 #\n                    ^"
says P "$c" "$g" "$i 0 AV:a|b|c|d|e" \
    "refused at line 4, column 19, byte 110: the text: it has too many parts; found \"AV:a|b|c|d|e\"; allowed: at most 4 parts (14).\n  $i 0 AV:a|b|c|d|e\n                    ^"
says P "$c" '2 19 2 010118' "$i" '3 +' \
    "refused at line 3, column 6, byte 83: the group's total: it is not the sum of the items; found \"2\"; allowed: the sum of the items, 1, which is 0.01 crowns (10).\n  2 19 2 010118\n       ^"
says K '1 1501 001001 0300' \
    "refused at line 2, column 15, byte 73: the payer's bank: this bank is not the sheet's; found \"0300\"; allowed: 8100 (8).\n  1 1501 001001 0300\n                ^
note: the file names bank 0300, ČSOB, whose sheet is C or P; it was judged by sheet K, Komerční banka."
says P "$k" \
    "refused at line 2, column 15, byte 73: the payer's bank: this bank is not the sheet's; found \"8100\"; allowed: 0300 (8).\n  $k\n                ^
note: the file names bank 8100, Komerční banka, whose sheet is K; it was judged by sheet P, ČSOB, previous edition."

# ---- what is shown of a line: letters, a mark where there is none, and a piece of a long one ----

says C "$c" "$g" "$i 0 \\0351\\t\\0001\\0177z" \
    "refused at line 4, column 19, byte 56: the text: it is not spelled as it must be; found \"\\\\xE9\\\\x09\\\\x01\\\\x7Fz\"; allowed: 1 to 10 digits, or text bytes, 32 to 255 but 127, the first no space (4).\n  $i 0 é���z\n                    ^"
long=$(printf '%0100d' 0)
first60="\"$(printf '%060d' 0)\", the first 60 of"
says C "$c" "$g" "$long$long" \
    "refused at line 4, column 1, byte 38: the payee's account: it is not spelled as it must be; found $first60 200 bytes; allowed: 1 to 16 digits, or 1 to 6 digits, a dash and 1 to 10 digits (4).\n  $(printf '%072d' 0)..\n  ^"
says C "$long$long" \
    "refused at line 2, column 1, byte 5: the line: an account file must follow the first line; found $first60 200 bytes; allowed: an account file, 1 (3).\n  $(printf '%072d' 0)..\n  ^"
says C "$c\\r$g\\r19 0 0 03000558\\r" \
    'refused at line 4, column 4, byte 41: the amount: it is zero; found "0"; allowed: 0.01 to 999999999999.99 crowns (6).\n  19 0 0 03000558\n     ^'
far='000019-0000000019 000019-0000000019 00000000000001 0000000000 0003000558 0000000000 a|b|c|d|e'
says C "$c" '2 1 010118' "$far" \
    "refused at line 4, column 85, byte 119: the text: it has too many parts; found \"a|b|c|d|e\"; allowed: at most 4 parts (14).
  ..$(printf %s "$far" | tail -c 72)\n$(printf '%67s' '')^"
head_of K | sed "s/000000000000\$/$long/" >"$file"
tell check "$file" --sheet K --day 2018-01-01
printf 'refused at line 1, column 47, byte 46: %s (4).\n  ..Firma%15s1234567890001999%036d..\n%40s^\n' \
    "the rest of the first line: it is not spelled as it must be; found $first60 100 bytes; allowed: 0 or 6 or 12 bytes of text" \
    '' 0 '' >"$work/wanted"
check 'a long line is cut on both sides' diff "$work/wanted" "$work/out"
same_answer 'a long first line' 1 20180101
{ printf '%s%s 1 0 03000558 ' "$long" "$long"; head_of C; } >"$file"
same_answer 'a long line that is not the first' 3 20180101

# ---- one item, and one account file, too many ----

lines() { # COUNT LINE ..: the lines so many times over, `@` in them replaced by the count so far in six digits
    awk -v n="$1" -v text="$2" 'BEGIN { for (i = 0; i < n; i++) { t = text; gsub(/@/, sprintf("%06d", i), t); printf t } }'
}
{ head_of S; printf '1 1501 000001 0800\n2 19 1001 010118\n'; lines 1001 '19 1 0 03000558  \n'; printf '3 +\n5 +\n'; } >"$file"
tell check "$file" --sheet S --day 2018-01-01
check 'item 1,001 of S' grep -q 'the line: this item is one too many in the file; found "19 1 0 03000558  "; allowed: at most 1000 items in a file (15)\.$' "$work/out"
same_answer 'item 1,001 of S' 2 20180101
{ head_of C; lines 1001 "1 1501 @ 0300\n$g\n$i\n3 +\n5 +\n"; } >"$file"
tell check "$file" --sheet C --day 2018-01-01
check 'account file 1,001' grep -q 'the line: this account file is one too many; found "1 1501 001000 0300"; allowed: at most 1000 account files (15)\.$' "$work/out"
same_answer 'account file 1,001' 3 20180101

# ---- an empty file, and standard input ----

: >"$file"
for letter in K S C E P; do same_answer "an empty file, $letter" "$(number_of $letter)" 20180101; done
tell check - --sheet C --day 2018-01-01 </dev/null
check 'no standard input is an empty file' diff - "$work/out" <<END
refused at line 1, column 1, byte 0: the line: a file must begin with its first line; found the end of the file; allowed: a first line, UHL1 (3).
  (the file ends here)
  ^
END

# ---- what show prints, word by word ----

tail -n +2 host/runs/sheet_k.in >"$file"
tell show "$file" --sheet K --day 2018-01-01
check 'show, word by word' diff - "$work/out" <<END
file of 2018-01-01, name "Firma", client 1234567890, interval 001 to 999
account file 001001, kind 1501
  group due 2018-01-02, payer 19-19, sum 50.01, items 1
    payer  payee  bank  crowns  variable  specific  constant  priority  message, name
           705    8100   50.01        42        17      0558         7  "led" "a"
  group due 2018-12-31, a payer for each item, sum 50.02, items 1
    payer  payee  bank  crowns  variable  specific  constant  priority  message, name
    19-19  705    8100   50.02        42         0      0558         5
account file 002001, kind 1501
  group due 2018-01-01, a payer for each item, sum 0.01, items 1
    payer  payee  bank  crowns  variable  specific  constant  priority  message, name
    19-19  705    8100    0.01         1         0      0558         5
accepted, 3 payments, 100.04 crowns, 1 warning
END
cp "$work/out" "$work/shown"
tell show - --day=2018-01-01 --sheet=K <"$file"
check 'show of standard input' cmp "$work/out" "$work/shown"
abo rewrite "$file" --sheet K --day 2018-01-01 --accept-warnings >"$work/canonical" 2>"$work/err"
tell rewrite - --sheet K --day 2018-01-01 <"$work/canonical"
check 'the canonical file is rewritten as itself' cmp "$work/out" "$work/canonical"

# ---- a large file, whole, damaged near its end, and by a pipe ----

second make 1 wages 3000000 >"$work/large"
check 'the large file has 3 MB or nearly so' [ "$(wc -c <"$work/large")" -gt 2900000 ]
cp "$work/large" "$file"
same_answer 'a large file' 1 20180101
check 'a large file is accepted' [ "$due" -eq 0 ]
tell rewrite - --sheet 1 --day 2018-01-01 <"$file"
check 'a large file by standard input' cmp "$work/out" "$work/canonical"
# in portions, as a pipe gives them
{ head -c 100000 "$work/large"; sleep 1; tail -c +100001 "$work/large"; } | abo rewrite - --sheet 1 --day 2018-01-01 >"$work/out"
check 'a large file by a pipe' cmp "$work/out" "$work/canonical"
{ head -c 2800000 "$work/large"; printf '\nx\n'; } >"$file"
same_answer 'a large file with a fault near its end' 1 20180101

# ---- the line of progress: on a terminal, for large input only ----

progress() { # FILE: what the tool says with a terminal for its standard error, as one line
    script -qec "$build/abo check $1 --sheet K --day 2018-01-01" /dev/null </dev/null | tr '\r\n' '  '
}
if command -v script >/dev/null; then
    check 'progress on a terminal' expr "$(progress "$work/large")" : '.*abo: reading, 2 MiB .*abo: judging, 2 MiB .*accepted, '
    tail -n +2 host/runs/sheet_k.in >"$file"
    check 'no progress for a small file' refuses expr "$(progress "$file")" : '.*MiB'
fi
tell check "$work/large" --sheet K --day 2018-01-01
check 'no progress where there is no terminal' [ ! -s "$work/err" ]

# ---- an output by name ----

echo before >"$work/named"
tell rewrite "$file" --sheet C --day 2018-01-01 -o "$work/named"
check 'a refusal leaves the output as it was' [ "$status $(cat "$work/named")" = '1 before' ]
tail -n +2 host/runs/document.in >"$file"
tell rewrite "$file" --sheet C --day 2018-01-01 -o "$work/named"
check 'the output has the canonical file' cmp "$work/named" host/runs/document.out
check 'and nothing is printed' [ "$status $(cat "$work/out" "$work/err")" = '0 ' ]
tell rewrite "$file" --sheet C --day 2018-01-01 -o "$file"
check 'a file may be rewritten in its own place' cmp "$file" host/runs/document.out
tell rewrite -o - --sheet C "$file" --day 2018-01-01
check 'a dash is standard output' cmp "$work/out" host/runs/document.out
cp "$file" "$work/-dashed"
(cd "$work" && abo check --sheet C --day 2018-01-01 -- -dashed) >"$work/out"
check 'a name that begins with a dash' grep -qx 'accepted, 1 payment, 50.01 crowns, 0 warnings' "$work/out"

# ---- rewriting never changes in silence ----

long36=$(printf '%036d' 0)
{ printf 'UHL1\n%s\n2 19 999 311217\n' "$c"; printf '19 2450000 0 03000558 0 %s NP:%s\n3 +\n5 +\n' "$long36" "$long36"; } >"$file"
echo before >"$work/named"
tell rewrite "$file" --sheet C --day 2018-01-01 -o "$work/named"
check 'four warnings: the status is 1' [ "$status" -eq 1 ]
check 'four warnings: the output stands as it was' [ "$(cat "$work/named")" = before ]
check 'four warnings: nothing is printed' [ ! -s "$work/out" ]
check 'four warnings: it says so' diff - "$work/err" <<END
abo: $file is accepted with 4 warnings, so its rewriting would not be the same file: texts that are too long would be cut, and totals become the sums. Nothing was written. --accept-warnings writes it all the same.
END
tell rewrite "$file" --sheet C --day 2018-01-01 -o "$work/named" --accept-warnings
check 'with --accept-warnings: the status is 0' [ "$status" -eq 0 ]
check 'with --accept-warnings: how many there were' diff - "$work/err" <<END
abo: $file was accepted with 4 warnings; what is written is what the bank makes of it.
END
tell check "$work/named" --sheet C --day 2018-01-01
check 'one warning is left, of the past day' grep -qx 'accepted, 1 payment, 24500.00 crowns, 1 warning' "$work/out"
tell check "$work/named" --sheet C --day 2018-01-01 --strict
check '--strict: one warning is one too many' [ "$status $(cat "$work/out")" = '1 accepted, 1 payment, 24500.00 crowns, 1 warning
warning at line 3, column 14, byte 39: the due date: the day is past; found "311217"; today is 2018-01-01.' ]
tell check "$work/named" --sheet C --day 2017-12-31 --strict
check '--strict: without warnings the status is 0' [ "$status $(cat "$work/out")" = '0 accepted, 1 payment, 24500.00 crowns, 0 warnings' ]
tell explain "$work/named" --sheet C --day 2018-01-01 --strict
check '--strict: explain too' [ "$status $(head -n 2 "$work/out")" = '1 Accepted on sheet C, rows 3, warnings 1.
Line 3, byte 39, the due date: the day is before 2018-01-01; found "311217".' ]
{ printf 'UHL1 and more\n%s\n' '1 1501 000000 0800'; printf '%s\n' "$g" "$i" '3 +' '5 +'; } >"$file"
tell rewrite "$file" --sheet C --day 2018-01-01
check 'what the sheet does not read: the status is 0' [ "$status" -eq 0 ]
check 'what the sheet does not read is said' diff - "$work/err" <<END
abo: note: of the first line, what the sheet does not read is not kept.
abo: note: the account files' bank becomes the sheet's, 0300.
END

# ---- output that is whole or not there: host/common/output_test.sh tries each step; here the tool as a whole ----

rm -rf "$work/folder"
mkdir "$work/folder"
cp "$work/large" "$file"
echo before >"$work/folder/named"
cp "$work/canonical" "$work/new"
abo rewrite "$file" --sheet K --day 2018-01-01 >"$work/new"
stands() { # the output is the old file or the new one, whole, and nothing is beside it
    [ "$(ls -A "$work/folder")" = named ] && { [ "$(head -c 7 "$work/folder/named")" = before ] || cmp "$work/folder/named" "$work/new"; }
}
(ulimit -f 64 && abo rewrite "$file" --sheet K --day 2018-01-01 -o "$work/folder/named" 2>"$work/err")
check 'a size limit: the status' [ $? -eq 2 ]
check 'a size limit: it says so' grep -q 'named could not be written whole: File too large' "$work/err"
check 'a size limit: the old file stands' [ "$(ls -A "$work/folder") $(cat "$work/folder/named")" = 'named before' ]
for wait in 0.00 0.01 0.02 0.03 0.04 0.06 0.08 0.1 0.15 0.2; do
    "$build/abo" rewrite "$file" --sheet K --day 2018-01-01 -o "$work/folder/named" 2>"$work/err" &
    sleep "$wait"
    kill -9 $! 2>"$work/err"
    wait $! 2>"$work/err"
    check "killed after $wait seconds: the output is the old file or the new one" stands
done
abo rewrite "$file" --sheet K --day 2018-01-01 -o "$work/folder/named"
check 'and then it is the new one' cmp "$work/folder/named" "$work/new"
ln -s folder/named "$work/link"
tail -n +2 host/runs/document.in >"$file"
tell rewrite "$file" --sheet C --day 2018-01-01 -o "$work/link"
check 'a link is followed, and stays' [ "$(readlink "$work/link")" = folder/named ]
check 'a link: what it leads to is replaced' cmp "$work/folder/named" host/runs/document.out
{ echo before; abo rewrite "$file" --sheet C --day 2018-01-01 -o /dev/stdout; } >"$work/out"
check '/dev/stdout: what was there stays' [ "$(head -n 1 "$work/out") $(tail -n +2 "$work/out" | cmp - host/runs/document.out)" = 'before ' ]

# ---- letters: Windows-1250 as people see it, and texts that are something else ----

{ head_of K; printf '%s\n2 19 1 010118\n%s 0 AV:P\370\355li\232 \236lu\235ou\350k\375 k\371\362\n3 +\n5 +\n' "$k" "$i"; } >"$file"
tell show "$file" --sheet K --day 2018-01-01
check 'show has Czech letters' grep -q '"Příliš žluťoučký kůň"$' "$work/out"
tell check "$file" --sheet K --day 2018-01-01
check 'check has no note on them' [ "$(cat "$work/out")" = 'accepted, 1 payment, 0.01 crowns, 0 warnings' ]
{ head_of K; printf '%s\n2 19 1 010118\n%s 0 AV:Příliš|kůň|plain\n3 +\n5 +\n' "$k" "$i"; } >"$file"
tell check "$file" --sheet K --day 2018-01-01
check 'check notes UTF-8' diff - "$work/out" <<END
accepted, 1 payment, 0.01 crowns, 0 warnings
note: 2 texts look like UTF-8; the bank reads Windows-1250 and counts each byte, so letters with marks would come out as two others.
END
tell show "$file" --sheet K --day 2018-01-01
check 'and show shows what the bank will see' grep -q '"PĹ™Ă�liĹˇ" "kĹŻĹ�" "plain"$' "$work/out"
says K "$k" "$g" "$i 0 AV:řřřřřřřřřřřřřřřřřř" \
    "refused at line 4, column 19, byte 110: the text: a part of it is too long; found \"AV:$(printf '\\\\xC5\\\\x99%.0s' $(seq 18))\"; allowed: at most 35 bytes in a part (14).
  $i 0 AV:Ĺ™Ĺ™Ĺ™Ĺ™Ĺ™Ĺ™Ĺ™Ĺ™Ĺ™Ĺ™Ĺ™Ĺ™Ĺ™Ĺ™Ĺ™Ĺ™Ĺ™Ĺ™\n                    ^
note: 1 text looks like UTF-8; the bank reads Windows-1250 and counts each byte, so letters with marks would come out as two others."

# ---- habits: today, codes of banks, several files ----

tail -n +2 host/runs/sheet_s.in >"$file"
for sheet in s S 2 0800; do
    tell check "$file" --sheet "$sheet" --day 1.1.2018
    check "sheet $sheet" [ "$status" -eq 0 ]
done
# 0300 is C, and P, the edition before it, goes by its letter or number: its first line is P's, and its closing lines are C's
for sheet in p P 5 c C 3 0300; do
    case $sheet in p | P | 5) plus=' +' ;; *) plus='+' ;; esac
    { head_of P; printf '%s\n%s\n%s\n3%s\n5%s\n' "$c" "$g" "$i" "$plus" "$plus"; } >"$file"
    tell check "$file" --sheet "$sheet" --day 2018-01-01
    check "sheet $sheet" [ "$status" -eq 0 ]
done
tell check "$file" --sheet P --day 2018-01-01
check 'and on P the closing lines of C are refused' [ "$status" -eq 1 ]
{ printf 'UHL1\n%s\n2 19 1 %s\n%s\n3 +\n5 +\n' "$c" "$(date -u +%d%m%y)" "$i"; } >"$file"
TZ=UTC0 abo check "$file" --sheet C --day today >"$work/out"
check 'today is the day of the clock' [ "$(cat "$work/out")" = 'accepted, 1 payment, 0.01 crowns, 0 warnings' ]
# of two places that are 26 hours apart the eastern one has a later day at every hour: what is due today in the west is past there
{ printf 'UHL1\n%s\n2 19 1 %s\n%s\n3 +\n5 +\n' "$c" "$(TZ=WEST12 date +%d%m%y)" "$i"; } >"$file"
TZ=WEST12 abo check "$file" --sheet C --day TODAY >"$work/west"
TZ=EAST-14 abo check "$file" --sheet C --day Today >"$work/east"
check 'today is the day of the place' refuses cmp "$work/west" "$work/east"
cp "$file" "$work/b file"
tail -n +2 host/runs/sheet_s.in >"$file"
tell check "$file" "$work/b file" "$work/none" --sheet S --day 2018-01-01
check 'several files: the gravest status' [ "$status" -eq 2 ]
check 'several files, each with its name' diff - "$work/out" <<END
$file: accepted, 2 collections, 50.02 crowns, 0 warnings
$work/b file:1:5: refused at line 1, column 5, byte 4: the creation date: it is not spelled as it must be; found nothing; allowed: six digits, DDMMRR (4).
  UHL1
      ^
note: the file names bank 0300, ČSOB, whose sheet is C or P; it was judged by sheet S, Česká spořitelna.
END
check 'several files: the one that is not there' diff - "$work/err" <<END
abo: $work/none cannot be read: No such file or directory.
END
tell check "$file" "$work/b file" --sheet S --day 2018-01-01
check 'several files, one refused: the status is 1' [ "$status" -eq 1 ]
tell explain "$file" "$work/b file" --sheet S --day 2018-01-01
check 'several files explained' [ "$(grep -v '^Sheet ' "$work/out")" = "$file: Accepted on sheet S, rows 5, warnings 0.
$work/b file: Refused on sheet S.
Line 1, byte 4, the creation date: the field is not spelled as it must be (4); found nothing; allowed: six digits, DDMMRR." ]
{ printf 'UHL1\n'; for kind in 1501 1502 1502 1504; do printf '1 %s 000000 0300\n%s\n%s\n3 +\n5 +\n' $kind "$g" "$i"; done; } >"$file"
tell check "$file" --sheet C --day 2018-01-01
check 'kinds of account files by their names' [ "$(cat "$work/out")" = \
    'accepted, 1 payment, 0.01 crowns, 2 collections, 0.02 crowns, 1 instant payment, 0.01 crowns, 0 warnings' ]
{ printf 'UHL1\n'; lines 999 "1 1501 @ 0300\n2 19 99999999999999 010118\n19 99999999999999 0 03000558\n3 +\n5 +\n"; } >"$file"
tell check "$file" --sheet C --day 2018-01-01
check 'a sum of 17 digits' [ "$(cat "$work/out")" = 'accepted, 999 payments, 998999999999990.01 crowns, 0 warnings' ]

# ---- statements ----

shown() { # CASE EXPECTED ARG ..: what is printed of CASE.gpc is EXPECTED, both in host/statements
    case=$1 expected=$2
    shift 2
    tell statement "host/statements/$case.gpc" "$@"
    check "$case: the status is 0" [ "$status" -eq 0 ]
    check "$case: nothing is told besides" [ ! -s "$work/err" ]
    check "$case: word by word" diff "host/statements/$expected" "$work/out"
}
shown pond pond.expected
shown pond pond.csv --csv
shown document_000 document_000.expected
tell statement host/statements/pond.gpc --check
check 'a statement, --check' [ "$status $(cat "$work/out" "$work/err")" = '0 accepted, 3 statements, 8 movements' ]
tell statement - <host/statements/pond.gpc
check 'a statement from standard input' cmp "$work/out" host/statements/pond.expected

record() { # NUMBER: of pond.gpc, from 1
    tail -c "+$((($1 - 1) * 130 + 1))" host/statements/pond.gpc | head -c 130
}
spoilt() { # RECORD PLACE TEXT: pond.gpc with this text at that place, from 0
    at=$((($1 - 1) * 130 + $2))
    { head -c "$at" host/statements/pond.gpc; printf %b "$3"; tail -c "+$((at + $(printf %b "$3" | wc -c) + 1))" host/statements/pond.gpc; } >"$file"
}
complains() { # WHAT: how the file is refused, by --check to standard output, else to standard error with no output
    tell statement "$file" --check
    check "$1: the status of --check is 1" [ "$status" -eq 1 ]
    check "$1: no wider than a terminal" in_columns "$work/out"
    { echo "== $1"; cat "$work/out"; } >>"$work/refusals"
    cp "$work/out" "$work/wanted"
    for form in '' --csv; do
        # shellcheck disable=SC2086
        tell statement "$file" $form
        check "$1: $form tells the same" cmp "$work/wanted" "$work/err"
        check "$1: $form prints nothing" [ "$status $(cat "$work/out")" = '1 ' ]
    done
}
batch=$file
file=$work/statement
: >"$file"
complains 'an empty file'
head -c 129 host/statements/pond.gpc >"$file"
complains 'a file that ends inside its first record'
{ cat host/statements/pond.gpc; printf '\032'; } >"$file"
complains 'a byte behind the last record'
spoilt 1 128 '\n\n'
complains 'a record without CR LF'
record 2 >"$file"
complains 'a movement before any head'
cp host/statements/document_000_av.gpc "$file"
complains 'a record 078'
spoilt 2 60 3
complains 'a posting code 3'
spoilt 1 50 x
complains 'a letter in a balance'
spoilt 1 89 +
complains 'a turnover with a plus'
spoilt 2 3 '\r'
complains 'a control character in an account'
spoilt 4 61 '          '
complains 'blanks for a variable symbol'
cp host/statements/document_003.gpc "$file"
complains 'a debit turnover'
spoilt 3 90 00000024999899
complains 'a credit turnover'
spoilt 3 74 -
complains 'a new balance'
check 'refused statements, word by word' diff host/statements/refusals.expected "$work/refusals"

# many files, an output by name, and what does not go together
cp host/statements/document_003.gpc "$work/b file"
tell statement host/statements/pond.gpc "$work/b file" "$work/none" --check
check 'several statements: the gravest status' [ "$status" -eq 2 ]
check 'several statements, each with its name' diff - "$work/out" <<END
host/statements/pond.gpc: accepted, 3 statements, 8 movements
$work/b file:1:76: refused at record 1, column 76, byte 75: the debit turnover is 61488.63, and the movements add up to 0.00 (52).
  ..01071200000012104500+00000781266237+000000061488630000007753106000001010..
                                        ^~~~~~~~~~~~~~
END
check 'several statements: the one that is not there' [ "$(cat "$work/err")" = "abo: $work/none cannot be read: No such file or directory." ]
echo before >"$work/named"
tell statement "$work/b file" -o "$work/named"
check 'a refused statement leaves the output as it was' [ "$status $(cat "$work/named")" = '1 before' ]
tell statement host/statements/pond.gpc --csv -o "$work/named"
check 'the output has the cells' cmp "$work/named" host/statements/pond.csv
check 'and nothing is printed of a statement' [ "$status $(cat "$work/out" "$work/err")" = '0 ' ]
if [ -c /dev/full ]; then
    for form in '' --check --csv; do
        # shellcheck disable=SC2086
        abo statement host/statements/pond.gpc $form >/dev/full 2>"$work/err"
        check "statement $form to a full output" [ "$?" -eq 2 ]
        check "statement $form to a full output says so" grep -q '^abo: Standard output could not be written whole' "$work/err"
    done
fi
second make_statement 1000000 >"$work/large_statement"
second statement "$work/large_statement" >"$work/due"
tell statement "$work/large_statement" --csv
tail -n +2 "$work/out" | cut -d , -f 5,6,8 >"$work/cells"
check 'a large statement: the status is 0' [ "$status $(head -c 1 "$work/due" | wc -c)" = '0 1' ]
check 'a large statement: amounts, balances and symbols are the second program'"'"'s' cmp "$work/cells" "$work/due"
seed=${SEED:-1}
while [ "$seed" -lt "$last" ]; do
    second generate_statement "$seed" "$file"
    second statement "$file" >"$work/due"
    due=$?
    tell statement "$file" --check
    check "statement of seed $seed: the status is $due" [ "$status" -eq "$due" ]
    sed '1s/^refused at record \([0-9]*\), column [0-9]*, byte \([0-9]*\): .* (\([0-9]*\))\.$/refused \3 record \1 byte \2/' "$work/out" |
        head -n 1 >"$work/line"
    [ "$due" -eq 0 ] || check "statement of seed $seed: the refusal is the second program's" cmp "$work/line" "$work/due"
    [ "$due" -eq 0 ] || check "statement of seed $seed: no wider than a terminal" in_columns "$work/out"
    seed=$((seed + 1))
done
file=$batch

# ---- command lines that are wrong, and trouble with files: status 2, a sentence, no output ----

wrong() { # SENTENCE ARG ..: the tool says this and no more
    sentence=$1
    shift
    tell "$@"
    check "$sentence: the status is 2" [ "$status" -eq 2 ]
    check "$sentence: nothing is printed" [ ! -s "$work/out" ]
    printf 'abo: %s\n' "$sentence" >"$work/wanted"
    check "$sentence" diff "$work/wanted" "$work/err"
}
how='`abo help` says how it is used.'
wrong "No command was given. $how"
wrong "chek is no command. $how" chek "$file" --sheet C --day 2018-01-01
wrong "No file was named. $how" check --sheet C --day 2018-01-01
wrong "The option --sheet is missing. $how" check "$file" --day 2018-01-01
wrong "The option --day is missing. $how" show "$file" --sheet C
wrong "The option --shet is not known. $how" check "$file" --shet C --day 2018-01-01
wrong "The option --sheets is not known. $how" check "$file" --sheets C --day 2018-01-01
wrong "The option -x is not known. $how" explain -x "$file" --sheet C --day 2018-01-01
wrong "The option --day lacks its value. $how" check "$file" --sheet C --day
wrong "One file is rewritten at a time, and - is a second one. $how" rewrite "$file" - --sheet C --day 2018-01-01
for option in --sheet=C --day=2018-01-01 --strict; do
    wrong "The option ${option%%=*} was given twice. $how" check "$file" --strict --sheet C --day 2018-01-01 "$option"
done
wrong "The option -o was given twice. $how" rewrite "$file" --sheet C --day 2018-01-01 -o "$work/a" -o "$work/b"
wrong "A file with warnings is not rewritten anyway, so rewrite does not take --strict. $how" \
    rewrite "$file" --sheet C --day 2018-01-01 --strict
wrong "Only rewrite takes --accept-warnings. $how" check "$file" --sheet C --day 2018-01-01 --accept-warnings
for sheet in X 0 6 11 KS 81 0100 ''; do
    wrong "The sheet $sheet is none of K, S, C, E or P, its number 1 to 5, or its bank's code 8100, 0800, 0300 (for C) or 6100. $how" \
        check "$file" --sheet "$sheet" --day 2018-01-01
done
for day in 2018-1-1 01-01-2018 2018-01-01x '' 2018/01/01 2O18-01-01 1.1.18 1.1.2018. 201811 tomorrow; do
    wrong "The day $day is not spelled as in 2026-11-15, 15.11.2026, 20261115 or today. $how" check "$file" --sheet C --day "$day"
done
for day in 2018-02-29 29.2.2018 20180229 2018-13-01 2018-00-01 2018-01-00 1999-12-31 2100-01-01; do
    wrong "The day $day is no real day of 2000 to 2099. $how" check "$file" --sheet C --day "$day"
done
wrong "Only rewrite and statement take -o. $how" check "$file" --sheet C --day 2018-01-01 -o "$work/named"
pond=host/statements/pond.gpc
wrong "Only check takes --json. $how" show "$file" --sheet C --day 2018-01-01 --json
wrong "Only check takes --all-sheets. $how" explain "$file" --day 2018-01-01 --all-sheets
wrong "Only check takes --json. $how" statement "$pond" --json
wrong "With --json every sheet is told anyway, so it does not go with --all-sheets. $how" \
    check "$file" --sheet C --day 2018-01-01 --all-sheets --json
wrong "The option --sheet is missing. $how" check "$file" --day 2018-01-01 --json
wrong "Statements are told in English alone, so statement does not take --lang. $how" statement "$pond" --lang cs
wrong "The option --lang lacks its value. $how" check "$file" --sheet C --day 2018-01-01 --lang
for lang in '' CS cz cs_CZ english; do
    wrong "The language $lang is none of cs and en. $how" check "$file" --sheet C --day 2018-01-01 --lang "$lang"
done
wrong "Only statement takes --csv. $how" show "$file" --sheet C --day 2018-01-01 --csv
wrong "Only statement takes --check. $how" rewrite "$file" --sheet C --day 2018-01-01 --check
wrong "No file was named. $how" statement --check
for option in '--sheet K' '--day today'; do
    # shellcheck disable=SC2086
    wrong "A statement is the same for every bank and day, so statement does not take ${option%% *}. $how" statement "$pond" $option
done
for option in --strict --accept-warnings; do
    wrong "A statement has no warnings, so statement does not take $option. $how" statement "$pond" "$option"
done
wrong "With --check nothing else is made, so it does not go with --csv. $how" statement "$pond" --check --csv
wrong "With --check nothing else is made, so it does not go with -o. $how" statement "$pond" --check -o "$work/named"
wrong "With --csv or -o one file is taken at a time, and - is a second one. $how" statement "$pond" - --csv
wrong "What is made of $work/b file must not take its place. $how" statement "$work/b file" -o "$work/b file"
wrong "$work/none cannot be read: No such file or directory." check "$work/none" --sheet C --day 2018-01-01
wrong "$work cannot be read: Is a directory." show "$work" --sheet C --day 2018-01-01
wrong "$work/no/where could not be written whole: no file can be made beside it (No such file or directory)." \
    rewrite "$file" --sheet C --day 2018-01-01 -o "$work/no/where"
wrong "$work/new\\nline\\x1b[2J cannot be read: No such file or directory." \
    check "$work/new$(printf '\nline\033[2J')" --sheet C --day 2018-01-01
wrong "$work/\\xe9\\xe8 cannot be read: No such file or directory." check "$work/$(printf '\351\350')" --sheet C --day 2018-01-01
wrong "chek\\x07 is no command. $how" "chek$(printf '\007')"
if [ -z "$run" ]; then # an emulator may open files of its own in the place of what is closed
    abo check - --sheet C --day 2018-01-01 <&- >"$work/out" 2>"$work/err"
    check 'standard input that is closed' [ "$? $(cat "$work/err")" = '2 abo: Standard input cannot be read: Bad file descriptor.' ]
fi
if [ -c /dev/full ]; then
    for command in check rewrite show explain; do
        abo "$command" "$file" --sheet C --day 2018-01-01 >/dev/full 2>"$work/err"
        check "$command to a full output" [ "$?" -eq 2 ]
        check "$command to a full output says so" grep -q '^abo: Standard output could not be written whole' "$work/err"
    done
    wrong '/dev/full could not be written whole: No space left on device.' rewrite "$file" --sheet C --day 2018-01-01 -o /dev/full
fi

# ---- the page for C programs shows what explain says ----

tell explain host/ledger/bad_total.kpc --sheet K --day 2026-11-15
awk '/^<!-- explained -->$/ { marked = 1 } marked && open && /^```$/ { exit } open { print } marked && /^```$/ { open = 1 }' docs/C-API.md >"$work/wanted"
check 'explain, word by word as docs/C-API.md has it' diff "$work/wanted" "$work/out"
tell check host/ledger/bad_total.kpc --sheet K --day 2026-11-15 --lang cs
check 'and the sentence in Czech' grep -qF "$(head -n 1 "$work/out" | sed 's/^[^:]*: //')" docs/C-API.md

# ---- help and version ----

for word in help --help -h 'check --help'; do
    # shellcheck disable=SC2086
    tell $word
    check "abo $word: the status is 0" [ "$status" -eq 0 ]
    for told in 'exit status is 0' 'abo check' 'abo rewrite' 'abo show' 'abo explain' 'abo statement' 'abo register' '--sheet SHEET' '--day DAY' '--register REG'; do
        check "abo $word tells '$told'" grep -q -e "$told" "$work/out"
    done
done
for bank in 'K  8100  Komerční banka' 'S  0800  Česká spořitelna' 'C  0300  ČSOB' 'E  6100  Equa bank'; do
    check "help names '$bank'" grep -q " $bank\$" "$work/out"
done
cp "$work/out" "$work/help"
tell --version
check 'the version' [ "$(cat "$work/out")" = "abo $(sed -n 's/^#define ABO_VERSION "\(.*\)"$/\1/p' include/abo.h)" ]

# ---- the page for man says what help says ----

sed 's/\\-/-/g; s/\\(lq//g; s/\\(rq//g' host/abo/abo.1 >"$work/man"
check "the page's version" grep -q "^\.TH ABO 1 [0-9-]* \"$(cat "$work/out")\"" "$work/man"
# shellcheck disable=SC2013
for option in $(grep -oE -e '(^| |\[)--?[a-z][a-z-]*' "$work/help" | tr -d ' [' | sort -u); do
    check "the page has $option" grep -qE -e "(^| )$option( |\$)" "$work/man"
done
for command in check show explain rewrite statement 'register start' 'register lowest' 'register free' 'register give-back'; do
    check "the page has $command" grep -qx "\.B abo $command" "$work/man"
done
grep -oE ' [KSCEP]  [0-9]{4}  .*' "$work/help" | sed 's/^ \(.\)  [0-9]*/\1/' | while read -r letter bank; do
    grep -qE "^$letter  [1-5]  [0-9]{4}  $bank\$" "$work/man" || echo "$letter $bank"
done >"$work/lacking"
check "the page has each sheet" [ ! -s "$work/lacking" ]
if command -v groff >/dev/null; then
    check 'the page is well formed' [ -z "$(groff -man -Tutf8 -K utf8 -ww -z host/abo/abo.1 2>&1)" ]
fi
last_line
