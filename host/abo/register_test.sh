#!/bin/sh
# The register of a day's numbers as the tool host/abo.c keeps it: started, asked, marked by check and given back, word by word in Czech and
# English; what it refuses, with the register's bytes compared before and after; registers that are none, another day's, missing or not to be
# written to; many checks at once, a lock that another holds, and processes that are killed meanwhile. What the library's calls themselves answer
# is tried by host/api/register_calls.c. The last line is 'N passed, M failed', and the exit status is 0 only if nothing failed.
# host/target.sh names the variables.
set -u
LC_ALL=C
export LC_ALL
cd "$(dirname "$0")/../.." || exit 2
. host/target.sh
. host/tally.sh
packages="$packages python3 util-linux"
have python3 flock
build_test abo || exit 2
build=$(cd "$build" && pwd)
work=$(mktemp -d) || exit 2
trap 'rm -rf "$work"' EXIT
cd "$work" || exit 2 # so that sentences name the register as it is typed

abo() { "$build/abo" "$@"; }

tell() { # COMMAND ARG ..: runs the tool; its output, what it says on standard error and its status are kept
    abo "$@" >out 2>err
    status=$?
}

says() { # WHAT STATUS OUTPUT ERROR ARG ..: the tool ends so and says this, and no more
    of=$1 due=$2 output=$3 error=$4
    shift 4
    tell "$@"
    check "$of: the status is $due" [ "$status" -eq "$due" ]
    printf '%s' "$output" | sed '$a\' >wanted
    check "$of: what is printed" diff wanted out
    printf '%s' "$error" | sed '$a\' >wanted
    check "$of: what is said on standard error" diff wanted err
}

spares() { # REGISTER WHAT STATUS OUTPUT ERROR ARG ..: says so, and leaves the register's bytes
    reg=$1
    shift
    cp "$reg" before
    says "$@"
    check "$1: the register is as it was" cmp before "$reg"
}

lists() { # REGISTER: its date, and the numbers that are marked
    python3 -c 'import sys
b = open(sys.argv[1], "rb").read()
print(int.from_bytes(b[:8], "little"), len(b), *("%03d" % n for n in range(1024) if b[8 + n // 8] >> n % 8 & 1))' "$1"
}

makes() { # REGISTER DATE NUMBER ..: a register of 136 bytes, with whatever date and marks
    python3 -c 'import sys
b = bytearray(int(sys.argv[2]).to_bytes(8, "little") + bytes(128))
for n in map(int, sys.argv[3:]): b[8 + n // 8] |= 1 << n % 8
open(sys.argv[1], "wb").write(b)' "$@"
}

holds() { # REGISTER DATE NUMBER ..: has this date, 136 bytes and just these marks
    reg=$1 date=$2
    shift 2
    [ "$(lists "$reg")" = "$date 136${1:+ $*}" ] || { lists "$reg"; false; }
}

k_file() { # DDMMRR NUMBER ..: a file of K that was made that day, with an account file for each number
    printf 'UHL1%sFirma               1234567890001998000000000000\n' "$1"
    shift
    for number in "$@"; do printf '1 1501 %s 8100\n2 19-19 1 050118\n705 1 0 03000558\n3 +\n5 +\n' "$number"; done
}

against='--sheet K --day 2018-01-03 --register day.reg'

# ---- a day: started, asked, marked, given back ----

says 'no register yet' 2 '' 'abo: day.reg cannot be read: No such file or directory.
abo: `abo register start` starts the register of a day.' register lowest day.reg
check 'a question makes no register' [ ! -e day.reg ]
check 'a question makes no lock' [ ! -e day.reg.lock ]
says 'a day is started' 0 'started day.reg; 1000 numbers are free on 2018-01-02, the lowest is 000' '' \
    register start day.reg --date 2018-01-02
check 'a started register' holds day.reg 20180102
check 'it is 136 bytes, and the lock beside it is empty' [ "$(wc -c <day.reg) $(wc -c <day.reg.lock)" = '136 0' ]
cp day.reg empty.reg
says 'the lowest number of a new day' 0 000 '' register lowest day.reg
says 'all are free' 0 1000 '' register free day.reg
check 'questions change nothing' cmp day.reg empty.reg

k_file 020118 001001 007002 >two.kpc
# shellcheck disable=SC2086
says 'a file is checked' 0 'accepted, 2 payments, 0.02 crowns, 0 warnings
marked in day.reg: 2; 998 numbers are free on 2018-01-02, the lowest is 000' '' check two.kpc $against
check 'its numbers are marked' holds day.reg 20180102 001 007
says 'two are not free' 0 998 '' register free day.reg
k_file 020118 003001 | sed 's/^2 19-19 1/2 19-19 2/' >total.kpc
# shellcheck disable=SC2086
spares day.reg 'a file with another fault' 1 "refused at line 3, column 9, byte 86: the group's total: it is not the sum of the items; found \"2\"; allowed: the sum of the items, 1, which is 0.01 crowns (10).
  2 19-19 2 050118
          ^" '' check total.kpc $against

# ---- 22: the same file again, and one number of many, in both languages ----

used='refused at line 2, column 8, byte 66: the account file'"'"'s number: its first three digits were used that day; found "001001"; allowed: first three digits that were not used that day, the lowest free being 000 (22).
  1 1501 001001 8100
         ^'
# shellcheck disable=SC2086
spares day.reg 'the same file again' 1 "$used" '' check two.kpc $against
# shellcheck disable=SC2086
spares day.reg 'the same file again, in Czech' 1 'odmítnuto na řádku 2, ve sloupci 8, bajt 66: číslo účetního souboru: jeho první tři číslice už byly toho dne použity; nalezeno: "001001"; dovoleno: první tři číslice, které toho dne ještě nebyly použity, nejníže 000 (22).
  1 1501 001001 8100
         ^' '' check two.kpc $against --lang cs
k_file 020118 000001 002001 007009 >third.kpc
sed -i 's/001998/000998/' third.kpc
# shellcheck disable=SC2086
spares day.reg 'the last of three numbers' 1 'refused at line 12, column 8, byte 188: the account file'"'"'s number: its first three digits were used that day; found "007009"; allowed: first three digits that were not used that day, the lowest free being 000 (22).
  1 1501 007009 8100
         ^' '' check third.kpc $against
# 9 comes before 22 in the field, and 22 before what follows in the line and the file
k_file 020118 999001 >outside.kpc
makes nines.reg 20180102 999 001
# shellcheck disable=SC2086
spares nines.reg 'outside of the interval and used' 1 'refused at line 2, column 8, byte 66: the account file'"'"'s number: its first three digits are outside the interval; found "999001"; allowed: first three digits 001 to 998 (9).
  1 1501 999001 8100
         ^' '' check outside.kpc --sheet K --day 2018-01-03 --register nines.reg
sed 's/^2 19-19 1/2 19-19 2/; s/8100$/0800/' two.kpc >twice.kpc
# shellcheck disable=SC2086
spares day.reg 'a used number before other faults' 1 'refused at line 2, column 8, byte 66: the account file'"'"'s number: its first three digits were used that day; found "001001"; allowed: first three digits that were not used that day, the lowest free being 000 (22).
  1 1501 001001 0800
         ^
note: the file names bank 0800, Česká spořitelna, whose sheet is S; it was judged by sheet K, Komerční banka.' '' check twice.kpc $against
makes full.reg 20180102 $(seq 0 999)
spares full.reg 'a full register' 1 'refused at line 2, column 8, byte 66: the account file'"'"'s number: its first three digits were used that day; found "001001"; allowed: first three digits that were not used that day, but none is left (22).
  1 1501 001001 8100
         ^' '' check two.kpc --sheet K --day 2018-01-03 --register full.reg
spares full.reg 'no number is free' 1 '' 'abo: full.reg has no free number: no number is free on 2018-01-02.' register lowest full.reg
spares full.reg 'no number is free, in Czech' 1 '' 'abo: full.reg nemá volné číslo: žádné číslo už není volné na den 2. 1. 2018.' \
    register lowest full.reg --lang cs
spares full.reg 'none is free' 0 0 '' register free full.reg

# ---- giving back, 24 ----

spares day.reg 'a number that is not marked' 1 '' 'abo: 002 is not marked in day.reg, so it cannot be given back (24).' \
    register give-back day.reg 2
spares day.reg 'a number that is not marked, in Czech' 1 '' 'abo: 002 není označeno v day.reg, takže je nelze vrátit (24).' \
    register give-back day.reg 002 --lang cs
spares day.reg 'a number above 999' 1 '' 'abo: 1000 is above 999, so it cannot be given back (24).' register give-back day.reg 1000
spares day.reg 'a number above 999, in Czech' 1 '' 'abo: 1025 je větší než 999, takže je nelze vrátit (24).' \
    register give-back day.reg 1025 --lang cs
for number in 001001 18446744073709551617 99999999999999999999999999; do
    spares day.reg "the number $number" 1 '' "abo: $number is above 999, so it cannot be given back (24)." register give-back day.reg $number
done
says 'a number is given back' 0 'given back in day.reg: 001; 999 numbers are free on 2018-01-02, the lowest is 000' '' register give-back day.reg 1
check 'its mark is gone, and no other' holds day.reg 20180102 007
spares day.reg 'the same number once more' 1 '' 'abo: 001 is not marked in day.reg, so it cannot be given back (24).' register give-back day.reg 001
k_file 020118 001005 >one.kpc
# shellcheck disable=SC2086
says 'a number that was given back is used again' 0 'přijato, 1 platba, 0,01 Kč, 0 varování
označeno v day.reg: 1; volných čísel na den 2. 1. 2018: 998, nejnižší 000' '' check one.kpc $against --lang cs
check 'and marked again' holds day.reg 20180102 001 007
says 'given back in Czech' 0 'vráceno v day.reg: 007; volných čísel na den 2. 1. 2018: 999, nejnižší 000' '' register give-back day.reg 007 --lang cs
makes last.reg 20180102 $(seq 0 998)
says 'one is left' 0 999 '' register lowest last.reg
k_file 020118 999001 | sed 's/001998/001999/' >last.kpc
says 'the last number of a day' 0 'accepted, 1 payment, 0.01 crowns, 0 warnings
marked in last.reg: 1; no number is free on 2018-01-02' '' check last.kpc --sheet K --day 2018-01-03 --register last.reg
says 'the last but one' 0 'given back in last.reg: 500; 1 number is free on 2018-01-02, the lowest is 500' '' register give-back last.reg 500

# ---- a new day, and marks that would be lost by habit ----

lose='with 1 number marked, and starting it would lose the marks. Nothing was changed. --again starts it all the same.'
for date in 2018-01-02 2.1.2018 20180101; do
    spares day.reg "the same day or an earlier one, $date" 1 '' "abo: day.reg is the register of 2018-01-02 $lose" register start day.reg --date "$date"
done
spares full.reg 'the same day, in Czech' 1 '' \
    'abo: full.reg je registr na den 2. 1. 2018 a označených čísel je v něm 1000: založením by se tyto značky ztratily. Nic nebylo změněno. S --again se založí i tak.' \
    register start full.reg --date 2018-01-02 --lang cs
says 'the same day again, if it is said so' 0 'started day.reg; 1000 numbers are free on 2018-01-02, the lowest is 000' '' \
    register start day.reg --date 2018-01-02 --again
check 'then it is empty' cmp day.reg empty.reg
says 'the same day again, with no marks' 0 'založen day.reg; volných čísel na den 2. 1. 2018: 1000, nejnižší 000' '' \
    register start day.reg --date 2018-01-02 --lang cs
# shellcheck disable=SC2086
tell check one.kpc $against
says 'a new day starts empty' 0 'started day.reg; 1000 numbers are free on 2018-01-03, the lowest is 000' '' register start day.reg --date 2018-01-03
check 'it is the new day'"'"'s' holds day.reg 20180103

# ---- 23: another day's register, and files that are none ----

# shellcheck disable=SC2086
spares day.reg 'another day' 1 "refused at line 1, column 5, byte 4: the creation date: the register of the day's numbers is for another day; found \"020118\"; allowed: the register's date, 2018-01-03 (23).
  UHL1020118Firma               1234567890001998000000000000
      ^" '' check one.kpc $against
# shellcheck disable=SC2086
spares day.reg 'another day, in Czech' 1 'odmítnuto na řádku 1, ve sloupci 5, bajt 4: datum vytvoření: registr čísel je na jiný den; nalezeno: "020118"; dovoleno: datum registru, 3. 1. 2018 (23).
  UHL1020118Firma               1234567890001998000000000000
      ^' '' check one.kpc $against --lang cs
# the header's date must be readable, and then 23 comes before all that follows
k_file 310218 001001 >unreal.kpc
# shellcheck disable=SC2086
spares day.reg 'a date that is not real' 1 'refused at line 1, column 5, byte 4: the creation date: there is no such day; found "310218"; allowed: a real day of 2000 to 2099 (11).
  UHL1310218Firma               1234567890001998000000000000
      ^' '' check unreal.kpc $against
printf 'UHL1020118\n' >header.kpc
# shellcheck disable=SC2086
spares day.reg 'a first line that ends behind its date' 1 "refused at line 1, column 5, byte 4: the creation date: the register of the day's numbers is for another day; found \"020118\"; allowed: the register's date, 2018-01-03 (23).
  UHL1020118
      ^" '' check header.kpc $against

none() { # REGISTER WHY PROČ: it is told as none by every command, and never changed
    english="refused at line 1, column 5, byte 4: the creation date: the register of the day's numbers is not laid out as one; found \"020118\"; allowed: a register that was started for this date (23).
  UHL1020118Firma               1234567890001998000000000000
      ^
note: $1 is no register: $2."
    czech="odmítnuto na řádku 1, ve sloupci 5, bajt 4: datum vytvoření: registr čísel dne nemá podobu registru; nalezeno: \"020118\"; dovoleno: registr založený na toto datum (23).
  UHL1020118Firma               1234567890001998000000000000
      ^
poznámka: $1 není registr: $3."
    spares "$1" "$1, check" 1 "$english" '' check one.kpc --sheet K --day 2018-01-03 --register "$1"
    spares "$1" "$1, check in Czech" 1 "$czech" '' check one.kpc --sheet K --day 2018-01-03 --register "$1" --lang cs
    for command in free lowest 'give-back'; do
        [ $command = give-back ] && number=1000 || number=
        # shellcheck disable=SC2086
        spares "$1" "$1, $command" 1 '' "abo: $1 is not laid out as a register: $2 (23)." register $command "$1" $number
        # shellcheck disable=SC2086
        spares "$1" "$1, $command in Czech" 1 '' "abo: $1 nemá podobu registru: $3 (23)." register $command "$1" $number --lang cs
    done
    for again in '' --again; do
        # shellcheck disable=SC2086
        spares "$1" "$1, start $again" 1 '' "abo: $1 is there already and is no register, so it is not replaced: $2." \
            register start "$1" --date 2018-01-02 $again
    done
    spares "$1" "$1, start in Czech" 1 '' "abo: $1 už existuje a není to registr, takže se nenahradí: $3." register start "$1" --date 2018-01-02 --lang cs
    check "$1: no lock is left beside it" [ ! -e "$1.lock" ]
}
head -c 135 empty.reg >short
none short 'it has 135 bytes, and a register has 136' 'počet jeho bajtů je 135, a registr jich má 136'
{ cat empty.reg; printf x; } >long
none long 'it has 137 bytes, and a register has 136' 'počet jeho bajtů je 137, a registr jich má 136'
: >nothing
none nothing 'it has 0 bytes, and a register has 136' 'počet jeho bajtů je 0, a registr jich má 136'
printf x >one
none one 'it has 1 byte, and a register has 136' 'počet jeho bajtů je 1, a registr jich má 136'
head -c 136 /dev/zero >zeros
none zeros 'its date is no real day of 2000 to 2099' 'jeho datum není skutečným dnem let 2000 až 2099'
makes unreal 20180230 7
none unreal 'its date is no real day of 2000 to 2099' 'jeho datum není skutečným dnem let 2000 až 2099'
makes above 20180102 7 1000
none above 'a number above 999 is marked in it' 'je v něm označeno číslo větší než 999'
makes above 20180102 1023
none above 'a number above 999 is marked in it' 'je v něm označeno číslo větší než 999'
cp two.kpc wages
none wages "it has $(wc -c <wages) bytes, and a register has 136" "počet jeho bajtů je $(wc -c <wages), a registr jich má 136"

# ---- other sheets do not look at it, and neither does what comes before ----

cp empty.reg day.reg
rm -f day.reg.lock
chmod 000 day.reg
printf 'UHL1\n1 1501 001001 0300\n2 19-19 1 050118\n705 1 0 03000558\n3 +\n5 +\n' >c.kpc
# shellcheck disable=SC2086
says 'on C' 0 'accepted, 1 payment, 0.01 crowns, 0 warnings
note: sheet C has no register of numbers, so day.reg was not looked at.' '' check c.kpc --sheet C --day 2018-01-03 --register day.reg
for sheet in S E P; do
    tell check two.kpc --sheet $sheet --day 2018-01-03 --register day.reg --lang cs
    check "on $sheet: the file is refused as without" [ "$status $(grep -c '(8)\.$' out)" = '1 1' ]
    check "on $sheet: it says so in Czech" grep -qx "poznámka: list $sheet registr čísel nemá, takže do day.reg se nenahlíželo\." out
    tell check two.kpc --sheet $sheet --day 2018-01-03 --register nowhere/none.reg
    check "on $sheet: it need not be there" [ "$status $(cat err)" = '1 ' ]
done
chmod 644 day.reg
check 'it is as it was, and no lock is beside it' [ "$(cmp day.reg empty.reg; ls day.reg*)" = day.reg ]

# ---- several files, warnings, standard input, JSON ----

k_file 020118 003001 | sed 's/03000558/0103000558/' >warned.kpc
# shellcheck disable=SC2086
spares day.reg 'a warning with --strict marks nothing' 1 'accepted, 1 payment, 0.01 crowns, 1 warning
warning at line 4, column 9, byte 103: the bank field: this priority is not in use; found "0103000558"; priority 1 is read as 5.
note: its numbers are not marked in day.reg, because it has warnings and --strict was given.' '' check warned.kpc $against --strict
# shellcheck disable=SC2086
tell check warned.kpc $against --strict --lang cs
check 'a warning with --strict, in Czech' grep -qx 'poznámka: čísla nejsou označena v day.reg, protože soubor má varování a bylo zadáno --strict\.' out
# shellcheck disable=SC2086
tell check warned.kpc $against
check 'a warning without --strict' [ "$status $(tail -n 1 out)" = '0 marked in day.reg: 1; 999 numbers are free on 2018-01-02, the lowest is 000' ]
# shellcheck disable=SC2086
tell check one.kpc two.kpc third.kpc $against
check 'several files: the gravest status' [ "$status" -eq 1 ]
check 'several files: each against what those before it marked' diff - out <<'END'
one.kpc: accepted, 1 payment, 0.01 crowns, 0 warnings
marked in day.reg: 1; 998 numbers are free on 2018-01-02, the lowest is 000
two.kpc:2:8: refused at line 2, column 8, byte 66: the account file's number: its first three digits were used that day; found "001001"; allowed: first three digits that were not used that day, the lowest free being 000 (22).
  1 1501 001001 8100
         ^
third.kpc: accepted, 3 payments, 0.03 crowns, 0 warnings
marked in day.reg: 3; 995 numbers are free on 2018-01-02, the lowest is 004
END
check 'several files: what is marked' holds day.reg 20180102 000 001 002 003 007
k_file 020118 004001 >four.kpc
# shellcheck disable=SC2086
abo check - $against <four.kpc >out 2>err
check 'standard input' [ "$? $(tail -n 1 out)" = '0 marked in day.reg: 1; 994 numbers are free on 2018-01-02, the lowest is 005' ]

json() { # EXPRESSION: is true of the object that was printed
    python3 -c 'import json, sys
a = json.load(open("out", encoding="ascii"))
f = a["findings"][0] if a["findings"] else None
sys.exit(0 if eval(sys.argv[1]) else (print(a), 1)[1])' "$1"
}
k_file 020118 005001 006001 >json.kpc
# shellcheck disable=SC2086
tell check json.kpc $against --json
check 'JSON: accepted' json '[a["accepted"], a["number"], a["register"], a["marked"], a["findings"], a["sheets"]["K"]] == [True, 0, "day.reg", 2, [], True]'
cp day.reg before
# shellcheck disable=SC2086
tell check json.kpc $against --json
check 'JSON: the status of 22 is 1' [ "$status" -eq 1 ]
check 'JSON: 22' json '[a["accepted"], a["number"], a["number_name"], a["rows"], a["marked"], a["sheets"]["K"]] == [False, 22, "ABO_NUMBER_USED", 0, 0, False]'
check 'JSON: the finding of 22, by numbers' json \
    'len(a["findings"]) == 1 and [f[k] for k in ("number", "cause", "line", "byte", "length", "field", "least", "most")] == [22, 220, 2, 66, 6, 11, 8, 999]'
check 'JSON: the finding of 22, by names' json \
    '[f["number_name"], f["cause_name"], f["field_name"], f["found"], f["warning"]] == ["ABO_NUMBER_USED", "ABO_CAUSE_NUMBER_TAKEN", "ABO_FOUND_NUMBER", "005001", False]'
check 'JSON: the sentence of 22' json 'f["sentence"].startswith("Line 2, byte 66, the account file'"'"'s number: its first three digits were used that day; ") and f["sentence"].endswith(" (22).")'
# a file that the register alone refuses has warnings without it, and other sheets take it all the same
sed 's/03000558/0103000558/' json.kpc >many.kpc
# shellcheck disable=SC2086
tell check many.kpc $against --json --lang cs
check 'JSON: a refusal is all that is found' json '[len(a["findings"]), f["number"], a["warnings"], a["sheets"]["K"]] == [1, 22, 0, False]'
check 'JSON: the sentence in Czech' json 'f["sentence"].startswith("Řádek 2, bajt 66, číslo účetního souboru: jeho první tři číslice už byly toho dne použity; ")'
tell check one.kpc --sheet K --day 2018-01-03 --register full.reg --json
check 'JSON: none is left' json '[f["cause"], f["least"], f["most"]] == [220, 1000, 999]'
tell check one.kpc --sheet K --day 2018-01-03 --register short --json
check 'JSON: no register' json '[a["number"], f["cause_name"], f["field_name"], f["least"], f["most"], f["found"]] == [23, "ABO_CAUSE_REGISTER_MALFORMED", "ABO_FOUND_DATE", 0, 0, "020118"]'
makes other.reg 20180104
tell check one.kpc --sheet K --day 2018-01-03 --register other.reg --json
check 'JSON: another day' json '[a["number"], f["cause"], f["line"], f["byte"], f["length"], f["field"], f["least"], f["most"]] == [23, 231, 1, 4, 6, 1, 20180104, 20180104]'
k_file 020118 009001 | sed 's/^2 19-19 1/2 19-19 2/' >total.kpc
# shellcheck disable=SC2086
tell check total.kpc $against --json
check 'JSON: another fault is found as without' json '[a["number"], f["cause"], a["marked"], a["sheets"]["K"]] == [10, 100, 0, False]'
tell check c.kpc --sheet C --day 2018-01-03 --register nowhere --json
check 'JSON on another sheet: nothing is marked' json '[a["accepted"], a["register"], a["marked"]] == [True, "nowhere", 0]'
tell check c.kpc --sheet C --day 2018-01-03 --json
check 'JSON without a register has none' json '"register" not in a and "marked" not in a'
check 'JSON: what was refused left the register' cmp before day.reg

# ---- links: one register, one lock ----

mkdir links
ln -s ../day.reg links/one
ln -s one links/two
cp empty.reg day.reg
says 'by a link' 0 'accepted, 1 payment, 0.01 crowns, 0 warnings
marked in links/two: 1; 999 numbers are free on 2018-01-02, the lowest is 000' '' check one.kpc --sheet K --day 2018-01-03 --register links/two
check 'by a link: what it leads to is marked' holds day.reg 20180102 001
check 'by a link: it stays, and no lock is beside it' [ "$(readlink links/two) $(ls links | tr '\n' ' ')" = 'one one two ' ]
ln -s ../new.reg links/new
says 'a link to nothing' 0 'started links/new; 1000 numbers are free on 2018-01-02, the lowest is 000' '' register start links/new --date 2018-01-02
check 'a link to nothing: a register is made there' holds new.reg 20180102

# ---- at the same time ----

cp empty.reg day.reg
count=0
while [ $count -lt 20 ]; do
    k_file 020118 "$(printf %03d $((count * 7 + 1)))001" >"many$count.kpc"
    count=$((count + 1))
done
at_once() { # ARG-OF-CHECK ..: twenty checks at once, each of a file of its own or of this one
    count=0
    while [ $count -lt 20 ]; do
        # shellcheck disable=SC2086
        "$build/abo" check "${1:-many$count.kpc}" $against >"said$count" 2>&1 &
        count=$((count + 1))
    done
    wait
}
at_once
# shellcheck disable=SC2046
check 'twenty checks at once: all are marked' holds day.reg 20180102 $(seq -f %03g 1 7 134)
check 'twenty checks at once: all are accepted' [ "$(cat said* | grep -c '^accepted, ')" -eq 20 ]
check 'twenty checks at once: each saw another register' [ "$(cat said* | grep '^marked' | sort -u | wc -l)" -eq 20 ]
cp empty.reg day.reg
at_once one.kpc
check 'one file twenty times at once: once it is accepted' [ "$(cat said* | grep -c '^accepted, ') $(cat said* | grep -c '(22)\.$')" = '1 19' ]
check 'one file twenty times at once: it is marked' holds day.reg 20180102 001
# numbers are given back and taken at once: what is left is what was taken
makes day.reg 20180102 $(seq 200 2 238)
count=0
while [ $count -lt 20 ]; do
    # shellcheck disable=SC2086
    "$build/abo" check "many$count.kpc" $against >"said$count" 2>&1 &
    "$build/abo" register give-back day.reg $((200 + 2 * count)) >"back$count" 2>&1 &
    count=$((count + 1))
done
wait
# shellcheck disable=SC2046
check 'taken and given back at once' holds day.reg 20180102 $(seq -f %03g 1 7 134)
# two that start the same day at once, and a check between them: a mark is not lost
rm -f day.reg
count=0
while [ $count -lt 10 ]; do
    "$build/abo" register start day.reg --date 2018-01-02 >"start$count" 2>&1 &
    # shellcheck disable=SC2086
    "$build/abo" check "many$count.kpc" $against >"said$count" 2>&1 &
    count=$((count + 1))
done
wait
accepted=$(cat said[0-9] | grep -c '^accepted, ')
check 'started and checked at once: what was accepted is marked' [ "$(lists day.reg | wc -w)" -eq $((accepted + 2)) ]

# ---- a lock that another program holds ----

cp empty.reg day.reg
mkfifo go
flock day.reg.lock sh -c 'read -r _ <go' &
holder=$!
while flock -n day.reg.lock true; do :; done
# shellcheck disable=SC2086
"$build/abo" check one.kpc $against >waiting 2>&1 &
waiter=$!
says 'questions do not wait for a lock' 0 1000 '' register free day.reg
says 'nor do other sheets' 0 'accepted, 1 payment, 0.01 crowns, 0 warnings
note: sheet C has no register of numbers, so day.reg was not looked at.' '' check c.kpc --sheet C --day 2018-01-03 --register day.reg
sleep 0.3
check 'a check waits for the lock' [ "$(cat waiting; cmp day.reg empty.reg; kill -0 $waiter 2>&1)" = '' ]
# shellcheck disable=SC2086
"$build/abo" check two.kpc $against >killed 2>&1 &
killed=$!
sleep 0.3
kill -9 $killed
wait $killed 2>err
check 'one that is killed while it waits says nothing and marks nothing' [ "$(cat killed; cmp day.reg empty.reg)" = '' ]
if command -v script >/dev/null; then
    timeout 2 script -qec "$build/abo check two.kpc $against" /dev/null </dev/null >terminal 2>&1
    check 'on a terminal one is told what it waits for' grep -q '^abo: waiting for another program that uses the register\.' terminal
fi
echo >go
wait $holder
wait $waiter
check 'then it is done' [ "$? $(tail -n 1 waiting)" = '0 marked in day.reg: 1; 999 numbers are free on 2018-01-02, the lowest is 000' ]
check 'and marked' holds day.reg 20180102 001

# ---- killed, ended and out of room: the old register or the new one, whole, and nothing beside it but the lock ----

mkdir folder
{ k_file 020118 001001 | head -n 2; awk 'BEGIN { print "2 19-19 90000 050118"; for (i = 0; i < 90000; i++) print "705 1 0 03000558"; print "3 +\n5 +" }'; } >large.kpc
whole() { # the old register or the new one, and the lock beside it
    [ "$(ls -A folder | tr '\n' ' ')" = 'day.reg day.reg.lock ' ] && { cmp -s folder/day.reg empty.reg || holds folder/day.reg 20180102 001; }
}
: >folder/day.reg.lock
for sign in 9 15; do
    for wait in 0.00 0.005 0.01 0.015 0.02 0.03 0.04 0.06; do
        cp empty.reg folder/day.reg
        "$build/abo" check large.kpc --sheet K --day 2018-01-03 --register folder/day.reg >killed 2>&1 &
        sleep $wait
        kill -$sign $! 2>err
        wait $! 2>err
        # killed between its name and its place, the new register may be left under that name: nobody can clean up behind it
        [ $sign -eq 15 ] || rm -f folder/.abo-*
        check "ended by $sign after $wait seconds: the register is whole" whole
    done
done
cp empty.reg folder/day.reg
tell check one.kpc --sheet K --day 2018-01-03 --register folder/day.reg
check 'behind them the lock is free' [ "$status" -eq 0 ]
cp empty.reg folder/day.reg
(ulimit -f 0 && "$build/abo" check one.kpc --sheet K --day 2018-01-03 --register folder/day.reg 2>&1; echo "status $?") | cat >said
check 'no room for the register: it is told' diff - said <<'END'
abo: folder/day.reg could not be written whole: File too large.
abo: one.kpc is accepted, but its numbers are not marked: the register is as it was.
status 2
END
check 'no room for the register: it is as it was' [ "$(whole && cmp folder/day.reg empty.reg)" = '' ]
(ulimit -f 0 && "$build/abo" check - --sheet K --day 2018-01-03 --register folder/day.reg --lang cs <one.kpc 2>&1) | cat >said
check 'no room for the register, in Czech' grep -qx 'abo: standardní vstup je přijat, ale jeho čísla nejsou označena: registr je, jaký byl\.' said
(ulimit -f 0 && "$build/abo" register start folder/day.reg --date 2018-01-04 2>&1; echo "status $?") | cat >said
check 'no room for a new day: the old one stands' [ "$(cat said; cmp folder/day.reg empty.reg)" = 'abo: folder/day.reg could not be written whole: File too large.
status 2' ]
makes folder/day.reg 20180102 9
cp folder/day.reg before
(ulimit -f 0 && "$build/abo" register give-back folder/day.reg 9 2>&1; echo "status $?") | cat >said
check 'no room to give back: the mark stands' [ "$(cat said; cmp folder/day.reg before)" = 'abo: folder/day.reg could not be written whole: File too large.
status 2' ]
if [ -c /dev/full ]; then
    cp empty.reg day.reg
    # shellcheck disable=SC2086
    abo check one.kpc $against >/dev/full 2>err
    check 'a full output: the status is 2' [ $? -eq 2 ]
    check 'a full output: what was accepted is marked all the same' holds day.reg 20180102 001
fi

# ---- files and folders that may not be read or written to; root may, so another user tries ----

as_other() { # COMMAND ..
    if [ "$(id -u)" -eq 0 ]; then setpriv --reuid=65534 --regid=65534 --clear-groups "$@"; else "$@"; fi
}
for program in "$build/abo" "$build/x86-64/abo"; do [ ! -f "$program" ] || cp "$program" abo; done
others() { # ARG ..: the tool as another user
    # shellcheck disable=SC2086
    as_other $run ./abo "$@" >out 2>err
    status=$?
}
denied() { # WHAT SENTENCE: the status is 2, and this is said and no more
    check "$1: the status is 2" [ "$status $(cat out)" = '2 ' ]
    check "$1: it says so" [ "$(cat err)" = "abo: $2" ]
}
chmod 755 .
chmod 644 ./*.kpc
mkdir -m 777 theirs
cp empty.reg theirs/day.reg
chmod 444 theirs/day.reg
others check one.kpc --sheet K --day 2018-01-03 --register theirs/day.reg
denied 'a register that is not to be written to' 'theirs/day.reg cannot be read and written: Permission denied.'
others register free theirs/day.reg
check 'but it may be asked' [ "$status $(cat out)" = '0 1000' ]
check 'and nothing is beside it' [ "$(ls -A theirs)" = day.reg ]
chmod 666 theirs/day.reg
chmod 555 theirs
others check one.kpc --sheet K --day 2018-01-03 --register theirs/day.reg
denied 'a folder that is not to be written to' 'theirs/day.reg.lock cannot be locked: Permission denied.'
others register start theirs/new.reg --date 2018-01-02
denied 'no new register in such a folder' 'theirs/new.reg.lock cannot be locked: Permission denied.'
: >theirs/day.reg.lock
chmod 644 theirs/day.reg.lock
others check one.kpc --sheet K --day 2018-01-03 --register theirs/day.reg
check "another's lock may be locked, but no register be made: the status is 2" [ "$status $(cat out)" = '2 ' ]
check "another's lock may be locked, but no register be made: it says so" diff - err <<'END'
abo: theirs/day.reg could not be written whole: no file can be made beside it (Permission denied).
abo: one.kpc is accepted, but its numbers are not marked: the register is as it was.
END
check 'the register stands' cmp theirs/day.reg empty.reg
chmod 777 theirs
others check one.kpc --sheet K --day 2018-01-03 --register theirs/day.reg
check "another's lock, and a folder to be written to" [ "$status $(tail -n 1 out)" = '0 marked in theirs/day.reg: 1; 999 numbers are free on 2018-01-02, the lowest is 000' ]
chmod 000 theirs/day.reg
others register lowest theirs/day.reg
denied 'a register that is not to be read' 'theirs/day.reg cannot be read: Permission denied.'

# ---- what is no file, and command lines that are wrong ----

wrong() { # SENTENCE ARG ..: the tool says this and no more
    sentence=$1
    shift
    says "$sentence" 2 '' "abo: $sentence" "$@"
}
how='`abo help` says how it is used.'
wrong 'folder cannot be read and written: Is a directory.' check one.kpc --sheet K --day 2018-01-03 --register folder
wrong 'folder cannot be read: it is no ordinary file.' register free folder
mkfifo pipe
wrong 'pipe cannot be read: it is no ordinary file.' register lowest pipe
wrong 'no/day.reg.lock cannot be locked: No such file or directory.' register start no/day.reg --date 2018-01-02
wrong 'day.reg/day.reg cannot be read: Not a directory.' register free day.reg/day.reg
for date in 2018-02-30 30.2.2018 19991231 2100-01-01; do
    wrong "The day $date is no real day of 2000 to 2099. $how" register start new.reg --date $date
done
wrong "The day tomorrow is not spelled as in 2026-11-15, 15.11.2026, 20261115 or today. $how" register start new.reg --date tomorrow
check 'no day: the register stands' holds new.reg 20180102
wrong "The option --date is missing. $how" register start new.reg
wrong "The command register wants start, free, lowest or give-back behind it. $how" register
wrong "stop is nothing that register does: it does start, free, lowest and give-back. $how" register stop day.reg
wrong "No register was named. $how" register free
wrong "No register was named. $how" register give-back
wrong "The number that is given back is missing. $how" register give-back day.reg
wrong "12 is one word too many. $how" register give-back day.reg 11 12
wrong "other.reg is one word too many. $how" register free day.reg other.reg
for number in '' x 1x 0x1 ' 1' 1.; do wrong "The number $number is not spelled in digits. $how" register give-back day.reg "$number"; done
wrong "The option -1 is not known. $how" register give-back day.reg -1
for option in '--sheet K' '--day today' '-o out' '--register day.reg' --strict --accept-warnings --check --csv --all-sheets --json; do
    # shellcheck disable=SC2086
    wrong "The command register does not take ${option%% *}. $how" register free day.reg $option
done
wrong "Only register start takes --date. $how" register free day.reg --date today
wrong "Only register start takes --again. $how" register lowest day.reg --again
wrong "Only register start takes --date. $how" check one.kpc --sheet K --day today --date today
wrong "Only register start takes --again. $how" show one.kpc --sheet K --day today --again
wrong "Only register start takes --date. $how" statement one.kpc --date today
for command in show explain rewrite; do wrong "Only check takes --register. $how" $command one.kpc --sheet K --day today --register day.reg; done
wrong "Only check takes --register. $how" statement one.kpc --register day.reg
wrong "A register is looked at by sheet K alone, so --register does not go with --all-sheets. $how" \
    check one.kpc --sheet K --day today --register day.reg --all-sheets
wrong "The option --register lacks its value. $how" check one.kpc --sheet K --day today --register
wrong "The option --register was given twice. $how" check one.kpc --sheet K --day today --register a --register=b
for command in 'register free' 'register start --date today' 'check one.kpc --sheet K --day today --register'; do
    # shellcheck disable=SC2086
    wrong "A register is replaced where it stands, so it cannot be standard input, -. $how" $command -
done
TZ=UTC0 abo register start today.reg --date today >out
check 'today is the day of the clock' [ "$(lists today.reg)" = "$(date -u +%Y%m%d) 136" ]
last_line
