#!/bin/sh
# What the tool host/abo.c tells in Czech and English: the field and the reason of 53 files of sheet K, each damaged in one place
# (host/abo/damaged_K.txt); every warning; which language is spoken; the table of all sheets; and JSON. The last line is
# 'N passed, M failed', and the exit status is 0 only if nothing failed. host/target.sh names the variables.
set -u
unset LC_ALL LC_MESSAGES LANG
cd "$(dirname "$0")/../.." || exit 2
. host/target.sh
. host/tally.sh
packages="$packages python3"
have python3
build_test abo || exit 2
work=$(mktemp -d) || exit 2
trap 'rm -rf "$work"' EXIT
file=$work/file

abo() { "$build/abo" "$@"; }

tell() { # COMMAND ARG ..: runs the tool; its output, what it says on standard error and its status are kept
    abo "$@" >"$work/out" 2>"$work/err"
    status=$?
}

# ---- damaged files: each names the field that was damaged, and no two of different kind are told alike ----

cat >"$work/good" <<'END'
UHL1010118Firma               1234567890001002000000000000
1 1501 001001 8100
2 19-19 300 020118
705 100 1 03000558 17 AV:led|a
5152046 200 2 01000308 0 AV:Mzda
3 +
2 400 020118
19-19 705 400 3 08000138
3 +
5 +
1 1501 002001 8100
2 19-19 50 030118
705 50 4 03000558
3 +
5 +
END
tell check "$work/good" --sheet K --day 2018-01-01
check 'the good file is accepted' [ "$status $(cat "$work/out")" = '0 accepted, 4 payments, 7.50 crowns, 0 warnings' ]

names() { # LANGUAGE FIELD REASON: refused by a sentence with the field and the reason, what was found, what is allowed, and at its end the number
    tell check "$file" --sheet K --day 2018-01-01 --lang "$1"
    case $1 in
    cs) frame='^odmítnuto na řádku [0-9]*, ve sloupci [0-9]*, bajt [0-9]*: ' found='; nalezeno: .*; dovoleno: .*' ;;
    *) frame='^refused at line [0-9]*, column [0-9]*, byte [0-9]*: ' found='; found .*; allowed: .*' ;;
    esac
    head -n 1 "$work/out" | sed "s/$frame//; s/ ([0-9]*)\.\$//" >"$work/told"
    cat "$work/told" >>"$work/told_$1"
    [ "$status" -eq 1 ] && grep -q "${frame}.* ([0-9]*)\.\$" "$work/out" && grep -q "^$2: $3$found" "$work/told" ||
        { cat "$work/out"; false; }
}

: >"$work/told_en"
: >"$work/told_cs"
while IFS=';' read -r damage field reason pole duvod; do
    case $damage in '#'*) continue ;; esac
    sed "$damage" "$work/good" >"$file"
    check "$damage is a damage" refuses cmp -s "$file" "$work/good"
    check "$damage names the field, in English" names en "${field# }" "${reason# }"
    check "$damage names the field, in Czech" names cs "${pole# }" "${duvod# }"
done <host/abo/damaged_K.txt
for lang in en cs; do
    check "40 damaged files or more, $lang" [ "$(wc -l <"$work/told_$lang")" -ge 40 ]
    check "no two are told alike, $lang" [ -z "$(sort "$work/told_$lang" | uniq -d)" ]
    check "nor by field and reason, $lang" [ -z "$(sed 's/; .*//' "$work/told_$lang" | sort | uniq -d)" ]
done
check 'no sentence is the same in both languages' [ -z "$(sort "$work/told_en" "$work/told_cs" | uniq -d)" ]

# ---- which language is spoken ----

sed '4s/ 100 / 0 /' "$work/good" >"$file"
speaks() { # LANGUAGE VARIABLE=VALUE ..: what the tool speaks by these
    wanted=$1
    shift
    [ "$wanted" = Czech ] && word=odm || word=ref
    check "$wanted by $*" [ "$(env "$@" "$build/abo" check "$file" --sheet K --day 2018-01-01 | head -c 3)" = "$word" ]
}
speaks English LANG=
speaks English LANG=C
speaks English LANG=en_US.UTF-8
speaks English LANG=csb_PL.UTF-8
speaks English LANG=de_DE.UTF-8
speaks Czech LANG=cs
speaks Czech LANG=cs_CZ
speaks Czech LANG=cs_CZ.UTF-8
speaks Czech LANG=cs.UTF-8
speaks Czech LANG=cs@latin
speaks Czech LC_MESSAGES=cs_CZ.UTF-8 LANG=en_US.UTF-8
speaks English LC_MESSAGES=C LANG=cs_CZ.UTF-8
speaks Czech LC_MESSAGES= LANG=cs_CZ.UTF-8
speaks English LC_ALL=C LC_MESSAGES=cs_CZ.UTF-8 LANG=cs_CZ.UTF-8
speaks Czech LC_ALL=cs_CZ.UTF-8 LC_MESSAGES=C LANG=C
speaks Czech LC_ALL= LANG=cs_CZ.UTF-8
speaks English LC_ALL=C LC_NUMERIC=cs_CZ.UTF-8
for lang in en cs; do
    tell check "$file" --sheet K --day 2018-01-01 --lang $lang
    cp "$work/out" "$work/by_option"
    LC_ALL=cs_CZ.UTF-8 abo check "$file" --sheet K --day 2018-01-01 --lang=$lang >"$work/out"
    check "--lang $lang goes before the locale" cmp "$work/out" "$work/by_option"
done

# ---- refusals in Czech, word by word ----

says() { # EXPECTED ARG ..: the tool's output in Czech, or what it says on standard error
    expected=$1
    shift
    tell "$@" --lang cs
    printf '%s\n' "$expected" >"$work/wanted"
    cat "$work/out" "$work/err" >"$work/said"
    check "$expected" diff "$work/wanted" "$work/said"
}
says 'odmítnuto na řádku 4, ve sloupci 5, bajt 101: částka: je nulová; nalezeno: "0"; dovoleno: 0,01 až 999999999999,99 Kč (6).
  705 0 1 03000558 17 AV:led|a
      ^' check "$file" --sheet K --day 2018-01-01
for command in show rewrite; do
    tell $command "$file" --sheet K --day 2018-01-01 --lang cs
    check "$command tells the same in Czech" [ "$status $(cat "$work/out")" = '1 ' ]
    check "$command tells it on standard error" cmp "$work/err" "$work/wanted"
done
says "$file:1:1: odmítnuto na řádku 1, ve sloupci 1, bajt 0: řádek: soubor musí začínat prvním řádkem; nalezeno: \"x\"; dovoleno: první řádek, UHL1 (3).
  x
  ^
$work/none:1:1: odmítnuto na řádku 1, ve sloupci 1, bajt 0: řádek: soubor musí začínat prvním řádkem; nalezeno: konec souboru; dovoleno: první řádek, UHL1 (3).
  (zde soubor končí)
  ^" check "$(echo x >"$file"; : >"$work/none"; echo "$file")" "$work/none" --sheet K --day 2018-01-01
says 'odmítnuto na řádku 2, ve sloupci 15, bajt 73: banka plátce: tato banka není bankou listu; nalezeno: "8100"; dovoleno: 0300 (8).
  1 1501 001001 8100
                ^
poznámka: soubor uvádí banku 8100, Komerční banka, jejíž list je K; posouzen byl podle listu P, ČSOB, předchozí vydání.' \
    check "$work/good" --sheet P --day 2018-01-01
sed '2s/8100/0300/' "$work/good" >"$file"
says 'odmítnuto na řádku 2, ve sloupci 15, bajt 73: banka plátce: tato banka není bankou listu; nalezeno: "0300"; dovoleno: 8100 (8).
  1 1501 001001 0300
                ^
poznámka: soubor uvádí banku 0300, ČSOB, jejíž list je C nebo P; posouzen byl podle listu K, Komerční banka.' \
    check "$file" --sheet K --day 2018-01-01
printf 'UHL1\n1 1502 000000 0300\n2 19 1 010118\n19 1 0 08000558\n3 +\n5 +\n' >"$file"
says 'odmítnuto na řádku 4, ve sloupci 8, bajt 45: bankovní pole: datum splatnosti skupiny je pro inkaso z této banky příliš časné; nalezeno: "08000558"; dovoleno: datum splatnosti skupiny po 1. 1. 2018 (11).
  19 1 0 08000558
         ^
poznámka: skupina je splatná 1. 1. 2018 podle řádku 3; soubor byl posouzen ke dni 1. 1. 2018.' check "$file" --sheet C --day 2018-01-01

# ---- warnings, in file order, each with its sentence ----

long=0123456789012345678901234567890123456
{
    printf 'UHL1\n1 1501 000000 0300\n2 19 999 311217\n'
    printf '19 100 0 03000558 0 AV:%s|b|%s NP:%s\n19 50 0 03000558\n3 +\n5 +\n' $long $long $long
} >"$file"
tell check "$file" --sheet C --day 2018-01-01 --lang en
check 'warnings: the status is 0' [ "$status" -eq 0 ]
check 'warnings, word by word' diff - "$work/out" <<END
accepted, 2 payments, 1.50 crowns, 5 warnings
warning at line 3, column 6, byte 29: the group's total: it differs from the sum of the items; found "999"; the sum is 150, which is 1.50 crowns.
warning at line 3, column 10, byte 33: the due date: the day is past; found "311217"; today is 2018-01-01.
warning at line 4, column 24, byte 63: the first part of the message: this part is too long; found "$long"; it is cut to 35 bytes.
warning at line 4, column 64, byte 103: the third part of the message: this part is too long; found "$long"; it is cut to 35 bytes.
warning at line 4, column 105, byte 144: the payee's name: this name is too long; found "$long"; it is cut to 35 bytes.
END
says "přijato, 2 platby, 1,50 Kč, 5 varování
varování na řádku 3, ve sloupci 6, bajt 29: součet skupiny: liší se od součtu položek; nalezeno: \"999\"; součet je 150, což je 1,50 Kč.
varování na řádku 3, ve sloupci 10, bajt 33: datum splatnosti: datum je v minulosti; nalezeno: \"311217\"; dnes je 1. 1. 2018.
varování na řádku 4, ve sloupci 24, bajt 63: první část zprávy: tato část je příliš dlouhá; nalezeno: \"$long\"; zkrátí se na 35 bajtů.
varování na řádku 4, ve sloupci 64, bajt 103: třetí část zprávy: tato část je příliš dlouhá; nalezeno: \"$long\"; zkrátí se na 35 bajtů.
varování na řádku 4, ve sloupci 105, bajt 144: jméno příjemce: toto jméno je příliš dlouhé; nalezeno: \"$long\"; zkrátí se na 35 bajtů." \
    check "$file" --sheet C --day 2018-01-01
tell check "$file" "$work/good" --sheet C --day 2018-01-01
check 'several files: a warning begins with the name' grep -q "^$file:3:6: warning at line 3, column 6, byte 29: " "$work/out"
says "abo: $file je přijat, má ale 5 varování, takže by přepsaný soubor nebyl tentýž: příliš dlouhé texty by se zkrátily a uvedené součty by nahradily součty položek. Nic nebylo zapsáno. S --accept-warnings se zapíše i tak." \
    rewrite "$file" --sheet C --day 2018-01-01
tell rewrite "$file" --sheet C --day 2018-01-01 --accept-warnings --lang cs
check 'rewritten in Czech' [ "$status $(cat "$work/err")" = "0 abo: $file byl přijat a má 5 varování; zapsáno je to, co z něj udělá banka." ]
sed '4s/03000558/0103000558/' "$work/good" >"$file"
says 'přijato, 4 platby, 7,50 Kč, 1 varování
varování na řádku 4, ve sloupci 11, bajt 107: bankovní pole: tato priorita se nepoužívá; nalezeno: "0103000558"; priorita 1 se čte jako 5.' \
    check "$file" --sheet K --day 2018-01-01
printf 'UHL1 a\n1 1501 000000 0800\n2 19 1 010118\n19 1 0 03000558 0 AV:\305\231\n3 +\n5 +\n' >"$file"
says 'přijato, 1 platba, 0,01 Kč, 0 varování
poznámka: textů, které vypadají jako UTF-8: 1; banka čte Windows-1250 a počítá každý bajt, takže z písmen s háčky a čárkami by byla dvě jiná.' \
    check "$file" --sheet C --day 2018-01-01
tell rewrite "$file" --sheet C --day 2018-01-01 --lang cs
check 'what the sheet does not read is said in Czech' diff - "$work/err" <<'END'
abo: poznámka: z prvního řádku se nezachová to, co list nečte.
abo: poznámka: bankou účetních souborů se stane banka listu, 0300.
END

# ---- all sheets ----

total=host/ledger/bad_total.kpc
table='  K  8100  Komerční banka          refused (10) at line 10, the group'"'"'s total
  S  0800  Česká spořitelna        refused (8) at line 2, the payer'"'"'s bank
  C  0300  ČSOB                    accepted, warnings 1
  E  6100  Equa bank               refused (8) at line 2, the payer'"'"'s bank
  P  0300  ČSOB, previous edition  refused (8) at line 2, the payer'"'"'s bank'
tell check $total --day 2026-11-15 --all-sheets
check 'all sheets' [ "$(cat "$work/out")" = "$table" ]
check 'all sheets: one that accepts is enough' [ "$status" -eq 0 ]
tell check $total --day 2026-11-15 --all-sheets --strict
check 'all sheets, --strict: a warning is one too many' [ "$status" -eq 1 ]
tell check $total --sheet K --day 2026-11-15
cp "$work/out" "$work/alone"
tell check $total --sheet K --day 2026-11-15 --all-sheets
check 'all sheets behind the answer of one' [ "$(cat "$work/out")" = "$(cat "$work/alone")
$table" ]
check 'all sheets: the status is that of the one' [ "$status" -eq 1 ]
tell check $total "$work/none" --day 2026-11-15 --all-sheets
check 'all sheets of several files' [ "$(sed -n '1p; 7,8p' "$work/out")" = "$total:
$work/none:
  K  8100  Komerční banka          refused (3) at line 1, the line" ]
check 'all sheets of several files: one that none accepts' [ "$status" -eq 1 ]
says '  K  8100  Komerční banka          odmítnuto (10) na řádku 10, součet skupiny
  S  0800  Česká spořitelna        odmítnuto (8) na řádku 2, banka plátce
  C  0300  ČSOB                    přijato, varování: 1
  E  6100  Equa bank               odmítnuto (8) na řádku 2, banka plátce
  P  0300  ČSOB, předchozí vydání  odmítnuto (8) na řádku 2, banka plátce' check $total --day 2026-11-15 --all-sheets
# the table says of each sheet what check says by it
for letter in K S C E P; do
    for sample in $total "$work/good" "$file"; do
        tell check "$sample" --day 2018-01-01 --all-sheets
        line=$(grep "^  $letter " "$work/out")
        tell check "$sample" --sheet $letter --day 2018-01-01
        due=$(head -n 1 "$work/out" | sed 's/^refused at line \([0-9]*\), .* (\([0-9]*\))\.$/refused (\2) at line \1,/; s/^accepted.* \([0-9]*\) warnings*$/accepted, warnings \1/')
        check "all sheets: $letter on $sample is what check says" expr "$line" : ".*  $due"
    done
done

# ---- JSON ----

json() { # EXPRESSION: is true of what the lines of the output hold, as the list `all`
    python3 -c 'import json, sys
all = [json.loads(line) for line in open(sys.argv[1], encoding="ascii")]
a = all[0]
f = a["findings"][0] if a["findings"] else None
sys.exit(0 if eval(sys.argv[2]) else (print(all), 1)[1])' "$work/out" "$1"
}
tell check $total --sheet K --day 2026-11-15 --json
check 'JSON: the status is 1' [ "$status" -eq 1 ]
check 'JSON: one line' [ "$(wc -l <"$work/out")" -eq 1 ]
check 'JSON by json.tool' python3 -m json.tool "$work/out" /dev/null
check 'JSON: file, sheet and day' json '[a["file"], a["sheet"], a["day"]] == ["host/ledger/bad_total.kpc", "K", "2026-11-15"]'
check 'JSON: refused' json '[a["accepted"], a["number"], a["number_name"], a["rows"], a["warnings"]] == [False, 10, "ABO_BAD_TOTAL", 0, 0]'
check 'JSON: the finding, by numbers' json \
    '[f[k] for k in ("number", "cause", "line", "byte", "length", "field", "least", "most")] == [10, 100, 10, 317, 6, 21, 483020, 483020]'
check 'JSON: the finding, by names' json \
    '[f["number_name"], f["cause_name"], f["field_name"], f["warning"]] == ["ABO_BAD_TOTAL", "ABO_CAUSE_TOTAL_DIFFERS", "ABO_FOUND_TOTAL", False]'
check 'JSON: what was found, and the sentence' json \
    'f["found"] == "483021" and f["sentence"].startswith("Line 10, byte 317, the group'"'"'s total: ") and f["sentence"].endswith(" (10).")'
check 'JSON: the sheets' json 'a["sheets"] == {"K": False, "S": False, "C": True, "E": False, "P": False}'
tell check $total --sheet K --day 2026-11-15 --json --lang cs
check 'JSON in Czech' json 'f["sentence"].startswith("Řádek 10, bajt 317, součet skupiny: nerovná se součtu položek; ")'
tell check $total --sheet C --day 2026-11-15 --json
check 'JSON: accepted with a warning' json '[a["accepted"], a["number"], a["warnings"], len(a["findings"])] == [True, 0, 1, 1]'
check 'JSON: a warning' json '[f["warning"], f["number"], f["number_name"], f["cause_name"]] == [True, 0, None, "ABO_CAUSE_WARNED_TOTAL"]'
check 'JSON: the status of a warning is 0' [ "$status" -eq 0 ]
tell check $total --sheet C --day 2026-11-15 --json --strict
check 'JSON, --strict: the status of a warning is 1' [ "$status" -eq 1 ]
tell check "$work/good" $total "$work/good" --sheet K --day 2018-01-01 --json
check 'JSON: an object for each file' json '[x["accepted"] for x in all] == [True, False, True] and all[0] == all[2] and a["findings"] == []'
check 'JSON: the gravest status' [ "$status" -eq 1 ]
# bytes that are no ASCII, marks, control characters and no UTF-8, in the file and in its name
odd=$work/$(printf 'a"b\\\303\251\360\237\230\200\t\351')
sed '4s/AV:led/"\\/; 4s/17/\xe8\x01\x7f\xff/' "$work/good" >"$odd"
tell check "$odd" --sheet K --day 2018-01-01 --json
check 'JSON: odd bytes, by json.tool' python3 -m json.tool "$work/out" /dev/null
check 'JSON: odd bytes found' json 'f["found"].encode("latin-1") == b"\xe8\x01\x7f\xff" and f["field_name"] == "ABO_FOUND_SPECIFIC"'
check 'JSON: an odd name' json 'a["file"].endswith("/a\"b\\\u00e9\U0001f600\t\ufffd")'
tell check - --sheet K --day 2018-01-01 --json </dev/null
check 'JSON: standard input, and nothing found' json 'a["file"] == "-" and f["found"] == "" and f["length"] == 0'
tell check "$work/missing" "$work/good" --sheet K --day 2018-01-01 --json
check 'JSON: a file that is not there has no object' json 'len(all) == 1'
check 'JSON: and the status is 2' [ "$status" -eq 2 ]
if [ -c /dev/full ]; then
    for form in --json --all-sheets '--lang cs'; do
        # shellcheck disable=SC2086
        abo check "$work/good" --sheet K --day 2018-01-01 $form >/dev/full 2>"$work/err"
        check "$form to a full output" [ "$?" -eq 2 ]
    done
fi
last_line
