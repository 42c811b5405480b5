#!/usr/bin/env bash
# Proves the library and writes its archive, target/staticlib/libabo.a, which has what `rt lib` compiles of abo_c, tell_c and enrol_c, and says meanwhile how
# far it is: crate n of m, the seconds so far, and about how many are left. A crate that has not changed since it was last proved is not proved
# again. Of a crate that is not proved, what rt says is shown; build/prove.log has all of it, and the exit status is rt's.
#
#   tools/prove.sh        BUILD: the folder of the log (default: build)
set -u
cd "$(dirname "$0")/.." || exit 2
mkdir -p "${BUILD:-build}" || exit 2
log=${BUILD:-build}/prove.log

# The units: static libraries, each compiled by itself, so that what they share stays a part of reading's loops.
units=$(echo $(sed -n 's/#.*//; s/^\(abo_c\|tell_c\|enrol_c\) staticlib:.*/\1/p' crates.txt))

# The crates that they stand on, and these. A crate takes about as long as its source is, since what is to be proved of it is made from
# there; 1000 bytes more stand for what each takes, however short it is.
declare -A weight seen
left=0 crates=0
while read -r name bytes; do
    weight[$name]=$((bytes + 1000))
    left=$((left + bytes + 1000)) crates=$((crates + 1))
done < <(
    find crates -path '*/src/*' -type f -printf '%p %s\n' |
        awk 'FNR == NR { split($1, part, "/"); bytes[part[2]] += $2; next }
            { sub(/#.*/, ""); sub(/ staticlib:/, ":"); name = $1 }
            sub(/:$/, "", name) { $1 = ""; below[name] = $0 }
            function visit(name, part, i) {
                if (!(name in below) || name in done) return
                done[name] = 1
                for (i = split(below[name], part, " "); i > 0; i--) visit(part[i])
                print name, bytes[name] + 0
            }
            END { for (i = split(units, unit, " "); i > 0; i--) visit(unit[i]) }' units="$units" - crates.txt
)
# a unit's turn is longer: all code is compiled in it, and nothing is proved meanwhile
for unit in $units; do weight[$unit]=$((weight[$unit] + left / 60)) left=$((left + left / 60)); done

clear_line() { # takes away what `say` put on a terminal
    [ ! -t 2 ] || printf '\r\033[K' >&2
}

say() { # LINE: on a terminal in the place of the one before
    clear_line
    printf '%s' "$1" >&2
    [ -t 2 ] || echo >&2
}

how_far() { # the last crate, and the rest as fast as it went up to the last one that was proved
    local rest=$((at * left / gone - SECONDS + at))
    say "proving: crate $count of $crates ($last) done, $SECONDS s so far, about $((rest > 1 ? rest : 1)) s to go"
}

ended() { # NAME unchanged|proved: counts a crate, once
    [ -n "${weight[$1]:-}" ] && [ -z "${seen[$1]:-}" ] || return 0
    seen[$1]=1 last=$1 count=$((count + 1)) left=$((left - weight[$1]))
    [ "$2" = proved ] || return 0
    gone=$((gone + weight[$1])) at=$((SECONDS > 0 ? SECONDS : 1))
    [ "$left" -eq 0 ] || how_far
}

report() { # reads what rt says, and keeps it back until it is known whether that crate is proved
    local line='' part said='' second=()
    local count=0 gone=0 at=1 last='' now='' how=''
    if [ -t 2 ]; then second=(-t 1); fi
    say "proving: $crates crates"
    while :; do
        if IFS= read -r "${second[@]}" part; then
            line+=$part
        elif [ $? -gt 128 ]; then # a second is over
            line+=$part
            [ "$gone" -eq 0 ] || how_far
            continue
        else
            break
        fi
        said+=$line$'\n'
        if [[ $line =~ ^crate\ ([A-Za-z0-9_]+):\ modules\ loaded=[0-9]+\ checked=([0-9]+) ]]; then
            now=${BASH_REMATCH[1]} how=proved
            [ "${BASH_REMATCH[2]}" != 0 ] || how=unchanged
        elif [[ $line =~ ^logic=proved\  ]]; then
            case " $units " in *" $now "*)
                # what a unit stands on and rt did not name has not changed
                for name in $(all_below "$now"); do [ "$name" = "$now" ] || ended "$name" unchanged; done ;;
            esac
            [ -z "$now" ] || ended "$now" "$how"
            now='' said=''
        elif [[ $line =~ ^logic=not-proved ]]; then
            clear_line
            printf '%s' "$said" >&2
            said=''
        fi
        line=''
    done
    say "proving: $count of $crates crates are proved, $SECONDS s"
    [ ! -t 2 ] || echo >&2
    printf '%s' "$said$line$part" >&2
}

all_below() { # NAME: it, and all crates that it stands on
    local -A met=([$1]=1)
    local queue=("$1") one
    while [ ${#queue[@]} -gt 0 ]; do
        echo "${queue[0]}"
        for one in $(sed -n "s/#.*//; s/^${queue[0]}\( staticlib\)\{0,1\}: *//p" crates.txt); do
            [ -n "${met[$one]:-}" ] || { met[$one]=1 queue+=("$one"); }
        done
        queue=("${queue[@]:1}")
    done
}

compiled() { # UNIT ..: proves all below, and compiles it
    local unit
    for unit in "$@"; do
        (cd "crates/$unit" && rt lib) || return
    done
}

archived() { # UNIT ..: one archive has all their objects
    . host/target.sh || exit 2
    ar=$($cc -print-prog-name=ar)
    mkdir -p target/staticlib && cd target/staticlib && rm -f libabo.a || exit 2
    for unit in "$@"; do
        "$ar" x "../../crates/$unit/out/lib$unit.a" "$unit.o" && "$ar" rs libabo.a "$unit.o" 2>/dev/null && rm "$unit.o" || exit 2
    done
}
SECONDS=0
# shellcheck disable=SC2086
compiled $units 2>&1 | tee "$log" | report
status=${PIPESTATUS[0]}
[ "$status" -eq 0 ] || echo "The library is not proved. $log has all that rt said." >&2
[ "$status" -ne 0 ] || (archived $units) || status=2
exit "$status"
