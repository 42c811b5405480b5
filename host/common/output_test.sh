#!/bin/sh
# Output that is whole or not there (host/common/output.c): every step of it with a fault or a signal in its middle, a full disk, a limit
# on file sizes, and targets that are links, devices, folders or not to be written to. The old file's bytes are compared, and the folder
# is looked through for leftovers. The last line is 'N passed, M failed', and the exit status is 0 only if nothing failed.
# host/target.sh names the variables.
set -u
LC_ALL=C
export LC_ALL
cd "$(dirname "$0")/../.." || exit 2
. host/target.sh
. host/tally.sh
build_test output_steps || exit 2
build=$(cd "$build" && pwd)
work=$(mktemp -d) || exit 2
trap 'rm -rf "$work"' EXIT
folder=$work/folder
chmod 755 "$work"

steps() { # TARGET BYTES [STEP FAULT] ..: its status, which is also printed, and what it says
    # shellcheck disable=SC2086
    $run "$build/output_steps" "$@" 2>"$work/err"
}

fresh() { # a folder with an old file in it
    rm -rf "$folder"
    mkdir "$folder"
    printf 'old bytes\n' >"$folder/target"
}

old_stands() { # the old file, and nothing beside it
    [ "$(ls -A "$folder")" = target ] && [ "$(cat "$folder/target")" = 'old bytes' ] || { ls -lA "$folder"; false; }
}

new_stands() { # BYTES: the new file, whole, and nothing beside it
    [ "$(ls -A "$folder")" = target ] && head -c "$1" /dev/zero | tr '\0' n | cmp - "$folder/target"
}

says() { # SENTENCE: on standard error, and nothing else
    printf '%s\n' "$1" | diff - "$work/err"
}

# ---- a fault or a signal at each step, of a file with no name and of one with a name ----

for unnamed in '' 'unnamed OPNOTSUPP'; do
    for step in write fsync linkat rename; do
        # a file that has its name already is not linked
        [ "$step" = linkat ] && [ -n "$unnamed" ] && continue
        for fault in IO NOSPC ACCES; do
            fresh
            # shellcheck disable=SC2086
            steps "$folder/target" 100000 $unnamed "$step" "$fault"
            check "$unnamed $step $fault: the status" [ $? -eq 2 ]
            check "$unnamed $step $fault: the old file stands" old_stands
            check "$unnamed $step $fault: it says so" grep -q '^steps: .*/target could not be written whole: [A-Z]' "$work/err"
        done
    done
    for step in write fsync; do
        for sign in TERM INT HUP; do
            fresh
            # shellcheck disable=SC2086
            steps "$folder/target" 100000 $unnamed "$step" "$sign"
            check "$unnamed $step, ended by $sign: the status" [ $? -gt 128 ]
            check "$unnamed $step, ended by $sign: the old file stands" old_stands
        done
    done
    fresh
    # shellcheck disable=SC2086
    steps "$folder/target" 100000 $unnamed
    check "$unnamed no fault: the status" [ $? -eq 0 ]
    check "$unnamed no fault: the new file stands" new_stands 100000
done

# killed, which nobody can clean up behind: a file with no name is gone all the same
for step in write fsync; do
    fresh
    steps "$folder/target" 100000 "$step" KILL
    check "$step, killed: the status" [ $? -eq 137 ]
    check "$step, killed: the old file stands" old_stands
    fresh
    steps "$folder/target" 100000 unnamed OPNOTSUPP "$step" KILL
    check "$step, killed, with a name: the old file stands" [ "$(cat "$folder/target")" = 'old bytes' ]
done

# a signal that comes while the new file is put in place waits until it is there
for step in linkat rename; do
    fresh
    steps "$folder/target" 100000 "$step" TERM
    check "$step, ended by TERM: the status" [ $? -eq 143 ]
    check "$step, ended by TERM: the new file stands" new_stands 100000
done

# ---- a full disk, and a limit on a file's size ----

fresh
(ulimit -f 8 && steps "$folder/target" 100000)
check 'the size limit: the status' [ $? -eq 2 ]
check 'the size limit: the old file stands' old_stands
check 'the size limit: it says so' says "steps: $folder/target could not be written whole: File too large."

# in a name space of its own, so that the small disk is gone with it
fresh
full="mount -t tmpfs -o size=64k small '$folder' && printf 'old bytes\n' >'$folder/target' || exit 9
    $run '$build/output_steps' '$folder/target' 300000 2>'$work/err'; echo \$? >'$work/status'
    ls -A '$folder' >'$work/listed'; cat '$folder/target' >'$work/kept'"
if unshare -m sh -c "$full" 2>"$work/unshare" || unshare -rm sh -c "$full" 2>"$work/unshare"; then
    check 'a full disk: the status' [ "$(cat "$work/status")" -eq 2 ]
    check 'a full disk: it says so' says "steps: $folder/target could not be written whole: No space left on device."
    check 'a full disk: the old file stands' [ "$(cat "$work/listed" "$work/kept")" = "target
old bytes" ]
else
    echo 'a full disk: no file system could be mounted here, so it was tried by a fault of write alone'
fi

# ---- rights: those of the file that is replaced, or of a new one ----

fresh
chmod 640 "$folder/target"
steps "$folder/target" 10
check 'the rights are kept' [ "$(stat -c %a "$folder/target")" = 640 ]
rm "$folder/target"
(umask 027 && steps "$folder/target" 10)
check 'a new file has the rights of the umask' [ "$(stat -c %a "$folder/target")" = 640 ]

# ---- links are followed, and stay ----

fresh
mkdir "$work/links" "$work/links/deep"
ln -s ../folder/target "$work/links/one"
ln -s ../one "$work/links/deep/two"
steps "$work/links/deep/two" 100
check 'a link: the status' [ $? -eq 0 ]
check 'a link: what it leads to is replaced' new_stands 100
check 'a link: it stays' [ "$(readlink "$work/links/deep/two") $(readlink "$work/links/one")" = '../one ../folder/target' ]
check 'a link: nothing is left beside it' [ "$(ls -A "$work/links" "$work/links/deep" | wc -l)" -eq 6 ]
rm "$folder/target"
steps "$work/links/deep/two" 100
check 'a link to nothing: a file is made there' new_stands 100
ln -s loop "$work/links/loop"
steps "$work/links/loop" 100
check 'a link to itself: the status' [ $? -eq 2 ]
check 'a link to itself: it says so' says "steps: $work/links/loop could not be written whole: Too many levels of symbolic links."

# ---- what is no ordinary file ----

steps "$folder" 100
check 'a folder: the status' [ $? -eq 2 ]
check 'a folder: it says so' says "steps: $folder could not be written whole: Is a directory."
steps "$work/none/target" 100
check 'no such folder: the status' [ $? -eq 2 ]
check 'no such folder: it says so' \
    says "steps: $work/none/target could not be written whole: no file can be made beside it (No such file or directory)."
steps /dev/full 100
check 'a full device: the status' [ $? -eq 2 ]
check 'a full device: it says so' says 'steps: /dev/full could not be written whole: No space left on device.'
check 'a device: it stays one' [ -c /dev/full ]
check '/dev/stdout to a pipe' [ "$(steps /dev/stdout 5 | cat)" = nnnnn ]
printf 'before\n' >"$work/appended"
steps /dev/stdout 5 >>"$work/appended"
check '/dev/stdout to the end of a file: what was there stays' [ "$(cat "$work/appended")" = "before
nnnnn" ]
mkfifo "$work/pipe"
cat "$work/pipe" >"$work/piped" &
steps "$work/pipe" 70000
check 'a pipe by its name: the status' [ $? -eq 0 ]
wait
check 'a pipe by its name: the bytes' [ "$(wc -c <"$work/piped") $(tr -d n <"$work/piped")" = '70000 ' ]
{ steps /dev/stdout 1000000; echo $? >"$work/status"; } | true
check 'a pipe that nobody reads: the status' [ "$(cat "$work/status")" -eq 2 ]
check 'a pipe that nobody reads: it says so' says 'steps: /dev/stdout could not be written whole: Broken pipe.'
steps - 5 >&- 2>"$work/err"
check 'standard output that is closed' [ $? -eq 2 ]

# ---- files and folders that may not be written to; root may, so another user tries ----

as_other() { # COMMAND ..
    if [ "$(id -u)" -eq 0 ]; then setpriv --reuid=65534 --regid=65534 --clear-groups "$@"; else "$@"; fi
}
others() { # TARGET BYTES: output_steps as another user
    # shellcheck disable=SC2086
    as_other $run "$work/output_steps" "$@" 2>"$work/err"
}
cp "$build/output_steps" "$work/output_steps"
[ "$(id -u)" -eq 0 ] && chmod 777 "$work"
fresh
chmod 777 "$folder"
chmod 444 "$folder/target"
others "$folder/target" 100
check 'a file that is not to be written to: the status' [ $? -eq 2 ]
check 'a file that is not to be written to: it stands' old_stands
check 'a file that is not to be written to: it says so' says "steps: $folder/target could not be written whole: Permission denied."
chmod 666 "$folder/target"
chmod 555 "$folder"
others "$folder/target" 100
check 'a folder that is not to be written to: the status' [ $? -eq 2 ]
check 'a folder that is not to be written to: the file stands' old_stands
check 'a folder that is not to be written to: it says so' \
    says "steps: $folder/target could not be written whole: no file can be made beside it (Permission denied)."
chmod 755 "$folder"
last_line
