# Read by the scripts that test or measure: counts checks, and says the last line.

passed=0
failed=0

check() { # WHAT COMMAND ..: passes if the command does; if not, says what it was and what the command said
    what=$1
    shift
    if said=$("$@" 2>&1); then
        passed=$((passed + 1))
    else
        failed=$((failed + 1))
        printf 'failed: %s\n%s\n' "$what" "$said"
    fi
}

refuses() { # COMMAND ..: passes if the command fails
    ! "$@"
}

add() { # WHAT COMMAND ..: adds what a test says in its last line, `N passed, M failed`
    what=$1
    shift
    said=$("$@" 2>&1)
    status=$?
    line=$(printf '%s\n' "$said" | grep -aE '^[0-9]+ passed, [0-9]+ failed$' | tail -n 1)
    printf '%s\n' "$said" | grep -avE '^[0-9]+ passed, [0-9]+ failed$'
    if [ -z "$line" ]; then
        echo "failed: $what did not say how many passed (exit status $status)"
        failed=$((failed + 1))
        return
    fi
    passed=$((passed + ${line%% *}))
    line=${line#*, }
    failed=$((failed + ${line%% *}))
    # a test that fails without counting a failure has failed all the same
    if [ "$status" -ne 0 ] && [ "${line%% *}" -eq 0 ]; then failed=$((failed + 1)); fi
}

last_line() { # the script's exit status is the status of this
    echo "$passed passed, $failed failed"
    [ "$failed" -eq 0 ] && [ "$passed" -gt 0 ]
}
