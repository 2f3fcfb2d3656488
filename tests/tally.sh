# shellcheck shell=bash
# Adds up the last lines 'N passed, M failed' of the steps of a test run. Sourced by tests/run and by the gate.
passed=0 failed=0

fail() {
    printf 'FAILED: %s\n' "$*"
    failed=$((failed + 1))
}

# Runs a step, shows what it prints, and adds its counts. A step that prints no counts last, or that ends with an
# error and counts no failure, is itself a failure.
step() { # NAME COMMAND [WORDS ..]
    local name=$1 log status counted began=$SECONDS
    shift
    log=$(mktemp) || { fail "$name: no temporary file"; return; }
    echo "== $name"
    "$@" </dev/null 2>&1 | tee "$log"
    status=${PIPESTATUS[0]}
    echo "== $name: $((SECONDS - began)) s"
    if [[ $(tail -n 1 "$log") =~ ^([0-9]+)' passed, '([0-9]+)' failed'$ ]]; then
        counted=$((10#${BASH_REMATCH[2]}))
        passed=$((passed + 10#${BASH_REMATCH[1]}))
        failed=$((failed + counted))
        if [ "$status" -ne 0 ] && [ "$counted" -eq 0 ]; then fail "$name ended with status $status"; fi
    else
        fail "$name ended with status $status, and its last line is no 'N passed, M failed'"
    fi
    rm -f "$log"
}

# Prints the sums as the last line. The status is 0 exactly when nothing failed.
tally() {
    echo "$passed passed, $failed failed"
    [ "$failed" -eq 0 ]
}
