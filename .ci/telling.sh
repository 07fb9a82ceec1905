#!/bin/sh
# What the tests in shell count and say. They read this file by `.`; where they call `good`, `room` is a folder of theirs.

suite=${0##*/}
passed=0
failed=0

# tell NAME WHAT: a test that failed
tell() {
    echo "$suite: $1: $2" >&2
    failed=$((failed + 1))
}

# good NAME COMMAND WORD ..: a command that ends with 0
good() {
    good_name=$1
    shift
    if "$@" >"${room:?}/said" 2>&1; then
        passed=$((passed + 1))
    else
        tell "$good_name" "$(head -c 600 "$room/said")"
    fi
}

# not_run LINE: what was not tried; the last lines of the gate say it too
not_run() {
    echo "not run: $1" | tee -a "${NOT_RUN:-/dev/null}"
}

# ended: says how many passed and how many failed. Exit status: 0 where none failed.
ended() {
    echo "$suite: $passed passed, $failed failed"
    [ "$failed" -eq 0 ]
}
