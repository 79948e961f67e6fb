#!/usr/bin/env bash
# The whole test: `rt ci`, which proves again what has changed since it last passed on this machine, then the tests from outside. The
# last line counts both, 'N passed, M failed', and the status is 0 where M is 0.
set -uo pipefail
cd "$(dirname "$0")/.." || exit 2

passed=0
failed=0

log=$(mktemp) || exit 2
trap 'rm -f "$log"' EXIT

# counted COMMAND..: adds up the command's last line 'N passed, M failed'; one that ends badly without it counts as a failure
counted() {
    local last status
    "$@" | tee "$log"
    status=$?
    last=$(tail -n 1 "$log")
    if [[ $last =~ ^(rt:\ )?([0-9]+)\ passed,\ ([0-9]+)\ failed$ ]]; then
        passed=$((passed + BASH_REMATCH[2]))
        failed=$((failed + BASH_REMATCH[3]))
        [ "$status" -eq 0 ] || [ "${BASH_REMATCH[3]}" -gt 0 ] || failed=$((failed + 1))
    else
        failed=$((failed + 1))
    fi
}

counted rt ci
# an edit that can't be tried says nothing of a contract, and rt ci only notes it
! grep -E '^rt: ok;.*, [0-9]+ bad' "$log" || failed=$((failed + 1))
[ "$failed" -gt 0 ] || counted tests/run.sh

echo "$passed passed, $failed failed"
[ "$failed" -eq 0 ]
