#!/usr/bin/env bash
# Every test of the repository, from nothing: the layout of the sources, the proofs, must-fail edits, programs and
# tests of all listed crates (`rt ci`), runs of the programs, the programs that the compiler must turn away, and that their check can fail.
# The last line is 'N passed, M failed'; the exit status is 0 only if M is 0 and N is not.
set -u
cd "$(dirname "$0")/.." || exit 2
log=$(mktemp)
ci_log=$(mktemp)
trap 'rm -f "$log" "$ci_log"' EXIT
passed=0
failed=0

# run LABEL COMMAND..: runs a part that ends with 'N passed, M failed', and adds its counts; a part that does not end
# so, that counts nothing, or whose exit status is not 0 has failed
run() {
    local label=$1 status counts
    shift
    "$@" 2>&1 | tee "$log"
    status=${PIPESTATUS[0]}
    counts=$(tail -n 1 "$log" | sed -n 's/^\([a-z]*: \)\{0,1\}\([0-9]\{1,\}\) passed, \([0-9]\{1,\}\) failed$/\2 \3/p')
    set -- ${counts:-0 1}
    [ "$1" -gt 0 ] || set -- "$1" $(($2 + 1))
    [ "$status" -eq 0 ] || [ "$2" -gt 0 ] || set -- "$1" 1
    passed=$((passed + $1))
    failed=$((failed + $2))
    [ "$2" -eq 0 ] || echo "test: $label FAILED"
}

# ci: the merge gate, with its output kept for `bad`
ci() {
    rt ci 2>&1 | tee "$ci_log"
    return "${PIPESTATUS[0]}"
}

# bad: one test, that no must-fail edit was bad: one that cannot be tried passes `rt ci`, though it shows nothing
bad() {
    if grep -q '^rt: ok' "$ci_log" && ! grep -q '^rt: ok.*, [1-9][0-9]* bad' "$ci_log"; then
        echo 'edits: 1 passed, 0 failed'
    else
        echo 'edits: 0 passed, 1 failed'
        return 1
    fi
}

run 'rt ci' ci
run 'must-fail edits that can be tried' bad
run 'runs of the programs' scripts/runs.sh
run 'programs that the compiler must turn away' scripts/rejected.sh
run 'the check of those programs' scripts/rejected_selftest.sh
echo "$passed passed, $failed failed"
[ $failed -eq 0 ] && [ $passed -gt 0 ]
