#!/usr/bin/env bash
# Shows that scripts/rejected.sh can fail: each case of tests/rejected-selftest must be told as failed, for the
# reason that its name says, and an empty folder must not pass.
#
# The last line is 'selftest: N passed, M failed'; the exit status is 0 only if M is 0 and N is not.
set -u
root=$(cd "$(dirname "$0")/.." && pwd)
empty=$(mktemp -d)
trap 'rm -rf "$empty"' EXIT
passed=0
failed=0

# expect TEXT WHAT: TEXT must hold the fixed line WHAT
expect() {
    if printf '%s\n' "$1" | grep -q "^$2"; then
        passed=$((passed + 1))
    else
        echo "selftest: expected '$2'"
        failed=$((failed + 1))
    fi
}

out=$("$root/scripts/rejected.sh" "$root/tests/rejected-selftest")
status="status $?"
expect "$out" 'compiles: NOT REFUSED'
expect "$out" 'another_reason: REFUSED FOR ANOTHER REASON: expected error\[borrow-e0382\], got .error\[private-field\]'
expect "$out" 'unproved: REFUSED FOR ANOTHER REASON: expected error\[private-field\], got .no error of the compiler'
expect "$out" 'old_text_absent: BAD CASE'
expect "$out" 'old_text_twice: BAD CASE'
expect "$out" 'rejected: 0 passed, 5 failed'
expect "$status" 'status 1'
none=$("$root/scripts/rejected.sh" "$empty")
expect "status $?" 'status 1'
expect "$none" 'rejected: 0 passed, 0 failed'
echo "selftest: $passed passed, $failed failed"
[ $failed -eq 0 ] && [ $passed -gt 0 ]
