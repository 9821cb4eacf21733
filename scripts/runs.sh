#!/usr/bin/env bash
# Runs of the programs that must end with another status than 0, which `rt ci` cannot hold, and other runs.
# A case is data:
#
#     program: NAME
#     args: words parted by spaces
#     status: the exit status
#     pad: N                letters `a` after the standard input, up to N bytes in all
#     --- stdin
#     what the program reads (nothing without this part)
#     --- stdin escaped
#     the same where bytes are told by printf's escapes: \n, \r, \0377; the ends of these lines do not count
#     --- stdout
#     what the program must write, exactly
#     --- stderr
#     what it must write to standard error, exactly
#
# A program is run in a folder of its own, which has what FOLDER/data has.
#
#     scripts/runs.sh [FOLDER]      the cases of FOLDER (tests/runs), after `rt ci`
#
# The last line is 'runs: N passed, M failed'; the exit status is 0 only if M is 0 and N is not.
set -u
root=$(cd "$(dirname "$0")/.." && pwd)
folder=${1:-$root/tests/runs}
work=$(mktemp -d)
trap 'rm -rf "$work"' EXIT
[ -d "$folder/data" ] && cp -r "$folder/data" "$work/data"
passed=0
failed=0

# field NAME CASE: the rest of the first line that begins with 'NAME:'
field() { sed -n "s/^$1: \{0,1\}//p" "$2" | head -n 1; }

# part NAME CASE: the lines after '--- NAME', up to the next '--- '
part() { awk -v want="--- $1" '/^--- /{on = ($0 == want); next} on' "$2"; }

# input CASE: what the program reads
input() {
    part stdin "$1"
    printf '%b' "$(part 'stdin escaped' "$1" | tr -d '\n')"
}

for case in "$folder"/*.run; do
    [ -f "$case" ] || continue
    name=$(basename "$case" .run)
    program=$(field program "$case")
    read -r -a words <<< "$(field args "$case")"
    input "$case" > "$work/in"
    pad=$(field pad "$case")
    [ -z "$pad" ] || head -c $((pad - $(wc -c < "$work/in"))) /dev/zero | tr '\0' a >> "$work/in"
    (cd "$work/data" 2> /dev/null || cd "$work"; "$root/crates/$program/out/$program" ${words[@]+"${words[@]}"}) > "$work/out" 2> "$work/err" < "$work/in"
    status=$?
    part stdout "$case" > "$work/want-out"
    part stderr "$case" > "$work/want-err"
    if [ "$status" = "$(field status "$case")" ] && cmp -s "$work/out" "$work/want-out" && cmp -s "$work/err" "$work/want-err"; then
        passed=$((passed + 1))
    else
        echo "$name: FAILED with status $status"
        diff "$work/want-out" "$work/out"
        diff "$work/want-err" "$work/err"
        failed=$((failed + 1))
    fi
done
echo "runs: $passed passed, $failed failed"
[ $failed -eq 0 ] && [ $passed -gt 0 ]
