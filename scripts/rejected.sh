#!/usr/bin/env bash
# Programs that the compiler must turn away: a type error or a use after a move never reaches the prover, so
# `rt ci` cannot hold them. A case is a small edit of a listed crate, as data:
#
#     crate: NAME
#     file: src/FILE.rt
#     error: the name of the error that the compiler must answer
#     --- old
#     text that stands exactly once in that file, one line or more
#     --- new
#     text in its place
#
# Each case is tried on a copy of the repository. It passes if the edited crate is refused with that one error.
# It fails if the edit does not fit, if the crate still compiles, or if it is refused for another reason.
# The crate without the edit must pass in the same copy, so that a broken copy cannot look like a refusal.
#
#     scripts/rejected.sh [FOLDER]      the cases of FOLDER (tests/rejected), after `rt ci`
#
# The last line is 'rejected: N passed, M failed'; the exit status is 0 only if M is 0 and N is not.
set -u
root=$(cd "$(dirname "$0")/.." && pwd)
folder=${1:-$root/tests/rejected}
copy=$(mktemp -d)
trap 'rm -rf "$copy"' EXIT
cp -r "$root/crates" "$root/crates.txt" "$copy/" || exit 2
passed=0
failed=0

# field NAME CASE: the rest of the first line that begins with 'NAME: '
field() { sed -n "s/^$1: //p" "$2" | head -n 1; }

# edit CASE FROM TO: FROM with the case's edit into TO; fails unless the old text stands exactly once
edit() {
    awk -v case_file="$1" -v to="$3" '
        function slurp(file,    text, line) {
            text = ""
            while ((getline line < file) > 0) text = text line "\n"
            close(file)
            return text
        }
        BEGIN {
            part = ""
            while ((getline line < case_file) > 0) {
                if (line == "--- old") part = "old"
                else if (line == "--- new") part = "new"
                else if (part == "old") old = old line "\n"
                else if (part == "new") fresh = fresh line "\n"
            }
            text = slurp(ARGV[1])
            at = index(text, old)
            if (old == "" || at == 0) exit 1
            rest = substr(text, at + length(old))
            if (index(rest, old) != 0) exit 1
            printf "%s%s%s", substr(text, 1, at - 1), fresh, rest > to
            exit 0
        }' "$2"
}

# tell NAME OUTCOME: counts a case; an outcome that begins with 'refused' passes
tell() {
    echo "$1: $2"
    case "$2" in refused*) passed=$((passed + 1)) ;; *) failed=$((failed + 1)) ;; esac
}

# try CASE: says what became of a case
try() {
    local crate file want source out status got
    crate=$(field crate "$1")
    file=$(field file "$1")
    want=$(field error "$1")
    source=$root/crates/$crate/$file
    [ -n "$crate" ] && [ -n "$want" ] && [ -f "$source" ] || { echo "BAD CASE: a field is missing, or the file"; return; }
    (cd "$copy/crates/$crate" && rt check > "$copy/out" 2>&1) || { echo "BAD COPY: $crate is not proved without the edit"; return; }
    edit "$1" "$source" "$copy/edited" || { echo "BAD CASE: the old text does not stand exactly once"; return; }
    cp "$copy/edited" "$copy/crates/$crate/$file"
    out=$(cd "$copy/crates/$crate" && rt check 2>&1)
    status=$?
    cp "$source" "$copy/crates/$crate/$file"
    got=$(printf '%s\n' "$out" | grep -o 'error\[[a-z0-9-]*\]' | sort -u | tr -d '\n')
    if [ $status -eq 0 ]; then
        echo "NOT REFUSED: the edited crate compiles and is proved"
    elif [ "$got" != "error[$want]" ]; then
        echo "REFUSED FOR ANOTHER REASON: expected error[$want], got '${got:-no error of the compiler}'"
    else
        echo "refused, $want"
    fi
}

for case in "$folder"/*.case; do
    [ -f "$case" ] || continue
    tell "$(basename "$case" .case)" "$(try "$case")"
done
echo "rejected: $passed passed, $failed failed"
[ $failed -eq 0 ] && [ $passed -gt 0 ]
