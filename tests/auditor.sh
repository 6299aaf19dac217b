#!/bin/sh
# Checks that the program `auditor` answers audits as `planner` does, and that for other arguments it prints
# what it can do.
set -u

top=$(CDPATH='' cd -- "$(dirname -- "$0")/.." && pwd -P) || exit 1
planner=$top/crates/planner/out/planner
built=$top/crates/auditor/out/auditor
# Builds the programs if rt ci has not.
[ -x "$planner" ] || "$top/planner" >/dev/null || exit 1
[ -x "$built" ] || "$top/tools/build_program.py" auditor >/dev/null || exit 1
folder=$(mktemp -d) || exit 1
trap 'rm -rf -- "$folder"' EXIT
trap 'exit 130' INT
trap 'exit 143' TERM
# If only the auditor is built, ./planner passes audits on to it.
mkdir -p -- "$folder/tree/crates/auditor/src" "$folder/tree/crates/auditor/out" || exit 1
cp -- "$top/planner" "$folder/tree"
cp -- "$built" "$folder/tree/crates/auditor/out"
failures=0

fail() {
    echo "auditor: $*"
    failures=$((failures + 1))
}

# auditor WORDS..: runs the auditor, through ./planner if that passes the arguments on.
auditor() {
    case ${1-} in
        audit | audits | explain) "$folder/tree/planner" "$@" ;;
        *) "$built" "$@" ;;
    esac
}

# answer NAME PROGRAM WORDS..: writes the output, the standard error and the status of the program to files with
# this name.
answer() {
    name=$folder/$1
    shift
    "$@" >"$name.output" 2>"$name.errors" </dev/null
    echo "$?" >"$name.status"
}

cp -R -- "$top/crates/cli_tests/data" "$folder/data"
cd -- "$folder/data" || exit 1
count=0
while IFS= read -r line; do
    case $line in
        '' | audit* | explain*) ;;
        *) continue ;;
    esac
    set -f
    saved=$IFS
    IFS='|'
    set -- $line
    # An empty argument at the end of a line is an argument too, but sh drops it. The crate `cli_tests` tests
    # those lines.
    IFS=$saved
    set +f
    answer planner "$planner" "$@"
    answer auditor auditor "$@"
    for part in output errors status; do
        cmp -s -- "$folder/planner.$part" "$folder/auditor.$part" || fail "$line: other $part"
    done
    count=$((count + 1))
done <words.txt
[ "$count" -gt 30 ] || fail "only $count lines of words"

answer auditor auditor solve lilim one-pair.txt 1
[ "$(cat -- "$folder/auditor.status")" = 64 ] || fail 'it solves'
[ "$(cat -- "$folder/auditor.errors")" = 'auditor: only planner has this command; auditor has audit, audits and explain' ] ||
    fail 'it does not say what it does'

[ "$failures" = 0 ] || exit 1
echo "auditor: it answers $count lists of words as planner does"
