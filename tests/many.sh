#!/bin/sh
# Solves an instance with four seeds in parallel, by the commands in the documents with fewer steps, and picks the
# best plan with `audits`: with GNU parallel if it is installed, else with xargs. Each plan must be the one that
# its seed finds alone.
set -u

top=$(CDPATH='' cd -- "$(dirname -- "$0")/.." && pwd -P) || exit 1
program=$top/crates/planner/out/planner
# Builds the program if rt ci has not.
if [ "$("$top/planner")" != 'pass 0 1 20' ]; then
    echo "many: ./planner does not answer" >&2
    exit 1
fi
folder=$(mktemp -d) || exit 1
trap 'rm -rf -- "$folder"' EXIT
trap 'exit 130' INT
trap 'exit 143' TERM
failures=0

fail() {
    echo "many: $*"
    failures=$((failures + 1))
}

cd -- "$folder" || exit 1
cp -- "$top/examples/lc101.txt" .
ln -s -- "$program" planner
PATH=$folder:$PATH
python3 -B "$top/tests/planner.py" "seq 16 | parallel 'planner solve" >shown || exit 1
sed 's/^seq 16 /seq 4 /; s/ 1000000 / 200 /' shown >commands
by='GNU parallel'
if ! parallel --version 2>/dev/null | grep -q 'GNU parallel'; then
    by=xargs
    sed 's/ parallel / xargs -P 4 -I {} sh -c /' commands >with_xargs && mv with_xargs commands
fi
sed 1q commands >solving
sed 1d commands >ranking
sh ./solving 2>told || fail "the documents' command for several seeds ends with $?: $(cat told)"

for seed in 1 2 3 4; do
    planner solve lilim lc101.txt 200 "$seed" >alone 2>told
    cmp -s alone "lc101.$seed.sol" || fail "seed $seed has another plan beside others"
    [ "$(tail -n 1 told | cut -d ' ' -f 1,2)" = 'at 200' ] || fail "seed $seed did not make its steps"
done
# A text that can't be read does not pass, so it is not among the best.
echo 'Route #1: 1' >lc101.5.sol
for path in lc101.*.sol; do
    printf 'lc101.txt\t%s\n' "$path"
done | planner audits lilim - >told
[ "$(grep -c 'pass ' told)" -eq 4 ] || fail "not four plans pass: $(cat told)"
best=$(sh ./ranking)
[ "$(printf '%s' "$best" | cut -f 1,3)" = "$(printf 'lc101.txt\tpass 0 10 829')" ] || fail "the best is $best"

if [ "$failures" -gt 0 ]; then
    echo "many: $failures failed"
    exit 1
fi
echo "many: four seeds in parallel, by $by"
