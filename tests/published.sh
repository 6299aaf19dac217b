#!/bin/sh
# Published results of Li-Lim instances, with the commands as written in the documents: an instance that is read
# with the scale 1000, and a solution with a heading and lines `Route 1 : 5 3 7`, read as it is. A plan that is late
# by two thousandths breaks rule 7 there, and passes with whole numbers. One that is early by as much passes. The
# instance is also solved with this scale, with fewer steps, and the unrounded distance is computed.
set -u

top=$(CDPATH='' cd -- "$(dirname -- "$0")/.." && pwd -P) || exit 1
program=$top/crates/planner/out/planner
if [ ! -x "$program" ]; then
    echo "published: $program is not built: run rt ci, or ./planner once" >&2
    exit 1
fi
folder=$(mktemp -d) || exit 1
trap 'rm -rf -- "$folder"' EXIT
trap 'exit 130' INT
trap 'exit 143' TERM
failures=0
cd -- "$folder" || exit 1
ln -s -- "$program" planner
python3 -B "$top/tests/planner.py" 'while read -r it cost' >commands || exit 1
python3 -B "$top/tests/planner.py" './planner solve lilim:1000' >shown || exit 1
sed 's/ 100000 / 200 /' shown >solving
printf 'lc101\t10 828.94\n' >best.txt

# expect ANSWER WHAT: checks the answer of the commands for lc101.txt and lc101.published.
expect() {
    got=$(sh ./commands 2>&1 | cut -f 3-)
    [ "$got" = "$1" ] || {
        echo "published: $2: '$got'; wanted '$1'"
        failures=$((failures + 1))
    }
}

# publish ROUTES..: writes a solution in the published form.
publish() {
    {
        printf 'Instance name : lc101\nAuthors       : nobody\nDate          : 2001\nReference     : none\nSolution\n'
        awk '{ print "Route " NR " : " $0 }'
    } >lc101.published
}

cp -- "$top/examples/lc101.txt" .
sed -n 's/^Route #[0-9]*: //p' "$top/examples/lc101.sol" | publish
expect 'pass 0 10 828937 gap 0.00' 'the published plan of lc101'
got=$(sh ./solving 2>progress)
[ "$got" = 828.94 ] || {
    echo "published: the unrounded distance of lc101: '$got'"
    failures=$((failures + 1))
}
sed 's/$/\r/' lc101.published >with_returns && mv with_returns lc101.published
sed 's/$/\r/' lc101.txt >with_returns && mv with_returns lc101.txt
expect 'pass 0 10 828937 gap 0.00' 'the same with carriage returns'

# A pair whose pickup is 250.002 away, and may be served until 250.
printf '1 10 1\n0 0 0 0 0 1000 0 0 0\n1 250 1 5 0 250 0 0 2\n2 250 2 -5 0 1000 0 1 0\n' >lc101.txt
echo '1 2' | publish
expect 'broken 7 route 1 place 1 stop 1' 'a plan that is late by 0.002'
printf 'Route #1: 1 2\nCost 501\n' >whole.sol
got=$(./planner audit lilim lc101.txt whole.sol)
[ "$got" = 'pass 0 1 501' ] || {
    echo "published: the same by whole numbers: '$got'"
    failures=$((failures + 1))
}

# A pair whose pickup is 200.998 away, and may be served until 201.
printf '1 10 1\n0 0 0 0 0 1000 0 0 0\n1 200 20 5 0 201 0 0 2\n2 200 21 -5 0 1000 0 1 0\n' >lc101.txt
got=$(sh ./commands 2>&1 | cut -f 3-)
case $got in
    'pass 0 1 403097 vehicles '*) ;;
    *)
        echo "published: a plan that is early by 0.002: '$got'"
        failures=$((failures + 1))
        ;;
esac

[ "$failures" = 0 ] || exit 1
echo 'published: instances are judged by thousandths'
