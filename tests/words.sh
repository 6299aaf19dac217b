#!/bin/sh
# Checks what only the built program shows about its arguments: standard error, the status of the process, an
# argument that is not UTF-8, and an output that can't be written. The crate `cli_tests` tests the meaning of
# the arguments.
set -u

top=$(CDPATH='' cd -- "$(dirname -- "$0")/.." && pwd -P) || exit 1
program=$top/crates/planner/out/planner
# Builds the program if rt ci has not.
if [ "$("$top/planner")" != 'pass 0 1 20' ]; then
    echo "words: ./planner does not answer" >&2
    exit 1
fi
folder=$(mktemp -d) || exit 1
waits=
trap '[ -z "$waits" ] || kill "$waits" 2>/dev/null; rm -rf -- "$folder"' EXIT
trap 'exit 130' INT
trap 'exit 143' TERM
failures=0
full='planner: output: No space left on device (os error 28)'

fail() {
    echo "words: $*"
    failures=$((failures + 1))
}

# expect STATUS OUTPUT ERROR WORDS..: checks the status, and the beginnings of standard output and standard
# error; '' means empty.
expect() {
    wanted="$1, '$2', '$3'"
    shift 3
    "$program" "$@" >"$folder/output" 2>"$folder/error"
    got="$?, '$(head -n 1 "$folder/output")', '$(head -n 1 "$folder/error")'"
    [ "$got" = "$wanted" ] || fail "planner $*: $got; wanted $wanted"
}

cd -- "$top/examples" || exit 1
for path in *.txt *.sol public/P-n16-k8.vrp public/P-n16-k8.sol public/E-n51-k5.vrp; do
    cmp -- "$path" "$top/crates/cli_tests/data/${path#public/}" || fail "cli_tests has another $path"
done

expect 0 'pass 0 1 20' ''
expect 0 'pass 0 10 829' '' audit lilim lc101.txt "$top/examples/lc101.sol"
# Text after the cost line is not read. This is reported, and nothing else changes.
printf 'Route #1: 1 2\nCost 20\n\nTime 3\nCost 5\n' >"$folder/timed.sol"
expect 0 'pass 0 1 20' "planner: $folder/timed.sol: line 4 comes after the cost line and is not read" audit lilim one-pair.txt "$folder/timed.sol"
expect 0 'pass 0 1 20' "planner: $folder/timed.sol: line 4 comes after the cost line and is not read" explain lilim one-pair.txt "$folder/timed.sol"
# With `routes`: no cost line, or one with any word. A broken rule is reported all the same.
grep -v '^Cost' lc101.sol >"$folder/routes.sol"
expect 2 'solution NoCost 11' '' audit lilim lc101.txt "$folder/routes.sol"
expect 0 'pass 0 10 829' '' audit lilim lc101.txt "$folder/routes.sol" routes
expect 0 'pass 0 10 829' '' explain lilim lc101.txt "$folder/routes.sol" routes
sed 's/^Cost .*/Cost 828.94/' lc101.sol >"$folder/fraction.sol"
expect 2 'solution BadNumber 11' '' audit lilim lc101.txt "$folder/fraction.sol"
expect 0 'pass 0 10 829' '' audit lilim lc101.txt "$folder/fraction.sol" routes
expect 0 'pass 0 1 20' "planner: $folder/timed.sol: line 4 comes after the cost line and is not read" audit lilim one-pair.txt "$folder/timed.sol" routes
sed 's/^Route #5:.*//' "$folder/routes.sol" >"$folder/fewer.sol"
expect 1 'broken 3 route 0 place 0 stop 42' '' audit lilim lc101.txt "$folder/fewer.sol" routes
{ printf 'Instance name : lc101\nSolution\n'; cat "$folder/routes.sol"; } >"$folder/headed.sol"
expect 0 'pass 0 10 829' '' audit lilim lc101.txt "$folder/headed.sol" routes
expect 0 'pass 0 10 829' '' explain lilim lc101.txt "$folder/headed.sol" routes
expect 2 'solution BadLine 1' '' audit lilim lc101.txt "$folder/headed.sol"
sed 's/^Route #2/Rouet #2/' "$folder/routes.sol" >"$folder/slip.sol"
expect 2 'solution BadLine 2' '' explain lilim lc101.txt "$folder/slip.sol" routes
# For a list, standard error reports text after a cost line, and for a bad line its number and the reason.
{
    printf 'one-pair.txt\t%s\n' "$folder/timed.sol"
    printf '# a comment\n\none-pair.txt\t\none-pair.txt\tone-pair.sol\t450.5\na\tb\tc\td\n\tone-pair.sol\t20\none-pair.txt\tone-pair.sol\t1 20\t\n'
    printf 'one-pair.txt\t\377\none-pair.txt\tone-pair.sol\t450.0\n'
} >"$folder/pairs"
expect 2 "one-pair.txt	$folder/timed.sol	pass 0 1 20" "planner: $folder/pairs: line 1: $folder/timed.sol: line 4 comes after the cost line and is not read" \
    audits lilim "$folder/pairs"
why="planner: $folder/pairs: line"
[ "$(sed 1d "$folder/error")" = "$why 2: bad line: it has no tab
$why 3: bad line: it is empty
$why 4: bad line: a path is empty
$why 5: bad line: the third column is not a best-known cost such as 10 829 or 829
$why 6: bad line: it has more than two tabs
$why 7: bad line: a path is empty
$why 8: bad line: it has more than two tabs
$why 9: bad line: a path is not UTF-8" ] || fail "audits: not why lines are bad"
# A limit of a .vrp instance that no rule checks is named, but not one after the end.
sed '2i vehicles : 5' public/P-n16-k8.vrp >"$folder/limited.vrp"
expect 0 'pass 0 0 450' "planner: $folder/limited.vrp: line 2 sets a limit that no rule checks" audit vrp "$folder/limited.vrp" public/P-n16-k8.sol
expect 0 'pass 0 0 450' "planner: $folder/limited.vrp: line 2 sets a limit that no rule checks" explain vrp "$folder/limited.vrp" public/P-n16-k8.sol routes
limit="planner: $folder/limited.vrp: line 2 sets a limit that no rule checks"
[ "$("$program" solve vrp "$folder/limited.vrp" 0 2>&1 >/dev/null | head -n 1)" = "$limit" ] || fail "solve: not the limit that no rule checks"
expect 0 'ok' "$limit" load "$folder/limited.store" vrp "$folder/limited.vrp"
printf 'public/P-n16-k8.vrp\t%s\n%s\t%s\n' "$folder/free.sol" "$folder/limited.vrp" "$folder/limited.sol" >"$folder/tasks"
[ "$("$program" solves vrp "$folder/tasks" 0 2>&1 >/dev/null)" = "$limit" ] || fail "solves: not the limit that no rule checks"
{ cat public/P-n16-k8.vrp && echo 'MAX_DURATION : 30'; } >"$folder/limited.vrp"
expect 0 'pass 0 0 450' '' audit vrp "$folder/limited.vrp" public/P-n16-k8.sol
printf 'public/P-n16-k8.vrp\tpublic/P-n16-k8.sol\t8 450\n' >"$folder/pairs"
expect 2 'bad line' "planner: $folder/pairs: line 1: bad line: the third column is not a best-known cost such as 829" audits vrp "$folder/pairs"
got=$(printf 'lc101.txt\t%s\t10 829\n' "$folder/routes.sol" "$folder/fraction.sol" | "$program" audits lilim - routes | cut -f 3)
[ "$got" = "$(printf 'pass 0 10 829 gap 0.00\npass 0 10 829 gap 0.00')" ] || fail "audits of routes: $got"
expect 1 'broken 5 route 1 place 1 stop 2' '' audit lilim one-pair.txt one-pair-reversed.sol
expect 2 'instance FieldCount 1' '' audit lilim one-pair.sol one-pair.sol
expect 3 'cannot read nowhere' 'planner: nowhere: No such file or directory (os error 2)' audit lilim one-pair.txt nowhere
expect 0 'Checks a solution against the rules, and names the first that it breaks' '' audit --help

got=$("$program" audit lilim - lc101.sol <lc101.txt)
[ "$got" = 'pass 0 10 829' ] || fail "audit of an instance on standard input: $got"
got=$("$program" solve lilim lc101.txt 100 2>/dev/null | "$program" audit lilim lc101.txt -)
[ "${got%% *}" = 'pass' ] || fail "audit of a solution on standard input: $got"

expect 64 '' 'error: the following required arguments were not provided:' audit
expect 64 '' 'error: the arguments are KIND INSTANCE SOLUTION [routes], and KIND is lilim, solomon or vrp, perhaps with :10, :100 or :1000' audit lilim one-pair.txt one-pair.sol more
expect 64 '' 'error: the arguments are KIND LIST [routes], and KIND is lilim, solomon or vrp, perhaps with :10, :100 or :1000' audits lilim pairs more
expect 64 '' "error: unexpected argument 'more' found" audit lilim one-pair.txt one-pair.sol routes more
expect 64 '' "error: invalid value 'LILIM' for '<KIND>'" audit LILIM one-pair.txt one-pair.sol
expect 64 '' "error: unrecognized subcommand 'judge'" judge one-pair.txt one-pair.sol
expect 0 'planner 0.1.0' '' --version

# If nothing is built, as here, ./planner answers as the program does.
mkdir -p -- "$folder/bare/tools" "$folder/bare/crates/cli_tests" || exit 1
cp -- "$top/planner" "$folder/bare"
cp -- "$top/tools/answer_words.sh" "$folder/bare/tools"
cp -- "$top/crates/cli_tests/stdout" "$folder/bare/crates/cli_tests"
alike() {
    "$program" "$@" >"$folder/output" 2>"$folder/error"
    wanted=$?
    "$folder/bare/planner" "$@" >"$folder/bare/output" 2>"$folder/bare/error" </dev/null
    got=$?
    [ "$got" = "$wanted" ] || fail "planner $*, not built: status $got, wanted $wanted"
    for part in output error; do
        cmp -s -- "$folder/$part" "$folder/bare/$part" || fail "planner $*, not built: other $part"
    done
}
for word in $("$program" help | sed -n '/^Commands:/,/^$/s/^  \([a-z]*\) .*/\1/p' | grep -vx help); do
    alike help "$word"
    alike "$word" --help
    alike "$word" -h
done
for words in -h --help help -V --version judge 'help judge' 'help --help' 'help audit more' --frob audit 'audit --frob' 'audit lilim one-pair.txt' \
    'audit lilim one-pair.txt one-pair.sol more' 'audit lilim one-pair.txt one-pair.sol routes more' 'explain lilim a b more' 'audits vrp a more' \
    'audit LILIM one-pair.txt one-pair.sol' audits 'solve lilim one-pair.txt' load upgrade \
    'run day.store careful' timetable 'draw lilim a b 1 more' adopt 'adopt day.store' 'adopt day.store a more' instance check; do
    # shellcheck disable=SC2086 # several words
    alike $words
done

# An explanation follows the audit's line. A picture that can't be drawn is reported on standard error.
expect 0 'pass 0 10 829' '' explain lilim lc101.txt lc101.sol
expect 1 'broken 5 route 1 place 1 stop 2' '' explain lilim one-pair.txt one-pair-reversed.sol
expect 3 'cannot read nowhere' 'planner: nowhere: No such file or directory (os error 2)' explain lilim one-pair.txt nowhere
got=$("$program" explain vrp lc101.txt lc101.sol | tail -n 1)
[ "$got" = 'the text looks like a Li-Lim instance, and is read as vrp' ] || fail "explain of lc101 as vrp: $got"
got=$(sed 's/^Cost .*/Cost 828.94/' lc101.sol | "$program" explain lilim lc101.txt - | sed -n 2p)
[ "$got" = 'line 11: a word is not the number that has to stand there: the cost is 828.94, which has a fraction, allowed are whole numbers in 0..18446744073709551615. Each way is rounded to a whole number here; behind the word routes no cost is asked' ] ||
    fail "explain of a cost with a fraction: $got"
got=$(sed 's/^Cost .*/Cost 828.94/' lc101.sol | "$program" explain lilim lc101.txt - | tail -n 1)
[ "$got" = 'distance that the routes drive, each way rounded: 829' ] || fail "explain of a cost with a fraction: $got"
got=$(sed 's/^Route #5:.*//' lc101.sol | "$program" explain lilim lc101.txt - | sed -n 3p)
[ "$got" = 'stops in no route: 14' ] || fail "explain of lc101 without a route: $got"
expect 0 'pass 0 10 829' '' timetable lilim lc101.txt lc101.sol
expect 1 'broken 5 route 1 place 1 stop 2' '' timetable lilim one-pair.txt one-pair-reversed.sol tabs
expect 3 'cannot read nowhere' 'planner: nowhere: No such file or directory (os error 2)' timetable nowhere tabs
expect 64 '' 'error: the arguments are STORE [tabs] or KIND INSTANCE SOLUTION [tabs], and KIND is lilim, solomon or vrp, perhaps with :10, :100 or :1000' timetable lilim one-pair.txt
[ "$("$program" timetable lilim lc101.txt lc101.sol tabs | sed -n 3p)" = "$(printf 'stop\t1\t1\t5\tpickup\t7\t0\t15\t15\t0\t90\t15\t67\t36\t10\t-')" ] || fail "timetable: not the first stop"
expect 0 "$(head -n 1 lc101.svg)" '' draw lilim lc101.txt lc101.sol
expect 2 '' 'solution BadLine 1' draw lilim one-pair.txt one-pair.txt
expect 2 '' 'no NoSuchRoute' draw lilim lc101.txt lc101.sol 11
expect 2 '' 'no NoSuchRoute' draw lilim lc101.txt lc101.sol 0
expect 3 '' 'planner: nowhere: No such file or directory (os error 2)' draw lilim one-pair.txt nowhere
[ "$("$program" draw lilim one-pair.sol nowhere 2>&1 >/dev/null | tail -n 1)" = 'cannot read nowhere' ] || fail "draw: not the file that can't be read"
if [ -c /dev/full ]; then
    got=$("$program" draw lilim one-pair.txt one-pair.sol 2>&1 >/dev/full)
    status=$?
    [ "$status, $got" = "3, $full" ] || fail "draw to a full output: status $status, '$got'"
fi

# A solution goes to standard output, the progress of the search to standard error.
expect 0 'Route #1: 1 2' 'at 0 0 1 20' solve lilim one-pair.txt 3
expect 2 '' 'instance FieldCount 1' solve lilim one-pair.sol 3
expect 3 '' 'planner: nowhere: No such file or directory (os error 2)' solve lilim nowhere 3 7
expect 64 '' 'error: STEPS and DEVIATION are 0 to 1000000000 and SEED is 0 to 18446744073709551615, with digits only' solve lilim one-pair.txt 1000000001
expect 64 '' 'error: STEPS and DEVIATION are 0 to 1000000000 and SEED is 0 to 18446744073709551615, with digits only' solve lilim one-pair.txt +3
expect 64 '' 'error: STEPS and DEVIATION are 0 to 1000000000 and SEED is 0 to 18446744073709551615, with digits only' solve lilim one-pair.txt 3 18446744073709551616
[ "$("$program" solve lilim one-pair.txt +3 2>&1 | sed -n 3p)" = 'Usage: planner solve <KIND> <INSTANCE> <STEPS> [SEED] [DEVIATION]' ] || fail "solve: not its own usage"
[ "$("$program" solve lilim one-pair.txt 3 2>/dev/null)" = "$(cat one-pair.sol)" ] || fail "solve: not the one plan of one pair"
[ "$("$program" solve lilim one-pair.txt 3 2>&1 >/dev/null)" = "$(printf 'at %d 0 1 20\n' 0 1 2 3)" ] || fail "solve: not a line for each step"
# A second pair that no vehicle can serve together with the first: there is one vehicle, and both pairs are due
# at the same time in different places.
printf '1 10 1\n0 0 0 0 0 100 0 0 0\n1 30 0 4 0 30 0 0 2\n2 31 0 -4 0 60 0 1 0\n3 -30 0 4 0 30 0 0 4\n4 -31 0 -4 0 60 0 3 0\n' >"$folder/two-pairs.txt"
expect 1 'Route #1: 3 4' 'at 0 1 1 62' solve lilim "$folder/two-pairs.txt" 1
[ "$("$program" solve lilim "$folder/two-pairs.txt" 0 2>&1 >/dev/null)" = "$(printf 'at 0 1 1 62\nunplanned 1: 3\nwhy 3: alone: a vehicle can serve it\nwhy 3: vehicle 1: stop 1 would start 60 late\nwhy 3: fleet: 1 of 1 vehicles are used\n')" ] || fail "solve: two pairs for one vehicle"
[ "$("$program" solve lilim "$folder/two-pairs.txt" 0 2>/dev/null)" = 'Route #1: 1 2' ] || fail "solve: the routes of a plan that is not whole"
# It has no cost line: a timetable accepts it as a partial plan, an audit does not, and neither accepts half a
# request.
printf 'Route #1: 1 2\n' >"$folder/partial.sol"
cat >"$folder/sheet" <<'END'
partial 1 1 62

vehicle 1: stops 2, distance 62, load 4, set off 0, return 62, waiting 0
 place  stop  kind      partner  set off  arrival    start  waiting  service     from       to   latest     load
     1     1  pickup          2        0       30       30        0        0        0       30       30        4
     2     2  delivery        1       30       31       31        0        0        0       60       60        0 pin
     3     0  return          -       31       62       62        0        0        0      100      100        0

unplanned 3
why 3: alone: a vehicle can serve it
why 3: vehicle 1: stop 1 would start 60 late
why 3: fleet: 1 of 1 vehicles are used
END
expect 1 'partial 1 1 62' 'unplanned 1: 3' timetable lilim "$folder/two-pairs.txt" "$folder/partial.sol"
cmp -s "$folder/output" "$folder/sheet" || fail "timetable: a partial plan: $(cat "$folder/output")"
expect 1 'partial 1 1 62' 'unplanned 1: 3' timetable lilim "$folder/two-pairs.txt" "$folder/partial.sol" tabs
expect 2 'solution NoCost 2' '' audit lilim "$folder/two-pairs.txt" "$folder/partial.sol"
printf 'Route #1: 1\n' >"$folder/half.sol"
expect 2 'solution NoCost 2' '' timetable lilim "$folder/two-pairs.txt" "$folder/half.sol"
printf 'Route #1: 1 2\nCost 62\n' >"$folder/half.sol"
expect 1 'broken 3 route 0 place 0 stop 3' '' timetable lilim "$folder/two-pairs.txt" "$folder/half.sol"
# The same for the plan of a store.
printf 'build\n' >"$folder/lines"
[ "$("$program" load "$folder/partial.store" lilim "$folder/two-pairs.txt")" = ok ] || fail "load: two pairs"
"$program" run "$folder/partial.store" <"$folder/lines" >/dev/null 2>&1 || fail "run: two pairs"
expect 0 'partial 1 1 62' '' timetable "$folder/partial.store"
cmp -s "$folder/output" "$folder/sheet" || fail "timetable: a partial plan of a store: $(cat "$folder/output")"
# The plan is written before the reasons are known: in one pipe it comes before them.
[ "$("$program" solve lilim "$folder/two-pairs.txt" 0 2>&1)" = "$(printf 'at 0 1 1 62\nRoute #1: 1 2\nunplanned 1: 3\nwhy 3: alone: a vehicle can serve it\nwhy 3: vehicle 1: stop 1 would start 60 late\nwhy 3: fleet: 1 of 1 vehicles are used\n')" ] || fail "solve: the plan waits for the reasons"
# The optimum of an instance of Christofides and Eilon (1969), with each of three seeds.
for seed in 1 2 3; do
    "$program" solve vrp public/E-n51-k5.vrp 100000 "$seed" 2>/dev/null >"$folder/E-n51-k5.sol" || fail "solve E-n51-k5 by seed $seed: status $?"
    got=$("$program" audit vrp public/E-n51-k5.vrp "$folder/E-n51-k5.sol")
    [ "$got" = 'pass 0 0 521' ] || fail "E-n51-k5 by seed $seed: $got; wanted pass 0 0 521"
done
"$program" solve lilim lc101.txt 500 9 >"$folder/lc101.sol" 2>/dev/null && "$program" audit lilim lc101.txt "$folder/lc101.sol" >/dev/null || fail "audit does not pass what solve prints"

# The reasons why a request of a known instance is left out, from another program, which tries each place of
# each route.
sed 's/ 3 7 8/ 7 8/; s/ 75$//' lc101.sol >"$folder/lc101-3.sol"
cat >"$folder/answers" <<'END'
unplanned 3
why 3: alone: a vehicle can serve it
why 3: vehicle 1: fits at places 2 and 12
why 3: vehicle 2: stop 13 would start 85 late
why 3: vehicle 3: stop 3 would start 72 late
why 3: vehicle 4: stop 3 would start 17 late
why 3: vehicle 5: stop 3 would start 89 late
why 3: vehicle 6: stop 3 would start 30 late
why 3: vehicle 7: stop 3 would start 74 late
why 3: vehicle 8: stop 3 would start 44 late
why 3: vehicle 9: stop 3 would start 85 late
why 3: vehicle 10: stop 98 would start 89 late
why 3: fleet: 10 of 25 vehicles are used
END
sed 1d "$folder/answers" >"$folder/whys"
"$program" timetable lilim lc101.txt "$folder/lc101-3.sol" | sed -n '/^unplanned/,$p' | cmp -s -- "$folder/answers" - || fail "timetable: why a request of lc101 is left out"
"$program" timetable lilim lc101.txt "$folder/lc101-3.sol" tabs | sed -n 's/^why\t3\t/why 3: /p' | cmp -s -- - "$folder/whys" || fail "timetable tabs: why a request of lc101 is left out"

# An instance on standard input is loaded into a new store, and a text that is refused leaves none.
"$program" load "$folder/day.store" lilim - 7 <one-pair.sol >/dev/null
status=$?
[ "$status" = 2 ] && [ ! -e "$folder/day.store" ] || fail "load of a bad instance: status $status, wanted 2, or a store is there"
[ "$("$program" load "$folder/day.store" lilim - 7 <lc101.txt)" = 'ok' ] || fail "load of an instance on standard input"
expect 2 'store Loaded' '' load "$folder/day.store" lilim one-pair.txt
expect 3 'cannot read nowhere/day.store' 'planner: nowhere/day.store: No such file or directory (os error 2)' load nowhere/day.store lilim one-pair.txt
expect 64 '' 'error: SEED is 0 to 18446744073709551615, with digits only' load "$folder/day.store" lilim one-pair.txt 7.5
expect 64 '' "error: invalid value 'careful' for '[strict]'" run "$folder/day.store" careful

# One answer for each line of a list, whatever the other lines are.
printf 'one-pair.txt\tone-pair.sol\none-pair.txt\nnowhere\tone-pair.sol\none-pair.txt\tone-pair-reversed.sol' >"$folder/pairs"
printf 'one-pair.txt\tone-pair.sol\tpass 0 1 20\nbad line\nnowhere\tone-pair.sol\tcannot read nowhere\none-pair.txt\tone-pair-reversed.sol\tbroken 5 route 1 place 1 stop 2\n' >"$folder/answers"
"$program" audits lilim "$folder/pairs" >"$folder/output" 2>/dev/null
status=$?
[ "$status" = 3 ] && cmp -s -- "$folder/answers" "$folder/output" || fail "audits: status $status, wanted 3, or other answers"
"$program" audits lilim - <"$folder/pairs" 2>/dev/null | cmp -s -- "$folder/answers" - || fail "audits -: other answers"
[ "$(printf '\n \t\none-pair.txt\tone-pair.sol\n' | "$program" audits lilim - 2>/dev/null)" = "$(printf 'bad line\nbad line\none-pair.txt\tone-pair.sol\tpass 0 1 20')" ] || fail "audits: a blank line ends the list"
expect 3 'cannot read nowhere' 'planner: nowhere: No such file or directory (os error 2)' audits lilim nowhere
# With a best-known cost: 9 of 820 are 1.098 percent.
printf 'lc101.txt\tlc101.sol\t%s\n' '10 829' '10 820' 829 '9 829' '828.94' >"$folder/pairs"
printf 'lc101.txt\tlc101.sol\tpass 0 10 829 %s\n' 'gap 0.00' 'gap 1.10' 'gap 0.00' 'vehicles +1' >"$folder/answers"
echo 'bad line' >>"$folder/answers"
"$program" audits lilim "$folder/pairs" | cmp -s -- "$folder/answers" - || fail "audits: other comparisons with best-known costs"

# The files of solves have the bytes that solve prints. There is one answer for each line, and nothing is
# overwritten.
solved=$folder/solved
mkdir -- "$solved" || exit 1
echo mine >"$solved/mine.sol"
ln -s nowhere "$solved/link.sol"
printf "lc101.txt\tDIR/lc101.sol\n\none-pair.sol\tDIR/bad.sol\n$folder/two-pairs.txt\tDIR/two.sol\nlc101.txt\tDIR/mine.sol\nnowhere\tDIR/link.sol\none-pair.txt\tDIR/no/one.sol\nnowhere\tDIR/none.sol" |
    sed "s|DIR|$solved|" >"$folder/tasks"
printf "lc101.txt\tDIR/lc101.sol\t%s\nbad line\none-pair.sol\tDIR/bad.sol\tinstance FieldCount 1\n$folder/two-pairs.txt\tDIR/two.sol\tunplanned 1: 1\nlc101.txt\tDIR/mine.sol\tthere already\nnowhere\tDIR/link.sol\tthere already\none-pair.txt\tDIR/no/one.sol\tcannot write DIR/no/one.sol\nnowhere\tDIR/none.sol\tcannot read nowhere\n" \
    "$("$program" audit lilim lc101.txt "$folder/lc101.sol")" | sed "s|DIR|$solved|g" >"$folder/answers"
"$program" solves lilim "$folder/tasks" 500 9 >"$folder/output" 2>/dev/null
status=$?
[ "$status" = 3 ] && cmp -s -- "$folder/answers" "$folder/output" || fail "solves: status $status, wanted 3, or other answers"
cmp -s -- "$folder/lc101.sol" "$solved/lc101.sol" || fail "solves: not the solution that solve prints"
[ "$(cat "$solved/two.sol")" = 'Route #1: 3 4' ] || fail "solves: the routes of a plan that is not whole"
[ "$(cat "$solved/mine.sol")" = mine ] && [ -L "$solved/link.sol" ] || fail "solves: a file is overwritten"
[ "$(find "$solved" | wc -l)" = 5 ] || fail "solves: another file is there"
"$program" solves lilim - 500 9 <"$folder/tasks" 2>/dev/null | head -n 1 | grep -q 'there already' || fail "solves -: not there already"

# Each answer is written as soon as it is known, whatever it is. The next file, whose name may already exist,
# has not arrived yet.
mkfifo -- "$folder/late" || exit 1
for words in audits solves; do
    case $words in
        audits) cp one-pair.sol "$solved/audits.sol" && cp one-pair-reversed.sol "$solved/audits-2.sol" && cp one-pair.sol "$solved/audits-3.sol"
            steps='' second=$top/examples/one-pair.txt answer='broken 5 route 1 place 1 stop 2' ;;
        solves) steps=0 second=$folder/two-pairs.txt answer='unplanned 1: 3' ;;
    esac
    printf 'one-pair.txt\t%s\n%s\t%s\none-pair.sol\t%s\nnot two paths\n%s\t%s\n' \
        "$solved/$words.sol" "$second" "$solved/$words-2.sol" "$solved/$words-3.sol" "$folder/late" "$solved/late.sol" >"$folder/tasks"
    # shellcheck disable=SC2086 # no word where there are no steps
    "$program" "$words" lilim "$folder/tasks" $steps >"$folder/output" 2>/dev/null &
    waits=$!
    wanted=$(printf 'one-pair.txt\t%s\tpass 0 1 20\n%s\t%s\t%s\none-pair.sol\t%s\tinstance FieldCount 1\nbad line\n' \
        "$solved/$words.sol" "$second" "$solved/$words-2.sol" "$answer" "$solved/$words-3.sol")
    tries=0
    until [ "$(head -n 4 "$folder/output")" = "$wanted" ] || [ "$tries" = 100 ]; do
        sleep 0.1
        tries=$((tries + 1))
    done
    [ "$(head -n 4 "$folder/output")" = "$wanted" ] || fail "$words: an answer waits for the next file"
    timeout 10 sh -c 'cat one-pair.txt >"$1"' sh "$folder/late"
    [ "$words" = solves ] || rm -f -- "$solved/late.sol"
    wait "$waits"
    waits=
done

# The picture of a store's plan is that of its printed solution: the unused vehicles come after the others here.
"$program" load "$folder/drawn.store" lilim lc101.txt 7 >/dev/null
( echo build; echo print ) | "$program" run "$folder/drawn.store" | sed '1,2d;$d' >"$folder/drawn.sol"
"$program" draw lilim lc101.txt "$folder/drawn.sol" >"$folder/drawn.svg"
[ -s "$folder/drawn.svg" ] && "$program" draw "$folder/drawn.store" | cmp -s -- "$folder/drawn.svg" - || fail "draw: not the store's plan"
expect 3 '' 'planner: nowhere: No such file or directory (os error 2)' draw nowhere
[ "$("$program" draw "$folder/drawn.store" 3)" = "$("$program" draw lilim lc101.txt "$folder/drawn.sol" 3)" ] || fail "draw: not the route of the store's vehicle"
expect 2 '' 'no NoSuchRoute' draw "$folder/drawn.store" 26
expect 64 '' 'error: the arguments are STORE [ROUTE] or KIND INSTANCE SOLUTION [ROUTE], KIND is lilim, solomon or vrp, perhaps with :10, :100 or :1000, and ROUTE is a number with digits only' draw lilim one-pair.txt

# A solution on standard input becomes the store's plan, and the instance of the store audits it.
[ "$("$program" adopt "$folder/drawn.store" - <lc101.sol)" = 'ok' ] || fail "adopt of a solution on standard input"
[ "$(echo print | "$program" run "$folder/drawn.store" | sed '1d;$d')" = "$(cat lc101.sol)" ] || fail "adopt: not the plan that was adopted"
"$program" instance "$folder/drawn.store" >"$folder/held.txt" || fail "instance: status $?"
[ "$("$program" audit lilim "$folder/held.txt" lc101.sol)" = 'pass 0 10 829' ] || fail "instance: not the instance that was loaded"
sed 's/^Route #5:.*//' lc101.sol >"$folder/missing.sol"
expect 1 'broken 3 route 0 place 0 stop 42' '' adopt "$folder/drawn.store" "$folder/missing.sol"
expect 0 'ok' '' format "$folder/no.store"
expect 2 'no NoInstance' '' adopt "$folder/no.store" lc101.sol
expect 2 'no NoInstance' '' instance "$folder/no.store"

# A path is accepted only as UTF-8.
latin=$(printf 'caf\351.sol')
cp one-pair.sol "$folder/$latin"
expect 64 '' 'error: an argument is not UTF-8' audit lilim one-pair.txt "$folder/$latin"

if [ -c /dev/full ]; then
    got=$("$program" 2>&1 >/dev/full)
    status=$?
    [ "$status, $got" = "3, $full" ] || fail "a full output: status $status, '$got'"
    "$program" format "$folder/full.store" >/dev/null || fail 'format for a full output'
    got=$("$program" check "$folder/full.store" 2>&1 >/dev/full)
    [ "$got" = "$full" ] || fail "check to a full output: '$got'"
    # The message that a store can't be opened goes through a writer that counts bytes, and keeps the reason all
    # the same.
    got=$("$program" check nowhere 2>&1 >/dev/full | tail -n 1)
    [ "$got" = "$full" ] || fail "check of no store to a full output: '$got'"
else
    echo "skipped: words, a full output, since /dev/full is not there"
fi

[ "$failures" = 0 ] || exit 1
echo 'words: all answers are as they should be'
