#!/bin/sh
# Checks how ./planner builds its programs for the first time, with a fake `rt` in place of the one of the kit:
# crates in parallel, each after those below it, and again after a refusal or an interrupt. The answer of the
# trial must be on standard error, that of the program on standard output, and nothing of a trial that failed or
# was not needed. Also checks what needs no build, what ./trial answers, and what ./install installs.
set -u

top=$(CDPATH='' cd -- "$(dirname -- "$0")/.." && pwd -P)
folder=$(mktemp -d) || exit 1
trap 'rm -rf -- "$folder"' EXIT
trap 'exit 130' INT
trap 'exit 143' TERM

fail() {
    echo "first_answer: $*"
    # The failure is recorded in a file, since some checks run in the last part of a pipe.
    : >"$folder/failed"
}

# Like the real one, this `rt` needs the sources of each crate that crates.txt names. A library that is not
# built yet takes half a second, is recorded in the file `done` when it begins and ends, and is refused if the
# file `refused` names it. A build takes two seconds, since ./planner checks once a second whether a trial has
# answered, and leaves a program that answers `pass 1`. A trial answers with the contents of the file `tried`.
# The file `slow` sets another number of seconds for libraries and trials.
mkdir -p "$folder/tree/tools" "$folder/tree/crates/cli_tests" "$folder/bin" "$folder/tmp"
cp -R -- "$top/planner" "$top/trial" "$top/install" "$top/clean" "$top/man" "$top/examples" "$folder/tree"
cp -- "$top/tools/build_program.py" "$top/tools/answer_words.sh" "$folder/tree/tools"
cp -- "$top/crates/cli_tests/stdout" "$folder/tree/crates/cli_tests"
for it in low left right auditor planner apart; do
    mkdir -p "$folder/tree/crates/$it/src"
    : >"$folder/tree/crates/$it/src/main.rt"
done
printf '# crates\nplanner: left right clap\nauditor: left\nleft: low\nright: low std\nlow: thiserror\napart: low\n' >"$folder/tree/crates.txt"
echo 'Handles allowed: none.' >"$folder/tree/HANDLES"
cat >"$folder/bin/rt" <<'END'
#!/bin/sh
name=$(basename "$PWD")
for it in $(sed -n 's/^\([a-z_]*\):.*/\1/p' ../../crates.txt); do
    [ -d "../$it/src" ] || {
        echo "crates.txt: $it: there is no folder for it"
        exit 2
    }
done
case $1 in
    lib)
        [ ! -e out/rlib/stamp ] || exit 0
        echo "begun $name" >>"$FAKE/done"
        # It takes a moment to end.
        trap 'sleep 0.2; exit 1' TERM
        mkdir -p out/rlib out/incremental
        echo "$name" >>out/incremental/kept
        sleep "$(cat -- "$FAKE/slow" 2>/dev/null || echo 0.5)"
        if grep -qsx "$name" "$FAKE/refused"; then
            echo "$name is refused"
            exit 1
        fi
        : >out/rlib/stamp
        echo "ended $name" >>"$FAKE/done"
        ;;
    run)
        sleep 2
        mkdir -p out
        printf '#!/bin/sh\necho pass 1\nexit 1\n' >"out/$name"
        chmod 755 "out/$name"
        ;;
    try)
        echo "$name: $*" >"$FAKE/words"
        sleep "$(cat -- "$FAKE/slow" 2>/dev/null || echo 0)"
        echo tried >>"$FAKE/done"
        [ ! -e "$FAKE/reads" ] || cat
        cat -- "$FAKE/tried"
        cat -- "$FAKE/told" >&2
        ;;
esac
END
chmod 755 "$folder/bin/rt"
: >"$folder/a.txt"
: >"$folder/a.sol"

# ask WORDS..: calls ./planner as a user does.
ask() {
    (cd -- "$folder" && FAKE="$folder" TMPDIR="$folder/tmp" PATH="$folder/bin:$PATH" exec tree/planner "$@")
}

# Removes what was built, and the record of it.
forget() {
    rm -rf -- "$folder/done" "$folder"/tree/crates/*/out
}

# expect ANSWER MESSAGES ERRORS WORDS..: checks that standard error has these lines, besides those of the build.
expect() {
    printf '%s' "$1" >"$folder/tried"
    printf '%s\n' "$2" >"$folder/told"
    wanted=$3
    shift 3
    rm -f -- "$folder/tree/crates/planner/out/planner" "$folder/tree/crates/auditor/out/auditor"
    got=$(ask "$@" 2>"$folder/errors")
    status=$?
    [ "$status, $got" = '1, pass 1' ] || fail "planner $*: status $status, '$got'"
    errors=$(sed 1d "$folder/errors" | grep -v -e '^planner: ./trial ' -e '^planner: proving ' -e '^planner: built; ')
    [ "$errors" = "$wanted" ] || fail "planner $*: on standard error '$errors'; wanted '$wanted'"
    [ -z "$(ls -A "$folder/tmp")" ] || fail "planner $*: a folder is left"
}

ended='run=ended status=1 runners=1 proved=no'
expect 'pass 1
' "$ended" 'planner: not yet proved: pass 1' audit lilim a.txt a.sol
expect 'pass 1
' "$ended" 'planner: not yet proved: pass 1' explain lilim "$folder/a.txt" a.sol
expect 'pass 2
' "$ended" 'planner: not yet proved: pass 2
planner: the proved program'\''s answer differs from that of the trial' audit lilim a.txt a.sol
expect '' 'run=none proved=no' '' audit lilim a.txt a.sol
expect 'pass 1
' "$ended" '' audit lilim a.txt -
expect 'pass 1
' "$ended" '' solve lilim a.txt 1

# An audit waits only for the auditor, and is answered by the whole program if that is built.
forget
ask audits lilim a.txt >/dev/null 2>"$folder/errors"
told=$(grep '^planner: proving [a-z]* (' "$folder/errors" | tr '\n' ' ')
[ "$told" = 'planner: proving low (1 of 3) planner: proving left (2 of 3) planner: proving auditor (3 of 3) ' ] ||
    fail "of an audit it tells '$told'"
[ ! -e "$folder/tree/crates/planner/out/planner" ] || fail 'an audit waits for the whole program'
mkdir -p "$folder/tree/crates/planner/out"
printf '#!/bin/sh\necho whole\n' >"$folder/tree/crates/planner/out/planner"
chmod 755 "$folder/tree/crates/planner/out/planner"
[ "$("$folder/tree/planner" audit lilim a.txt a.sol)" = whole ] || fail 'the whole program is passed over'

# Libraries are proved once those below them are, in parallel, and only those of the program.
forget
ask solve lilim a.txt 1 >/dev/null 2>"$folder/errors"
told=$(grep '^planner: proving [a-z]* (' "$folder/errors" | tr '\n' ' ')
[ "$told" = 'planner: proving low (1 of 4) planner: proving left (2 of 4) planner: proving right (3 of 4) planner: proving planner (4 of 4) ' ] ||
    fail "it tells '$told'"
order=$(sed 's/ left$/ one/; s/ right$/ one/' "$folder/done" | tr '\n' ' ')
# In parallel if there are two cores, and 4 GB for each.
lanes=$(awk -v cores="$(nproc)" '/^MemAvailable/ { free = int($2 / 4000000); print free < cores ? free : cores }' /proc/meminfo)
if [ "${lanes:-0}" -gt 1 ]; then
    [ "$order" = 'begun low ended low begun one begun one ended one ended one ' ] || fail "the order is '$order'"
fi
[ -z "$(find "$folder/tree" -name lanes)" ] || fail 'lanes are left'

# A program that is older than a source is rebuilt.
sleep 1
: >"$folder/tree/crates/left/src/main.rt"
rm -- "$folder/tree/crates/left/out/rlib/stamp"
ask solve lilim a.txt 1 >/dev/null 2>"$folder/errors"
grep -q '^planner: proving planner ' "$folder/errors" || fail "an older program answers: $(cat "$folder/errors")"

# A library that is refused is reported, and what was built is kept.
forget
echo right >"$folder/refused"
ask solve lilim a.txt 1 >/dev/null 2>"$folder/errors"
status=$?
[ "$status" = 3 ] || fail "a refusal ends with $status: $(cat "$folder/errors")"
grep -qx 'right is refused' "$folder/errors" || fail "a refusal is told as $(cat "$folder/errors")"
[ -e "$folder/tree/crates/low/out/rlib/stamp" ] || fail 'what was proved before a refusal is lost'
rm -- "$folder/refused"

# Two calls that need the program at the same time build it once.
forget
ask audits lilim a.txt >"$folder/first" 2>/dev/null &
ask audits lilim a.txt >"$folder/second" 2>/dev/null
wait "$!"
[ "$(cat -- "$folder/first" "$folder/second" | tr '\n' ' ')" = 'pass 1 pass 1 ' ] || fail 'two builds at once disturb one another'
[ "$(grep -c '^begun' "$folder/done")" = 2 ] || fail "two builds at once do $(cat -- "$folder/done")"

# An interrupted build ends immediately with all processes that it started, as by the signal, and keeps what its
# provers kept. A terminal sends the signal to all processes, `kill` to one.
cat >"$folder/interrupt.py" <<'END'
import os, pathlib, signal, subprocess, sys, time
number, is_sent_to_all, done = int(sys.argv[1]), sys.argv[2] == "all", pathlib.Path(sys.argv[3])
for ignored in signal.SIGINT, signal.SIGHUP:
    signal.signal(ignored, signal.SIG_DFL)
process = subprocess.Popen(sys.argv[4:], start_new_session=True)
while not done.exists():
    if process.poll() is not None:
        sys.exit("it ends before it begins")
    time.sleep(0.05)
# The first library and the trial have begun.
time.sleep(0.3)
begun = time.monotonic()
(os.killpg if is_sent_to_all else os.kill)(process.pid, number)
status = process.wait()
print(status == -number, time.monotonic() - begun < 1.5, pathlib.Path("tree/crates/low/out/incremental/kept").exists())
END
echo 2 >"$folder/slow"
for way in '2 all' '1 all' '15 one'; do
    forget
    # shellcheck disable=SC2086 # two words
    got=$(cd -- "$folder" && FAKE="$folder" TMPDIR="$folder/tmp" PATH="$folder/bin:$PATH" \
        python3 interrupt.py $way "$folder/done" tree/planner audit lilim a.txt a.sol 2>errors)
    [ "$got" = 'True True True' ] || fail "signal $way: whether it ends by it, at once, and keeps what was kept: $got"
    [ -z "$(find "$folder/tree" -name lanes)" ] || fail "signal $way leaves lanes"
    [ -z "$(ls -A "$folder/tmp")" ] || fail "signal $way leaves a folder"
done
sleep 2
[ "$(cat -- "$folder/done")" = 'begun low' ] || fail "signal $way lets go on $(cat -- "$folder/done")"
[ -z "$(find "$folder/tree" -name 'lanes*')" ] || fail "lanes are not removed"
rm -- "$folder/slow"

# plain STATUS WORDS..: checks an answer without a build. The expected output is on standard input.
plain() {
    wanted=$1
    shift
    ask "$@" >"$folder/output" 2>"$folder/errors"
    status=$?
    [ "$status" = "$wanted" ] || fail "planner $*: status $status; wanted $wanted"
    cmp -s -- - "$folder/output" || fail "planner $*: it prints $(cat -- "$folder/output")"
}

# Prints the text that the gate compares with the answer of the program.
text_of() {
    awk -v key="> $1" 'index($0, "= ") == 1 { on = 0 } on { print } $0 == key { on = 1 }' "$top/crates/cli_tests/stdout"
}

# Help, the version and usage errors need no build.
forget
for words in --help -h help 'help help'; do
    # shellcheck disable=SC2086 # several words
    text_of help | plain 0 $words
done
for word in $(text_of help | sed -n '/^Commands:/,/^$/s/^  \([a-z]*\) .*/\1/p' | grep -vx help); do
    [ -n "$(text_of "help|$word")" ] || fail "no help of $word"
    text_of "help|$word" | plain 0 help "$word"
    text_of "help|$word" | plain 0 "$word" --help
    text_of "help|$word" | plain 0 "$word" one -h
done
echo 'planner 0.1.0' | plain 0 --version
echo 'planner 0.1.0' | plain 0 -V
for words in check 'help judge' --frob audit 'audit lilim a.txt' 'audit lilim a.txt a.sol more' 'audit lilm a.txt a.sol' 'audit --frob' \
    'run a.store careful' 'draw a b c d e' '- a.txt'; do
    # shellcheck disable=SC2086 # several words
    plain 64 $words </dev/null
    grep -q '^error: ' "$folder/errors" || fail "planner $words: it tells $(cat -- "$folder/errors")"
done
ln -s tree/planner "$folder/linked"
[ "$(cd -- "$folder/tmp" && ../linked --version)" = 'planner 0.1.0' ] || fail 'it does not follow a link'
[ -z "$(find "$folder/done" "$folder"/tree/crates/*/out 2>/dev/null)" ] || fail 'it builds for help or a slip'

# try_it WORDS..: calls ./trial as a user does, with the standard input of this script.
try_it() {
    (cd -- "$folder" && FAKE="$folder" TMPDIR="$folder/tmp" PATH="$folder/bin:$PATH" exec tree/trial "$@")
}

# answers STATUS ANSWER WORDS..: checks the answer of a trial, and that it leaves nothing.
answers() {
    wanted=$1
    answer=$2
    shift 2
    rm -f -- "$folder/words"
    got=$(try_it "$@" 2>"$folder/errors" </dev/null)
    status=$?
    [ "$status, $got" = "$wanted, $answer" ] || fail "trial $*: status $status, '$got'"
    ! grep -q -e '^run=' -e '^checked: ' "$folder/errors" || fail "trial $*: it shows the kit's lines: $(cat -- "$folder/errors")"
    [ -z "$(ls -A "$folder/tmp")" ] || fail "trial $*: a folder is left"
    [ -z "$(find "$folder"/tree/crates/*/out 2>/dev/null)" ] || fail "trial $*: it builds"
}

# tried_with WORDS: checks the crate and the arguments of the last trial.
tried_with() {
    [ "$(cat -- "$folder/words" 2>/dev/null)" = "$1" ] || fail "a trial calls '$(cat -- "$folder/words")'; wanted '$1'"
}

# The answer and the status are those of the program; paths are absolute.
forget
printf 'Route #1: 1 2\nCost 20\n' >"$folder/tried"
printf 'at 5 0 1 20\nchecked: ended status=1\n%s\n' "$ended" >"$folder/told"
for words in 'audit lilim a.txt a.sol' 'explain vrp a.txt a.sol routes' 'timetable lilim a.txt a.sol tabs' 'draw vrp a.txt a.sol 1'; do
    # shellcheck disable=SC2086 # several words
    answers 1 "$(cat -- "$folder/tried")" $words
    case $words in
        audit* | explain*) crate=auditor ;;
        *) crate=planner ;;
    esac
    tried_with "$crate: try --seconds 1800 -- $(printf '%s' "$words" | sed "s, \(a\.[a-z]*\), $folder/\1,g")"
    [ "$(grep -c 'not yet proved' "$folder/errors")" = 2 ] || fail "trial $words: it is not marked: $(cat -- "$folder/errors")"
    grep -qx 'at 5 0 1 20' "$folder/errors" || fail "trial $words: the program's standard error is lost"
done
answers 1 "$(cat -- "$folder/tried")" solve lilim "$folder/a.txt" 20000 7
tried_with "planner: try --seconds 1800 -- solve lilim $folder/a.txt 20000 7"

# The status is 3 if the answer cannot be written.
try_it audit lilim a.txt a.sol >/dev/full 2>/dev/null
status=$?
[ "$status" = 3 ] || fail "a trial that cannot print its answer: status $status"

# Standard input is passed to the program.
: >"$folder/reads"
got=$(echo aloud | try_it audit lilim a.txt - 2>/dev/null | head -n 1)
[ "$got" = aloud ] || fail "a trial reads '$got' from standard input"
tried_with "auditor: try --seconds 1800 -- audit lilim $folder/a.txt -"
rm -- "$folder/reads"

# A trial without an answer shows why. What it does not do, and a file that cannot be read, need no `rt`.
printf 'a part\nchecked: no-answer: more than 1 MiB\nrun=no-answer proved=no\n' >"$folder/told"
answers 3 '' solve lilim a.txt 5
[ "$(tail -n 1 "$folder/errors")" = 'trial: there is no answer: more than 1 MiB' ] || fail "a trial without an answer reports $(cat -- "$folder/errors")"
echo 'error: it does not compile' >"$folder/told"
answers 3 '' solve lilim a.txt 5
grep -qx 'error: it does not compile' "$folder/errors" || fail "a trial without an answer reports $(cat -- "$folder/errors")"
answers 3 'cannot read b.txt' audit lilim b.txt a.sol
answers 3 'cannot read .' draw lilim a.txt .
for words in '' 'audits lilim a.txt' 'solves lilim a.txt 5' 'timetable a.store' 'draw a.store 1' 'run a.store' 'audit -- lilim a.txt a.sol'; do
    # shellcheck disable=SC2086 # several words
    answers 64 '' $words
    grep -q '^trial: ' "$folder/errors" || fail "trial $words: it reports $(cat -- "$folder/errors")"
    [ ! -e "$folder/words" ] || fail "trial $words: it calls rt"
done
answers 64 '' audit lilim
answers 0 'planner 0.1.0' --version

# An interrupted trial ends immediately, as by the signal, and leaves no folder.
cat >"$folder/interrupt_trial.py" <<'END'
import os, pathlib, signal, subprocess, sys, time
number, is_sent_to_all, words = int(sys.argv[1]), sys.argv[2] == "all", pathlib.Path(sys.argv[3])
for ignored in signal.SIGINT, signal.SIGHUP:
    signal.signal(ignored, signal.SIG_DFL)
process = subprocess.Popen(sys.argv[4:], start_new_session=True)
while not words.exists():
    if process.poll() is not None:
        sys.exit("it ends before it begins")
    time.sleep(0.05)
begun = time.monotonic()
(os.killpg if is_sent_to_all else os.kill)(process.pid, number)
status = process.wait()
print(status == -number, time.monotonic() - begun < 1.5)
END
echo 2 >"$folder/slow"
for way in '2 all' '2 one' '15 one'; do
    rm -f -- "$folder/words"
    # shellcheck disable=SC2086 # two words
    got=$(cd -- "$folder" && FAKE="$folder" TMPDIR="$folder/tmp" PATH="$folder/bin:$PATH" \
        python3 interrupt_trial.py $way "$folder/words" tree/trial audit lilim a.txt a.sol 2>errors)
    [ "$got" = 'True True' ] || fail "signal $way: whether a trial ends by it, at once: $got"
    [ -z "$(ls -A "$folder/tmp")" ] || fail "signal $way: a trial leaves a folder"
done
rm -- "$folder/slow"

# ./install installs the program that is built, and the whole program if none is.
mkdir -p "$folder/tree/crates/auditor/out"
printf '#!/bin/sh\necho pass 0 1 20\n' >"$folder/tree/crates/auditor/out/auditor"
chmod 755 "$folder/tree/crates/auditor/out/auditor"
"$folder/tree/install" "$folder/prefix" >"$folder/output" || fail 'the auditor is not installed'
[ -x "$folder/prefix/bin/auditor" ] || fail 'install leaves the auditor out'
[ ! -e "$folder/prefix/bin/planner" ] || fail 'the auditor is installed as the whole program'
mkdir -p "$folder/tree/crates/planner/out"
cp -- "$folder/tree/crates/auditor/out/auditor" "$folder/tree/crates/planner/out/planner"
# A running program continues, and the new one has taken its place.
cp -- "$(command -v sleep)" "$folder/prefix/bin/planner"
"$folder/prefix/bin/planner" 30 &
"$folder/tree/install" "$folder/prefix" >"$folder/output" || fail 'the program is not installed'
kill "$!" || fail 'a program that runs is ended'
cmp -s -- "$folder/tree/crates/planner/out/planner" "$folder/prefix/bin/planner" || fail 'another program is installed'
cmp -s -- "$top/man/planner.1" "$folder/prefix/share/man/man1/planner.1" || fail 'another page is installed'
[ "$(ls -A "$folder/prefix/bin" | tr '\n' ' ')" = 'auditor day.sh planner ' ] || fail 'install leaves more than programs'

# ./clean leaves the programs.
forget
mkdir -p "$folder/tree/crates/planner/out" "$folder/tree/crates/auditor/out"
printf '#!/bin/sh\n' >"$folder/tree/crates/planner/out/planner"
: >"$folder/tree/crates/auditor/out/auditor"
mkdir -p "$folder/tree/crates/low/out/rlib"
: >"$folder/tree/crates/low/out/rlib/low"
: >"$folder/tree/crates/planner/out/planner.o"
"$folder/tree/clean"
left=$(cd -- "$folder/tree/crates" && find . -type f -path '*/out/*' | sort | tr '\n' ' ')
[ "$left" = './auditor/out/auditor ./planner/out/planner ' ] || fail "clean leaves '$left'"

[ ! -e "$folder/failed" ] || exit 1
echo 'first_answer: trials and programs answer as they should'
