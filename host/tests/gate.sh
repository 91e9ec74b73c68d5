#!/usr/bin/env bash
# The gate, .ci/run, in a tree of its own with a stand-in for rt and for the tests: it is green only where every part has reported that it is,
# and a signal ends all that it started.
set -u
cd "$(dirname "${BASH_SOURCE[0]}")/../.." || exit 2
. host/verdict.sh
room=$(mktemp -d) || exit 2
trap 'rm -rf "$room"' EXIT
tree=$room/tree

# Makes the tree anew, in which all is well: rt counts 5 cases, and each of six tests has two.
plant() {
    local test
    rm -rf "$tree"
    mkdir -p "$tree/.ci" "$tree/host/tests" "$tree/crates" "$tree/kit" "$tree/scratch" || exit 2
    cp .ci/run "$tree/.ci/" && cp host/{alone,command,state,take}.sh "$tree/host/" || exit 2
    says rt 'echo a crate is proved; echo 5 passed, 0 failed'
    for test in documents lines panel pictures rows speed; do
        says $test 'echo ok one; echo "ok another"'
    done
}

# Has the stand-in of the first word, rt or a test, do what the second says.
says() {
    if [ "$1" = rt ]; then
        printf '#!/usr/bin/env bash\n%s\n' "$2" >"$tree/kit/rt"
        chmod +x "$tree/kit/rt"
    else
        echo "$2" >"$tree/host/tests/$1.sh"
    fi
}

# Becomes the gate of the tree, with its stand-in for rt.
gate() { PATH=$tree/kit:$PATH TMPDIR=$tree/scratch ALONE_IN=${alone-} exec bash "$tree/.ci/run" >"$room/wrote" 2>"$room/said" </dev/null; }

# One case: the gate of the tree ends with the status of the second word, its last line is the third, and among the others stands the fourth
# where there is one; it leaves nothing behind.
ends() {
    local wrong='' ended
    (gate)
    ended=$?
    [ $ended -eq "$2" ] || wrong="status $ended"
    [ "$(tail -n 1 "$room/wrote")" = "$3" ] || wrong="$wrong last: $(tail -n 1 "$room/wrote")"
    [ $# -lt 4 ] || grep -qxF -- "$4" "$room/wrote" || wrong="$wrong no line: $4"
    [ -z "$(ls -A "$tree/scratch")" ] || wrong="$wrong left: $(ls -A "$tree/scratch")"
    verdict "$1" "$wrong"
}

plant
ends "all parts are well" 0 '17 passed, 0 failed'

says lines 'echo ok one; echo "left out: this: no such machine"; echo "  ok is no case here"'
ends "what was left out is said, and only cases are counted" 0 '16 passed, 0 failed' 'host/tests/lines.sh: left out: this: no such machine'

# ---- tests

# One case: with the test of the second word doing what the third says, and all else well, the gate counts as the fourth says, and says the
# fifth.
with_test() {
    plant
    says "$2" "$3"
    ends "$1" 1 "$4" "$5"
}
# shellcheck disable=SC2016
{
    with_test "failures are counted" lines 'echo "FAILED one: no"; echo ok two; echo "FAILED three: no"; exit 1' '16 passed, 2 failed' 'FAILED three: no'
    with_test "a failure is counted where the status says nothing of it" rows 'echo "FAILED one: no"; echo ok two' '16 passed, 1 failed' 'FAILED one: no'
    with_test "a status without a failure is one" lines 'echo ok one; exit 3' '16 passed, 1 failed' \
        'host/tests/lines.sh ended with status 3 and named no failure: counted as a failure'
    with_test "a test without a case is a failure" pictures : '15 passed, 1 failed' 'host/tests/pictures.sh tried no case: counted as a failure'
    with_test "a test that cannot be read by bash is a failure" panel 'if' '15 passed, 1 failed' 'host/tests/panel.sh tried no case: counted as a failure'
    with_test "a test that is killed is a failure" lines 'echo ok one; kill -KILL $$' '16 passed, 1 failed' \
        'host/tests/lines.sh ended with status 137 and named no failure: counted as a failure'
    with_test "a test that is killed with what waits for it is a failure" speed 'echo ok one; kill -KILL $PPID' '16 passed, 1 failed' \
        'host/tests/speed.sh left no status: counted as a failure'
    with_test "so is every test behind it, which did not run" panel 'echo ok one; kill -KILL $PPID' '14 passed, 2 failed' \
        'host/tests/lines.sh came to no count: counted as a failure'
    with_test "a test that is killed ahead is noticed" documents 'kill -KILL $PPID' '11 passed, 3 failed' \
        'host/tests/rows.sh came to no count: counted as a failure'
    with_test "a test whose output is taken away is a failure" lines 'rm "$TMPDIR/outputs/lines.sh"; echo ok one' '15 passed, 1 failed' \
        'host/tests/lines.sh came to no count: counted as a failure'
}
plant
rm "$tree/host/tests/speed.sh"
ends "a test that the gate names and that is not there is a failure" 1 '15 passed, 1 failed' 'host/tests/speed.sh tried no case: counted as a failure'

# ---- rt

# One case: with rt doing what the second word says, and all tests well, the gate counts as the third says, and says the fourth.
with_rt() {
    plant
    says rt "$2"
    ends "$1" 1 "$3" "$4"
}
with_rt "failures of rt are counted" 'echo 4 passed, 2 failed; exit 1' '16 passed, 2 failed' '4 passed, 2 failed'
with_rt "rt that comes to no count is a failure" 'echo 5 passed, 0 failed; echo and more' '12 passed, 1 failed' 'rt ci came to no count: counted as a failure'
with_rt "rt that had nothing to prove is a failure" 'echo 0 passed, 0 failed' '12 passed, 1 failed' 'rt ci tried no case: counted as a failure'
with_rt "rt that ends with a status is a failure" 'echo 5 passed, 0 failed; exit 4' '17 passed, 1 failed' \
    'rt ci ended with status 4 and named no failure: counted as a failure'
# shellcheck disable=SC2016
with_rt "rt that is killed is a failure" 'echo 5 passed, 0 failed; kill -KILL $$' '17 passed, 1 failed' \
    'rt ci ended with status 137 and named no failure: counted as a failure'
# shellcheck disable=SC2016
with_rt "rt that is killed with what waits for it is a failure" 'echo 5 passed, 0 failed; kill -KILL $PPID; sleep 0.2; kill -KILL $$' \
    '17 passed, 1 failed' 'rt ci left no status: counted as a failure'
ok='echo "rt: ok; handles allowed: none; must-fail edits: 7 refused, 2 bad; every proof and must-fail edit was done in this run"'
with_rt "must-fail edits that rt cannot try are failures" "$ok; echo 5 passed, 0 failed" '17 passed, 2 failed' \
    'rt ci has must-fail edits that are bad, and tried none of them: counted as failures, 2'
plant
says rt "${ok/, 2 bad/}; echo 5 passed, 0 failed"
ends "must-fail edits that are all refused are well" 0 '17 passed, 0 failed'
says rt '[ "$*" = ci ] && [ "$PWD" = "$(cd -P "$(dirname "$0")/.." && pwd)" ] || exit 3; echo 5 passed, 0 failed'
ends "rt is asked once, for all, at the root" 0 '17 passed, 0 failed'
plant
rm "$tree/kit/rt"
PATH=$(dirname "$(command -v bash)"):/usr/bin:/bin ends "a machine without rt is no pass" 1 '12 passed, 1 failed' 'rt ci came to no count: counted as a failure'

plant
says rt 'flock -n .alone true && exit 3; echo 5 passed, 0 failed'
ends "rt runs alone in the tree" 0 '17 passed, 0 failed'

plant
: >"$room/wanted"
alone=$tree
(gate)
judge "a gate that would wait for itself is refused" $? 2 "the gate asks for rt itself, as by host/alone.sh, and would wait for itself"
alone=''

# Cases: of a crate x with a program, which rt ci builds and, by the first word, does something else to, the program is taken, or is not by the
# second.
while IFS='|' read -r more kept; do
    plant
    mkdir -p "$tree/crates/x/src" && echo 'fn main() {}' >"$tree/crates/x/src/main.rt" && echo 'x:' >"$tree/crates.txt" && echo 'a kit' >"$tree/KIT-ID"
    says rt "mkdir -p crates/x/out; echo built >crates/x/out/x; chmod +x crates/x/out/x; $more"
    (gate)
    verdict "what rt ci has built is${kept:+ not} taken: $more" "$([ "$(cat "$tree/target/bin/x" 2>&1)${kept:-built}" = "builtbuilt" ] ||
        { [ -n "$kept" ] && [ ! -e "$tree/target" ]; } || ls -R "$tree/target" 2>&1 | paste -s -d ' ')"
done <<'BUILT'
echo 5 passed, 0 failed|
echo // more >>crates/x/src/main.rt; echo 5 passed, 0 failed|not
echo 4 passed, 1 failed; exit 1|not
BUILT

# ---- a signal

# Whether one of the processes that the stand-ins have noted runs still.
running() {
    local process
    for process in $(cat "$tree"/pids/* 2>/dev/null); do
        ! grep -qs '^State:[[:space:]]*[A-Ya-z]' "/proc/$process/status" || return 0
    done
    return 1
}

# Waits for a process of this test, for half a minute at most, and leaves its status in `ended`; ends it where it has not ended.
wait_for() {
    local count=0
    while grep -qs '^State:[[:space:]]*[A-Ya-z]' "/proc/$1/status" && [ $((count += 1)) -le 300 ]; do sleep 0.1; done
    [ $count -le 300 ] || kill -KILL "$1"
    wait "$1" 2>/dev/null
    ended=$?
}

# One case: the signals of the third word and those behind, one soon after the other, end the gate by the first of them, with the status of the
# second word, and all that it started: rt, what rt has started in a group of its own, a test, and what a process has started that is gone.
signalled() {
    local name=$1 wrong='' process count=0 signal long
    plant
    mkdir "$tree/pids"
    # shellcheck disable=SC2016
    long='echo $$ >"pids/$1-$$"; trap "" HUP; timeout 60 bash -c "echo \$\$ >pids/\$\$; sleep 60; :" & bash -c "sleep 62 & echo \$! >pids/orphan-$1"; sleep 61; :'
    says rt "set -- rt; $long"
    says documents "set -- documents; $long"
    gate &
    process=$!
    until [ "$(find "$tree/pids" -type f | wc -l)" -ge 6 ] || [ $((count += 1)) -gt 100 ]; do sleep 0.1; done
    running || wrong='nothing was started'
    for signal in "${@:3}"; do
        kill -s "$signal" $process 2>/dev/null
        sleep 0.02
    done
    wait_for $process
    [ $ended -eq "$2" ] || wrong="$wrong status $ended"
    ! running || wrong="$wrong something still runs"
    [ "$(cat "$room/said")" = "the gate was ended by a signal, $3: nothing is said of what passed" ] || wrong="$wrong said: $(head -n 1 "$room/said")"
    ! grep -q 'passed' "$room/wrote" || wrong="$wrong it counts"
    [ -z "$(ls -A "$tree/scratch")" ] || wrong="$wrong left: $(ls -A "$tree/scratch")"
    verdict "$name" "$wrong"
}
signalled "TERM ends the gate, and all that it started" 143 TERM
# Whoever had this test started with HUP ignored has the gate ignore it too. Of a hangup bash tells itself.
[ -n "$(trap -p HUP)" ] || signalled "HUP ends the gate, and all that it started" 129 HUP 2>/dev/null
signalled "a second signal changes nothing" 143 TERM TERM HUP

exit $status
