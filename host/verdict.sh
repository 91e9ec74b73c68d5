# shellcheck shell=bash
# For the tests of host/tests/, which read this file: how a case is told.
# Each case prints one line, 'ok NAME' or 'FAILED NAME: what is wrong'; `exit $status` at a test's end is not 0 where one failed.
status=0

# One case: it passes where its second word, what was found wrong, is empty.
verdict() {
    if [ -z "$2" ]; then
        echo "ok $1"
    else
        echo "FAILED $1:" "$2"
        status=1
    fi
}

# Says what of a test this machine cannot try, and why; .ci/run says it again ahead of its count.
left_out() { echo "left out: $1: $2"; }

# One case of a test with a folder $room: a run that ended with the status of the second word was to end with that of the third (0 where
# there is none), to write, which is in $room/wrote, just what $room/wanted has, and to say on standard error, which is in $room/said, just
# the fourth word (nothing where there is none).
judge() {
    local wrong=''
    [ "$2" -eq "${3-0}" ] || wrong="status $2"
    cmp -s "$room/wrote" "$room/wanted" || wrong="$wrong $(cmp "$room/wrote" "$room/wanted" 2>&1 | sed "s|$room/||g")"
    [ "$(cat "$room/said")" = "${4-}" ] || wrong="$wrong said: $(head -n 1 "$room/said")"
    verdict "$1" "$wrong"
}

# One case: a refusal, the run that ended with the status of the second word: it was to end with 2, to write nothing, and to say just the
# third word.
judge_refusal() {
    : >"$room/wanted"
    judge "$1" "$2" 2 "$3"
}

# One case of a test with a folder $room: cargo, given the words from the third on, finds as many unit tests in the independent
# implementation as the second word says, and all of them pass. The variable `profile` names another profile than that of a release, the
# variable `archives` another setting of where archives are.
unit_tests() {
    local name=$1 tests=$2 wrong='' ended passed
    shift 2
    env -u CARGO_BUILD_TARGET "${archives:-STATICLIB=$(pwd -P)/target/archives}" cargo test --profile "${profile:-release}" --offline \
        --locked --manifest-path host/independent/Cargo.toml --target-dir target/independent "$@" >"$room/wrote" 2>"$room/said" </dev/null
    ended=$?
    passed=$(awk '/^test result: ok/ { passed += $4 } END { print passed + 0 }' "$room/wrote")
    [ $ended -eq 0 ] || wrong="status $ended $(cat "$room/wrote" "$room/said" | grep -m 1 -e '^test .* FAILED' -e '^error')"
    [ "$passed" -gt 0 ] && [ "$passed" -eq "$tests" ] || wrong="$wrong $passed of $tests tests passed"
    verdict "$name" "$wrong"
}
