#!/usr/bin/env bash
# host/wrong.sh: a wrong program is built and differs as host/wrong.txt says, and what is not so is noticed.
set -u
cd "$(dirname "${BASH_SOURCE[0]}")/../.." || exit 2
. host/verdict.sh
room=$(mktemp -d) || exit 2
trap 'rm -rf "$room"' EXIT

# Nothing is run twice.
export WRONG_KEPT=$room/kept

# Runs the command of a tree with the words behind it.
run() {
    local tree=$1
    shift
    bash "$tree/host/wrong.sh" "$@" >"$room/wrote" 2>"$room/said" </dev/null
}

if [ "$(uname -m)" != x86_64 ]; then
    run . frame/reason_5_taken
    judge_refusal "another machine is refused" $? "wrong: what is not proved can be run on x86-64 alone"
    left_out "host/wrong.sh" "what is not proved can be run on x86-64 alone"
    exit $status
fi

run . call/none
judge_refusal "an edit without an input is refused" $? "wrong: host/wrong.txt has no input for call/none"

run . --promised
ended=$?
all=$(($(grep -vc '^#' host/wrong.txt) / 2))
echo "the right program tells what is promised on $all of $all inputs" >"$room/wanted"
judge "the right program tells what is promised, on every input" $ended

run . --promised frame/reason_5_taken
judge_refusal "with --promised nothing is named" $? "wrong: --promised takes no further word"

run . call/what_ran_out_runs_on frame/reason_5_taken
ended=$?
cat >"$room/wanted" <<'WANTED'
frame/reason_5_taken: 0 promised, 1 told
call/what_ran_out_runs_on: running=TFP7 promised, running=TFP1,TFP7 told
WANTED
judge "a wrong program is run by a body of its own, and by a script" $ended

# In a tree of its own: another promise, another tale, and an edit that does no longer fit.
mkdir -p "$room/tree/host" && cp host/{wrong,command}.sh host/wrong.txt "$room/tree/host/" && cp -R --parents crates.txt crates/*/src crates/*/must-fail "$room/tree/" || exit 2
for change in 's/^\(frame\/reason_5_taken\): 0 promised/\1: 2 promised/' 's/^\(frame\/reason_5_taken: .*\) 1 told/\1 2 told/'; do
    sed "$change" host/wrong.txt >"$room/tree/host/wrong.txt"
    run "$room/tree" frame/reason_5_taken
    ended=$?
    wrong=''
    [ $ended -eq 1 ] || wrong="status $ended"
    grep -q '^frame/reason_5_taken: NOT SO: ' "$room/wrote" || wrong="$wrong $(head -n 1 "$room/wrote")"
    verdict "noticed: $change" "$wrong"
done

# Another promise, of a body and of a script, is noticed where the right program runs alone.
sed -E 's,^((frame/reason_5_taken|call/what_ran_out_runs_on):) [^ ]*,\1 other,' host/wrong.txt >"$room/tree/host/wrong.txt"
run "$room/tree" --promised
ended=$?
wrong=''
[ $ended -eq 1 ] || wrong="status $ended"
[ "$(grep -c ': NOT SO: other promised on ' "$room/wrote")" -eq 2 ] || wrong="$wrong $(head -n 2 "$room/wrote")"
[ "$(tail -n 1 "$room/wrote")" = "the right program tells what is promised on $((all - 2)) of $all inputs" ] || wrong="$wrong $(tail -n 1 "$room/wrote")"
verdict "noticed by the right program alone: two promises that are others" "$wrong"

# Cases: a wrong program that tells what it was to tell, and on a second input does what the second word says, is noticed by how it ended, the
# first word.
while read -r how more; do
    { grep -A 1 '^frame/reason_5_taken: ' host/wrong.txt && grep -A 1 '^frame/reason_5_taken: ' host/wrong.txt | sed "s/{ 1 } else { 0 }\$/{ $more } else { 0 }/"; } \
        >"$room/tree/host/wrong.txt"
    WRONG_WAIT=2 run "$room/tree" frame/reason_5_taken
    ended=$?
    wrong=''
    [ $ended -eq 1 ] || wrong="status $ended $(cat "$room/said")"
    [ "$(sed -n '1,/^and the wrong one$/d; /^ended=/!{p;d}; p;q' "$room/wrote" | paste -s -d ' ')" = "1 ended=$how" ] || wrong="$wrong $(cat "$room/wrote" | paste -s -d ' ')"
    verdict "noticed: a wrong program whose end is: $how" "$wrong"
done <<'ENDS'
never let mut i = 0u64; while i < 10 { i = (i + 1) % 5; } i
died let text = [0u8; 4]; let mut far = 0; while far < 1_000 { far += 1; } text[far] as u64
ENDS
cp host/wrong.txt "$room/tree/host/wrong.txt"
sed -i 's/^old: .*/old: reason <= 7/' "$room/tree/crates/frame/must-fail/reason_5_taken.edit"
run "$room/tree" frame/reason_5_taken
judge_refusal "an edit that does not fit its file is refused" $? "wrong: the edit frame/reason_5_taken does not fit its file"

exit $status
