#!/usr/bin/env bash
# docs/ROWS.md: its tables of the rows are what host/rows.sh draws from the definitions, and it draws nothing that it cannot read; and each
# name of the page leads to the file that has it.
set -u
cd "$(dirname "${BASH_SOURCE[0]}")/../.." || exit 2
. host/verdict.sh
room=$(mktemp -d) || exit 2
trap 'rm -rf "$room"' EXIT

page=docs/ROWS.md
private=crates/private_rows/specs
group=crates/group_rows/specs
private_effects=crates/private_call/specs/Effects.antt
group_effects=crates/group_call/specs/Effects.antt
private_carried=crates/private_call/specs/Carried.antt
definitions="$(echo crates/{private,group}_rows/specs/{Causes,Asking,Rows}.antt crates/{private,group}_call/specs/{Effects,Carried,Step}.antt)
    $(echo crates/private_record/specs/{Phases,Formed}.antt) crates/group_record/specs/States.antt
    $(echo crates/frame/specs/{Media,Frame}.antt crates/call/specs/{Timing,Meeting,Request,Settings,Announced}.antt)"
command=host/rows.sh
planted="$definitions $page $(echo host/rows/* host/pictures/*.awk)"
. host/planted.sh

# Prints the line of a row in the drawn tables of a page.
line_of() { awk '/^<!-- drawn by/ { drawn = 1 } /^<!-- end of/ { drawn = 0 } drawn' "$1" | grep "^| $2 | "; }

# ---- the tables that are kept

: >"$room/wanted"
bash host/rows.sh --check >"$room/wrote" 2>"$room/said" </dev/null
judge "the tables are up to date" $?

plant
sed '/^<!-- drawn by/,/^<!-- end of/{/^|/d}' $page >"$room/tree/$page"
run
judge "both are drawn where there are none" $?
verdict "they are drawn the same each time" "$(cmp "$page" "$room/tree/$page" 2>&1)"

wrong=''
for row in R{1..29} G{1..11}; do
    [ "$(line_of $page "$row" | wc -l)" -eq 1 ] && [ "$(grep -c "^| $row | " $page)" -ge 2 ] || wrong="$wrong $row"
done
verdict "each row has one line in a drawn table, and a line in words" "$wrong"

# ---- a definition that changed

# Two cases: the change of a file, by sed, is noticed by --check, which leaves the page alone; drawn anew, the row of the fourth word has the
# fifth in its line, and nothing else of the page is another.
notices() {
    local ended wrong=''
    plant
    change "$2" "$3"
    run --check
    ended=$?
    echo "rows: not up to date: $page" >"$room/wanted"
    judge "noticed: $1" $ended 1
    cmp -s $page "$room/tree/$page" || wrong="the page is changed by --check"
    run
    line_of "$room/tree/$page" "$4" | grep -qF -- "$5" || wrong="$wrong $(line_of "$room/tree/$page" "$4")"
    wrong="$wrong$(diff $page "$room/tree/$page" | grep '^[<>]' | grep -v "^[<>] | $4 | ")"
    verdict "drawn: $1" "$wrong"
}
notices "a row that enters another state" $private_effects '/^effect_of (Some R20) /s/State.P5 tfp4/State.P4 tfp5/' R20 \
    '| *TFP7* in P1 | TFP5 | - | - | all fields of the message | 03 ACCEPT | P4 |'
notices "a row that leaves its state, and so stops what runs" $private_effects \
    '/^effect_of (Some R29) /s/stays state Hold.Keep/enters State.P3 tfp3 Hold.Keep/' R29 '| *TFP5* | TFP3 | - | CFP3 1 | - | 07 ACCEPT ACK | P3 |'
notices "a counter that is not raised" $private_effects '/^effect_of (Some R2) /s/repeats state tfp1/turns state no_timer tfp1/' R2 '| CFP1 1 |'
notices "a timer that is not stopped" $group_effects '/^effect_of (Some G11) /s/restarts state tfg2 Hold.LaterChange/starts state tfg2 None/' G11 \
    '| - | TFG2 anew | TFG6 | - | - | stays in S3 |'
notices "a message with another reason" $private_effects '/^effect_of (Some R26) /s/Reason.Failed/Reason.Reject/' R26 '| 04 REJECT, REJECT/F | P1 |'
notices "a message that does not hang on confirm" $group_effects '/^effect_of (Some G4) /s/(confirms confirm)/(Some Say.Accept)/' G4 '| 09 GROUP ACCEPT with own as sender | S3 |'
notices "a row that is met in one state less" $private/Rows.antt \
    's/(R13, (in_state 3 f || (in_state 4 f || in_state 5 f))/(R13, (in_state 4 f || in_state 5 f)/' R13 \
    '| P4, P5 | 05 RELEASE same | *TFP5* in P4, *TFP2* or *TFP4* in P5 | *TFP7* | - | *CFP4 0* in P5 |'
notices "a verdict that is not asked for" $private/Rows.antt '/(R5, /s/ && x.media_verdict//; /(R5, /s/ (same/ same/; /(R5, /s/x))$/x)/' R5 \
    '| 03 ACCEPT same | *TFP1* or *TFP2* |'
notices "a timer that need not run" $private/Rows.antt \
    '/(R25, /s/(runs PrivateTimer.Tfp2 f \&\& same_cause c Cause.UserRejects))/same_cause c Cause.UserRejects)/' R25 \
    '| user rejects | *TFP2* or *TFP4* | *TFP7* | - | *CFP4 0* |'

plant
sed '/^| R20 | P0, P1 /s/CFP4 1/CFP4 2/' $page >"$room/tree/$page"
run --check
ended=$?
echo "rows: not up to date: $page" >"$room/wanted"
judge "noticed: a table that was changed by hand" $ended 1

# ---- what it cannot read

# One case: after the change of a file, by sed, nothing is drawn, and just the fourth word is said.
refuses() {
    plant
    change "$2" "$3"
    run
    judge_refusal "refused: $1" $? "rows: $4"
    [ "$2" = $page ] || cmp -s $page "$room/tree/$page" || verdict "nothing is written where a definition cannot be read" "it is"
}
refuses "a verb that is not defined" $private_effects '/^effect_of (Some R8) /s/enters/jumps/' \
    "$private_effects: R8: cannot read 'jumps State.P3 tfp3 Hold.Keep Say.Release'"
refuses "timers that do not run in the state entered" $private_effects '/^effect_of (Some R20) /s/tfp4/tfp5/' \
    "$private_effects: R20: leads to P5 with timers that do not run there: 'TFP5'"
refuses "a row that does nothing known" $group_effects '/^effect_of (Some G8) /d' \
    "$group_effects: G8: effect_of has no clause for it, but it is in rows_ask of $group/Rows.antt"
refuses "a fact without a word" $private/Rows.antt '/(R5, /s/media_verdict/media/' \
    "$private/Rows.antt: R5: host/rows/private-call.words has no word for the fact media"
refuses "a message without a word" $group_effects '/^effect_of (Some G6) /s/None$/(Some Say.Probe)/' \
    "$group_effects: G6: host/rows/group-call.words has no word for the say Probe"
refuses "a row that is not met by the same events in each of its states" $group/Rows.antt \
    '/(G7, /s/(G7, .*)$/(G7, (in_state 4 f \&\& same_cause c Cause.UserRejects) || (in_state 5 f \&\& expires GroupTimer.Tfg4 f c))/' \
    "$group/Rows.antt: G7: cannot say it in one line, since it is not met by the same events in each of its states"
refuses "a plain word that means something else" $private/Causes.antt '/^same_cause /s/cause_number d/cause_number c/' \
    "$private/Causes.antt: same_cause: cannot read it, since it is defined in another way"
refuses "another rule of what runs afterwards" crates/call/specs/Timing.antt '/^runs_after /s/ && not x.ran_out//' \
    "host/rows/both.rules: no definition reads 'runs_after x = x.started || ( x.was_running && ( not ( is_stopped x ) && not x.ran_out ) )'"
refuses "a counter that goes with another timer" $private_carried 's/= running.tfp4;/= running.tfp3;/' \
    "$private_carried: counters_after: cannot read 'cfp4 = counter_after ( record { runs = running.tfp3 ; started = started.tfp4 ; again = again ; limit = limits.cfp4 ; was = counters.cfp4 } )'"
refuses "a store that means something else" crates/group_call/specs/Carried.antt '/^held_of Hold.Announced /s/= brought/= stored/' \
    "host/rows/group-call.rules: no definition reads 'held_of Hold.Announced stored brought = brought'"
refuses "a clause that is not quoted" $private_carried '/^held_of Hold.Keep /i held_of hold stored r media = stored' \
    "host/rows/private-call.rules: held_of: is not quoted whole"
refuses "two causes with one number" $group/Causes.antt '/^cause_number Cause.UserLeaves /s/3/2/' "$group/Causes.antt: cause_number: gives 2 twice"
refuses "a row with another's number" $private/Rows.antt '/^row_number (Some R1) /s/1$/9/' "$private/Rows.antt: row_number: gives 9 to R1"
refuses "a set that has another timer than its name says" crates/group_record/specs/States.antt '/^tfg6 /s/true/false/' \
    "crates/group_record/specs/States.antt: tfg6: has not this timer alone"
refuses "a page without a place for a table" $page '/^<!-- drawn by host\/rows.sh: group/d' \
    "$page: the lines between which the tables stand are not there, or not in their order"

# ---- every definition on which a table relies

# Cases: each clause, changed by sed in its file, is noticed by --check. Told, a line each: the name of the definition, the file below crates/
# with its folder specs/ left out, and the change.
plant
while read -r name file by; do
    file=crates/${file%/*}/specs/${file#*/}.antt
    change "$file" "$by"
    run --check
    ended=$?
    cp "$file" "$room/tree/$file"
    verdict "noticed: another $name of $file" "$([ $ended -ne 0 ] || echo "it is not")"
done <<'CHANGES'
stopped_of call/Timing /^stopped_of /s/is_stopped/runs_after/
running_after call/Timing /^running_after /s/runs_after/is_stopped/
timer_facts call/Timing s/stop_asked = has x.stop_asked t/stop_asked = has x.ran_out t/
started_of private_call/Carried s/tfp5 = start.tfp5;/tfp5 = start.tfp4;/
started_of private_call/Carried s/^started_of state to start/started_of to state start/
started_by private_call/Carried /^started_by /s/x.to/state/
counters_after private_call/Carried s/^counters_after running started/counters_after started running/
timer_out private_call/Carried /^timer_out (Timer.Group t)/s/no_timer/tfp1/
with_media private_call/Carried s/record { parties = stored.parties; commencement = stored.commencement; media = media;/record { parties = stored.parties; commencement = stored.commencement; media = stored.media;/
carry_out private_call/Carried s/(request_of s i.event) i.media/(request_of s i.event) p.call.media/
message_cause private_rows/Causes /^message_cause own (Ringing p)/s/RingingHeard/AcceptHeard/
private_action_cause private_rows/Causes /^private_action_cause PrivateAction.End /s/UserEnds/UserRejects/
action_cause private_rows/Causes /^action_cause (Action.Group a)/s/Other/UserStarts/
private_timer_cause private_rows/Causes /^private_timer_cause PrivateTimer.Tfp1 /s/Tfp1Expires/Tfp2Expires/
timer_cause private_rows/Causes /^timer_cause (Timer.Group t)/s/Other/Tfp1Expires/
cause_of private_rows/Causes /^cause_of s (Event.Message m)/s/own_user/own_group/
same_of private_rows/Causes /^same_of (Event.Action a)/s/false/true/
cause_number private_rows/Causes /^cause_number Cause.Other /s/17/0/
row_in private_rows/Rows /^row_in /s/first_met .*/None/
row_of private_rows/Rows /^row_of /s/p.counters/s.limits/
phase_of private_record/Phases /^phase_of /s/p.running/no_timer/
has private_record/Phases /^has w PrivateTimer.Tfp7 /s/tfp7/tfp5/
no_call private_record/Formed /^no_call /s/commencement = 0/commencement = 1/
first_met call/Meeting /^first_met (row/s/row.1 (Some row.0) (first_met rows)/row.1 (first_met rows) (Some row.0)/
restricted call/Settings /^restricted /s/restrict$/acknowledgement/
private_request call/Request s/commencement = commencement; call_type = private_type/commencement = 0; call_type = private_type/
timer_facts call/Timing s/started = has x.started t/started = has x.stop_asked t/
carry_out group_call/Carried s/(announced_of s i.event).confirm 1/(announced_of s i.event).confirm 0/
message_cause group_rows/Causes /^message_cause own (GroupAccept a)/s/Other/AnnouncementHeard/
group_action_cause group_rows/Causes /^group_action_cause GroupAction.Leave /s/UserLeaves/UserRejects/
action_cause group_rows/Causes /^action_cause (Action.Private a)/s/Other/UserStarts/
group_timer_cause group_rows/Causes /^group_timer_cause GroupTimer.Tfg2 /s/Tfg2Expires/Tfg6Expires/
timer_cause group_rows/Causes /^timer_cause (Timer.Private t)/s/Other/Tfg2Expires/
cause_of group_rows/Causes /^cause_of s (Event.Message m)/s/own_group/own_user/
row_in group_rows/Rows /^row_in /s/first_met .*/None/
row_of group_rows/Rows /^row_of /s/(announced_of s e).call/g.call/
group_action_announced call/Announced /^group_action_announced s (GroupAction.Start x)/s/confirm = x.confirm/confirm = 0/
CHANGES

# ---- how it is called

# One case: these words are no way to call it.
misused() {
    local name=$1
    shift
    run "$@"
    judge_refusal "$name" $? "rows: usage: host/rows.sh [--check]"
}
plant
misused "another word is named" --chek
misused "two words are one too many" --check --check

# ---- the names of the page

# Prints what a page has between backquotes and not as a link, but for what can be no name: with a blank in it, or with `!` ahead.
unlinked() { sed 's/\[`[^`]*`\]([^)]*)//g' "$1" | grep -o '`[^`]*`' | tr -d '`' | grep -vE ' |^!' | sort -u; }

# Prints LABEL FILE for each link of a page whose label is in backquotes, the file as it is called from the root of the tree.
linked() { grep -o '\[`[^`]*`\]([^)]*)' "$1" | sed 's|^\[`\(.*\)`\](\.\./\(.*\))$|\1 \2|' | sort -u; }

# Whether a file has what a label names: an edit or a file is named by its own place, and anything else is defined or declared in the file.
has_name() {
    if [[ $2 == *.edit ]]; then
        [ "$2" = "crates/${1%/*}/must-fail/${1#*/}.edit" ] && [ -f "$2" ]
    elif [[ $1 == */* ]]; then
        [ "${1%/}" = "$2" ] && [ -e "$2" ]
    elif [[ $2 == *.antt ]]; then
        grep -qE "^ *(abbrev |unfoldable )?pub ($1 :|(record|data) $1( |$))" "$2"
    elif [[ $2 == *.rt ]]; then
        grep -qE "^ *(pub(\(crate\))? )?(extern \"C\" )?(fn|const|static|struct|enum) $1\b" "$2" ||
            { [[ $1 == [A-Z]* ]] && grep -qE "^    $1(\(.*\))?,$" "$2"; }
    else
        grep -qF "$1() {" "$2"
    fi
}

# Says which names of a page are no links, and which links lead to a file that lacks the name; nothing where all is well.
names_wrong() {
    local name file
    unlinked "$1"
    while read -r name file; do
        has_name "$name" "$file" || echo "$name:$file"
    done < <(linked "$1")
}
verdict "every name of $page leads to the file that has it" "$(names_wrong $page)"

# One case: after a change of the page, by sed, just the third word is found wrong.
astray() {
    local found
    sed "$2" $page >"$room/page"
    found=$(names_wrong "$room/page")
    verdict "found: $1" "$([ "$found" = "$3" ] || echo "'$found' and not '$3'")"
}
astray "a name that is no link" 's/\[`is_later`\]([^)]*)/`is_later`/' is_later
astray "a definition of another file" 's|`is_stopped`\](../crates/call/specs/Timing|`is_stopped`](../crates/call/specs/Meeting|' \
    is_stopped:crates/call/specs/Meeting.antt
astray "a function that is only called there" 's|\[`row_of`\](../crates/private_rows/src/lib.rt)|[`row_of`](../crates/private_call/src/lib.rt)|' \
    row_of:crates/private_call/src/lib.rt
astray "an edit of another crate" 's|(../crates/private_rows/must-fail/r13_missing|(../crates/private_call/must-fail/r13_missing|' \
    private_rows/r13_missing_in_p3:crates/private_call/must-fail/r13_missing_in_p3.edit

exit $status
