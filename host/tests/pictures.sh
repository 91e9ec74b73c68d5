#!/usr/bin/env bash
# The pictures of both machines: they are what host/pictures.sh draws from the tables of the rows, and it draws nothing that it cannot read.
# Their words, and docs/MACHINES.md, say what the definitions mean.
set -u
cd "$(dirname "${BASH_SOURCE[0]}")/../.." || exit 2
. host/verdict.sh
room=$(mktemp -d) || exit 2
trap 'rm -rf "$room"' EXIT

private_rows=crates/private_rows/specs/Rows.antt
private_asking=crates/private_rows/specs/Asking.antt
private_effects=crates/private_call/specs/Effects.antt
private_phases=crates/private_record/specs/Phases.antt
private_causes=crates/private_rows/specs/Causes.antt
private_carried=crates/private_call/specs/Carried.antt
group_rows=crates/group_rows/specs/Rows.antt
group_effects=crates/group_call/specs/Effects.antt
tables="$(echo crates/{private,group}_rows/specs/{Causes,Asking,Rows}.antt crates/{private,group}_call/specs/{Effects,Carried}.antt)
    $private_phases crates/group_record/specs/States.antt"
named="$(echo crates/{private,group}_record/{src/states.rt,specs/Formed.antt} crates/call/specs/{Request,Settings}.antt crates/frame/specs/{Range,Frame}.antt)"
page=docs/MACHINES.md
pictures="docs/private-call.svg docs/group-call.svg"
command=host/pictures.sh
planted="$tables $named $page $pictures $(echo host/pictures/* host/rows/*.words)"
. host/planted.sh

# Whether the pictures of $room/tree are those that are kept here, in words where they are not.
untouched() {
    local file
    for file in $pictures; do
        cmp -s "$file" "$room/tree/$file" || echo "$file changed"
    done
}

# Says what is wrong with the tags of a file: each that is opened must be closed, in order, and no other; nothing where all is well.
tags_wrong() {
    awk '
        { text = text $0 "\n" }
        END {
            while (match(text, /<[^>]*>/)) {
                tag = substr(text, RSTART + 1, RLENGTH - 2)
                text = substr(text, RSTART + RLENGTH)
                if (tag ~ /^!--/ || tag ~ /\/$/) continue
                split(tag, word, /[ \n]/)
                if (tag !~ /^\//) open[++depth] = word[1]
                else if (depth < 1 || open[depth--] != substr(word[1], 2)) { print "closed too early: " tag; exit }
            }
            if (depth) print "never closed: " open[depth]
            if (text ~ /[<>]/) print "a bracket stands alone"
        }' "$1"
}

# The rows of a table of what they ask, by their names.
rows_in() { grep -o '([RG][0-9]*, ' "$1" | tr -d '(, '; }

# ---- the pictures that are kept

: >"$room/wanted"
wrong=$(bash host/pictures.sh --check 2>&1 </dev/null || echo "status $?")
verdict "the pictures are up to date, in words that their definitions have, and $page says the same" "$wrong"
# All cases behind this one change what is right.
[ $status -eq 0 ] || exit $status

plant
rm "$room/tree/docs/"*.svg
run
judge "both are drawn where there are none" $?
verdict "they are drawn the same each time" "$(untouched)"

wrong=''
for file in $pictures; do
    wrong="$wrong$(tags_wrong "$file")"
    [ "$(grep -c '<title' "$file")$(grep -c '<desc' "$file")" = 11 ] || wrong="$wrong no title or no words in $file"
    ! command -v xmllint >/dev/null || wrong="$wrong$(xmllint --noout "$file" 2>&1 | head -n 1)"
done
verdict "they are well-formed, with a title and words" "$wrong"

# One case: a picture has each row of a table, and there are so many of them.
has_rows() {
    local row wrong=''
    for row in $(rows_in "$2"); do
        grep -q ">$row</text>" "$1" || wrong="$wrong $row"
    done
    [ "$(rows_in "$2" | wc -l)" -eq "$3" ] || wrong="$wrong the table has $(rows_in "$2" | wc -l) rows"
    verdict "$1 has every row" "$wrong"
}
has_rows docs/private-call.svg $private_rows 29
has_rows docs/group-call.svg $group_rows 11

wrong=''
for file in $pictures; do
    grep -q "!\[.*\](${file#docs/})" $page || wrong="$wrong $file"
done
verdict "$page shows both" "$wrong"

# ---- a table that changed

# One case: the change of a file, by sed, is noticed by --check, which says just the words from the fourth on, each in a line, and leaves the
# pictures alone.
notices() {
    plant
    change "$2" "$3"
    run --check
    local ended=$?
    printf 'pictures: %s\n' "${@:4}" >"$room/wanted"
    judge "noticed: $1" $ended 1
    [ -z "$(untouched)" ] || verdict "nothing is written with --check" "$(untouched)"
}
notices "a row that enters another state" $private_effects '/^effect_of (Some R8) /s/State.P3 tfp3/State.P1 no_timer/' "not up to date: docs/private-call.svg"
notices "a row that sends something else" $private_effects '/^effect_of (Some R26) /s/Reason.Failed/Reason.Reject/' "not up to date: docs/private-call.svg"
notices "a row that is met in one state less" $private_rows \
    's/(R13, (in_state 3 f || (in_state 4 f || in_state 5 f))/(R13, (in_state 4 f || in_state 5 f)/' "not up to date: docs/private-call.svg"
notices "a verb that does something else" $group_effects '/^restarts /s/stop = timers/stop = no_timer/' \
    "not up to date: docs/group-call.svg" "$page: it tells what 'restarts' is, which no picture has"
notices "a condition that several rows share" $private_asking '/^new_request /s/Cause.SetupHeard/Cause.RingingHeard/' "not up to date: docs/private-call.svg"
notices "another timer in a state" crates/group_record/specs/States.antt \
    '/^tfg4 = /s/tfg4 = true; tfg6 = false/tfg4 = false; tfg6 = true/' "not up to date: docs/group-call.svg" \
    "$page: TFG4: runs in , not in S4, S5" "$page: TFG4: what is waited for is the end of , not the user who is asked" \
    "$page: TFG6: runs in S3, S4, S5, not in S3" "$page: TFG6: what is waited for is the user who , not the end of the longest group call allowed"

plant
echo "<svg/>" >"$room/tree/docs/private-call.svg"
rm "$room/tree/docs/group-call.svg"
run --check
ended=$?
echo "pictures: not up to date: $pictures" >"$room/wanted"
judge "noticed: a picture that was changed by hand, and one that is missing" $ended 1

# ---- what docs/MACHINES.md says

notices "a timer that the page leaves out" $page '/^| TFP7 |/d' \
    "$page: its timers are TFP1 TFP2 TFP3 TFP4 TFP5 TFG2 TFG4 TFG6, not TFP1 TFP2 TFP3 TFP4 TFP5 TFP7 TFG2 TFG4 TFG6"
notices "a timer in another state" $page 's/^| TFG4 | S4, S5 /| TFG4 | S4 /' "$page: TFG4: runs in S4, S5, not in S4"
notices "a reply that another timer waits for" $page 's/| RELEASE ACK |/| ACCEPT ACK |/' "$page: TFP3: what is waited for is RELEASE ACK, not ACCEPT ACK"
notices "a message that does not start the timer" $page 's/since RINGING was/since RELEASE was/' "$page: TFP2: has nothing to do with RELEASE"
notices "a state by another name" $page 's/^| P3 releasing /| P3 ending /' "$page: it has the state 'P3 ending' for 'P3 releasing'"
notices "a word that is not told, and one that no picture has" $page 's/^| restarts /| resumes /' \
    "$page: it does not tell what 'restarts' is, as in G11" "$page: it tells what 'resumes' is, which no picture has"
notices "a word in the place of its opposite" $page 's/^| known, new /| new, known /' "$page: it does not tell 'known, new' side by side"
notices "counters that count something else" $page 's/RELEASE and ACCEPT went/ACCEPT and RELEASE went/' \
    "$page: it does not say 'CFP1, CFP3 and CFP4 count how often SETUP REQUEST, RELEASE and ACCEPT went out without an answer'"
notices "another limit" crates/call/specs/Settings.antt 's/within 1 limit 16/within 1 limit 8/' \
    "$page: it does not say 'has a limit from 1 to 8 in the settings'"
notices "another first state" crates/private_record/specs/Formed.antt '/^cleared_record /s/State.P0/State.P1/' "$page: it does not say 'A new record is in P1.'"
notices "an accept that is sent in another state" $page 's/in S5 only/in S4 only/' "$page: it does not say 'an accept sends GROUP ACCEPT in S5 only'"
notices "a timer with another counter" $private_phases '/^count_of Phase.P3 /s/cfp3/cfp4/' \
    "$page: TFP3: its counter is CFP4, not CFP3" "$page: CFP4 does not have the number of TFP3" \
    "$page: it does not say 'CFP1, CFP4 and CFP4 count how often SETUP REQUEST, RELEASE and ACCEPT went out without an answer'"
notices "a timer that starts by another rule" $page 's/by the rule for P1/by the rule for P0/' "$page: it does not say 'TFP7 is started by the rule for P1,'"
notices "a message that docs/ROWS.md calls another" host/rows/private-call.words 's/02 RINGING/03 ACCEPT/' \
    "host/rows/private-call.words: cause RingingHeard: is called '03 ACCEPT', but means '02 RINGING'" \
    "host/rows/private-call.words: say Ringing: is called '03 ACCEPT', but means '02 RINGING'"
notices "a fact that docs/ROWS.md calls by its opposite" host/rows/group-call.words 's/acknowledgement on$/acknowledgement off/' \
    "host/rows/group-call.words: fact acknowledgement: is called 'acknowledgement off', but means 'acknowledgement on'"

# Prints PAGE:WORDS for each place that names the first row or state up to another than the last.
spans_wrong() {
    local last
    for last in "R1 to R$(rows_in $private_rows | wc -l)" "G1 to G$(rows_in $group_rows | wc -l)" "P0 to P$(($(grep -c '^state_number State' $private_phases) - 1))"; do
        grep -oE "\b${last% *} ${last:6:1}[0-9]+" README.md docs/*.md docs/*.svg host/pictures.sh crates/*/specs/*.antt crates/*/src/*.rt | grep -v ":$last\$"
    done
}
verdict "wherever the rows and states are named from the first on, it is up to the last" "$(spans_wrong | paste -s -d ' ')"

states=$(sed -n 's/^state_number State\.\(S[0-9]\) .*/\1/p' crates/group_record/specs/States.antt | paste -s -d ' ' | sed 's/ /, /g; s/\(.*\),/\1 and/')
wrong=''
for file in $page docs/group-call.svg $command; do
    grep -qF "The states $states " "$file" || wrong="$wrong $file"
done
verdict "the states of the group call are listed as they are" "$wrong"

# ---- what it cannot read

# One case: after the change of a file, by sed, nothing is drawn, and just the fourth word is said.
refuses() {
    plant
    change "$2" "$3"
    run
    judge_refusal "refused: $1" $? "pictures: $4"
    [ -z "$(untouched)" ] || verdict "nothing is written where a table cannot be read" "$(untouched)"
}
refuses "a verb that is not defined" $private_effects '/^effect_of (Some R8) /s/enters/jumps/' \
    "$private_effects: R8: cannot read 'jumps State.P3 tfp3 Hold.Keep Say.Release'"
refuses "a state that is none" $private_effects '/^effect_of (Some R8) /s/State.P3/State.P6/' \
    "$private_effects: R8: enters 'State.P6', which is no state of $private_phases"
refuses "timers that do not run in the state entered" $private_effects '/^effect_of (Some R8) /s/tfp3/tfp4/' \
    "$private_effects: R8: enters P3 with timers that do not run there: 'TFP4'"
refuses "a row that does nothing known" $private_effects '/^effect_of (Some R8) /d' \
    "$private_effects: R8: effect_of has no clause for it, but it is in rows_ask of $private_rows"
refuses "a row that asks nothing known" $private_rows '/(R8, /d' \
    "$private_rows: R8: is not in rows_ask, but $private_effects has a clause for it"
refuses "a condition without a word" $group_rows '/(G9, /s/better_rank/worse_rank/' \
    "$group_rows: G9: host/pictures/group-call.words has no word for the fact worse_rank"
refuses "a condition of another form" $group_rows '/(G8, /s/in_state 3 f/above 3 f/' "$group_rows: G8: cannot read 'above 3'"
refuses "a plain word that means something else" $private_asking '/^in_state n f/s/ n$/ 0/' \
    "$private_asking: in_state: cannot read it, since it is defined in another way"
refuses "causes that are compared in another way" crates/group_rows/specs/Causes.antt '/^same_cause c d/s/cause_number d/cause_number c/' \
    "crates/group_rows/specs/Causes.antt: same_cause: cannot read it, since it is defined in another way"
refuses "a way for which there is no arrow" $private_effects '/^effect_of (Some R8) /s/State.P3 tfp3/State.P0 no_timer/' \
    "host/pictures/private-call.layout: no arrow from P2 to P0, where R8 leads"
refuses "an arrow through a text" host/pictures/group-call.layout 's/^arrow S1 S3 .*/arrow S1 S3 230,76 230,424/' \
    "host/pictures/group-call.layout: the arrow S1 to S3 runs through the label of the arrow S1 to S3"
refuses "more rows than a box has room for" host/pictures/group-call.layout 's/^box S3 .*/box S3 20 424 1160 100/' \
    "host/pictures/group-call.layout: the box of S3 is too low for its rows: 153 would do"

# ---- words that do not say what their definitions mean

words=host/pictures/private-call.words
group_words=host/pictures/group-call.words
refuses "two messages that are exchanged" $words 's/^say Ringing .*/say Ringing ACCEPT/; s/^say Accept .*/say Accept RINGING/' \
    "$words: say Ringing: is called 'ACCEPT', but means 'RINGING'"
refuses "two causes that are exchanged" $words 's/^\(cause ReleaseHeard\) .*/\1 RELEASE ACK heard/; s/^\(cause ReleaseAckHeard\) .*/\1 RELEASE heard/' \
    "$words: cause ReleaseHeard: is called 'RELEASE ACK heard', but means 'RELEASE heard'"
refuses "a user who does something else" $group_words 's/^cause UserLeaves .*/cause UserLeaves user rejects/' \
    "$group_words: cause UserLeaves: is called 'user rejects', but means 'user leaves'"
refuses "a fact and its opposite that are exchanged" $words 's/^\(fact media_verdict\) .*/\1 no media/; s/^\(fact !media_verdict\) .*/\1 media/' \
    "$words: fact media_verdict: is called 'no media', but means 'media'"
refuses "known and new that are exchanged" $group_words 's/^fact same .*/fact same new/; s/^fact !same .*/fact !same known/' \
    "$group_words: fact same: is called 'new', but means 'known'"
refuses "two states that are exchanged" $words 's/^state P2 .*/state P2 pending/; s/^state P5 .*/state P5 waiting for response/' \
    "$words: state P2: is called 'pending', but means 'waiting for response'"
refuses "a state with confirm that has none" $group_effects '/^waits /s/State.S5 State.S4/State.S4 State.S5/' \
    "$group_effects: waits: cannot read it, since it is defined in another way"
refuses "a state with another's number" $private_phases '/^state_number State.P3 /s/3$/4/; /^state_number State.P4 /s/4$/3/' \
    "$private_phases: state_number: gives 4 to P3"
refuses "another reason" $words 's/(BUSY)/(FAILED)/' "$words: say RejectOther: is called 'REJECT (FAILED)', but means 'REJECT (BUSY)'"
refuses "a reason with another number" $private_carried '/^reason_number Reason.Failed /s/4/0/' \
    "$words: reason Failed: is called 'FAILED', but means 'REJECT'"
refuses "two stores that are exchanged" $group_words 's/^hold Change .*/hold Change stores a later change/; s/^\(hold LaterChange\) .*/\1 stores the change/' \
    "$group_words: hold Change: is called 'stores a later change', but means 'stores the change'"
refuses "a store that means something else" $private_carried '/^held_of Hold.Media /s/= .*/= call_of r media/' \
    "${words%.words}.meanings: no definition reads 'held_of Hold.Media stored r media = with_media stored media'"
refuses "a fact that means something else" $private_causes 's/= i.verdicts.media;/= i.verdicts.signature;/' \
    "${words%.words}.meanings: no definition reads 'media_verdict = i.verdicts.media'"
refuses "a message that is not heard" $private_causes '/^message_cause own (Ringing /s/RingingHeard/Other/' "$words: cause RingingHeard: no definition has it"
refuses "a message that is another one" $private_carried '/^sent_of s (Some Say.Ringing) /s/(Ringing /(Accept /' \
    "$words: say Ringing: is called 'RINGING', but means 'ACCEPT'"

# One case: these words are no way to call it.
misused() {
    local name=$1
    shift
    run "$@"
    judge_refusal "$name" $? "pictures: usage: host/pictures.sh [--check]"
}
plant
misused "another word is named" --chek
misused "two words are one too many" --check --check
misused "a word without letters is none" ''

exit $status
