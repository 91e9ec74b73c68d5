#!/usr/bin/env bash
# The program drill, built and run: its lessons, what it cannot read, and the ends of its input; host/tests/edges.sh has what its command does besides.
set -u
cd "$(dirname "${BASH_SOURCE[0]}")/../.." || exit 2
. host/verdict.sh
room=$(mktemp -d) || exit 2
trap 'rm -rf "$room"' EXIT

# Built ahead of the cases, so that none of them sees it being built.
bash host/program.sh --command drill </dev/null >/dev/null 2>&1
mapfile -t drill < <(bash host/program.sh --command drill 2>"$room/said" </dev/null)
verdict "the program is proved and built" "$(cat "$room/said")"
# Without it there is nothing to try.
[ $status -eq 0 ] || exit $status

# Somebody else has rt, for longer than the program is waited for.
flock -o .alone sleep 5 &
busy=$!
sleep 0.2
timeout 2 bash host/program.sh --command drill >"$room/wrote" 2>"$room/said" </dev/null
ended=$?
kill $busy
printf '%s\n' "${drill[@]}" >"$room/wanted"
judge "a program that nothing has changed for does not wait for rt" $ended

# Plays the script $room/given.
play() { "${drill[@]}" <"$room/given" >"$room/wrote" 2>"$room/said"; }

# What a script without commands prints.
echo >"$room/given"
play
cp "$room/wrote" "$room/nothing"

# ---- lessons

# Prints the text between the fences of docs/DRILL.md that follow the first line with this word.
shown_in_page() { sed -n "/$1/,\$p" docs/DRILL.md | sed -n '/^```$/,/^```$/p' | sed '1d' | sed '/^```$/,$d'; }

for script in samples/*.drill; do
    cp "${script%.drill}.shown" "$room/wanted"
    bin/drill "$script" >"$room/wrote" 2>"$room/said"
    judge "$script prints what is stored" $?
done

wrong=''
for script in samples/*.drill; do
    grep -q '^# Expected' "$script" || wrong="$wrong $script"
    grep -qF "$(basename "$script")" docs/DRILL.md || wrong="$wrong $script in docs/DRILL.md"
done
verdict "every lesson says what is to come of it, and docs/DRILL.md names it" "$wrong"

cp samples/private-call.drill "$room/wanted"
shown_in_page 'A worked script' >"$room/wrote"
: >"$room/said"
judge "docs/DRILL.md has the worked script as it stands in samples/" 0
cmp -s crates/drill/stdin samples/private-call.drill && cmp -s crates/drill/stdout samples/private-call.shown
verdict "the worked script is the stored run of the crate" "$([ $? -eq 0 ] || echo differs)"
cp samples/private-call.shown "$room/wanted"
shown_in_page 'It prints this' >"$room/wrote"
judge "docs/DRILL.md shows what the worked script prints" 0

grep -qF "\`$(tail -n 1 samples/two-group-calls.shown)\`" README.md && grep -qF '`bin/drill samples/two-group-calls.drill`' README.md
verdict "the README says how its script ends" "$([ $? -eq 0 ] || echo differs)"

# ---- what it cannot read

# One case: a command that cannot be read, the second word, gets just the line of the third word; the next command is played.
cannot_read() {
    printf '%s\n\nb private end\n' "$2" >"$room/given"
    play
    local ended=$? step
    step='3 b private 0 - P0 P0 - - - CFP1=0,CFP3=0,CFP4=0 identifier=0,caller=0,callee=0,commencement=0,media=0,pck-id=0x00000000 - 63'
    { head -n 1 "$room/nothing" && echo "! line 1, column $3" && echo "$step" && tail -n +2 "$room/nothing"; } >"$room/wanted"
    judge "not to be read: $1" $ended
}
cannot_read "a third cab" 'c private end' '1: a cab was expected, a or b'
cannot_read "a cab alone" '  a' '4: settings, buffer, private, group, a timer, hears or chooses was expected'
cannot_read "a command in capitals" 'a PRIVATE end' '3: settings, buffer, private, group, a timer, hears or chooses was expected'
cannot_read "a private call that is left" 'a private leave' '11: start, end, accept, reject, record or cleared was expected'
cannot_read "a group call that is ended" 'a group end' '9: start, accept, reject, leave, raise, record or cleared was expected'
cannot_read "a timer that starts" 'a TFP1 starts' '8: expires was expected'
cannot_read "a timer alone, ahead of a comment" 'a TFP1 # expires' '8: expires was expected'
cannot_read "a line that is missing" 'a hears' '8: a line was expected'
cannot_read "a name in the place of a line" 'a hears ended=no' '9: a line was expected'
cannot_read "a second line that is missing" 'a chooses nothing ' '19: a line was expected'
cannot_read "the line of a cab that has sent none" 'a hears b' '9: cab b has sent no line yet'
cannot_read "a name of another command" 'a private start caller=7' '17: NAME=VALUE was expected, with a name that this command takes'
cannot_read "a name without a value" 'a settings user' '12: NAME=VALUE was expected, with a name that this command takes'
cannot_read "a name that comes twice" 'a settings user=7,user=8' '19: this name was given before'
cannot_read "a number that is too large" 'a settings user=4294967296' '12: not a value of this name'
cannot_read "a number that is far too large" 'a settings user=0x123456789abcdef0123456789' '12: not a value of this name'
cannot_read "a number below 0" 'a settings user=-1' '12: not a value of this name'
cannot_read "a digit that is none" 'a settings user=1a' '12: not a value of this name'
cannot_read "no digits at all" 'a settings user=0x' '12: not a value of this name'
cannot_read "a flag that is a number" 'a settings restrict=1' '12: not a value of this name'
cannot_read "a state of the other machine" 'a private record state=S1' '18: not a value of this name'
cannot_read "a state that there is not" 'a group record state=S2' '16: not a value of this name'
cannot_read "a longer buffer than there is" 'a buffer length=129' '10: not a value of this name'

printf '\ta  settings\tuser=0x0007,group=3\r\n# a comment\n   \na settings # nothing\n\na settings CFP1=255' >"$room/given"
cp "$room/nothing" "$room/wanted"
play
judge "blanks of every kind, comments, empty lines and a last line without its end are read" $?

printf 'b private start identifier=1 callee=1 media=1\nb hears a\na chooses b a\n' >"$room/given"
play
wrong=$(grep '^!' "$room/wrote" | diff - <(printf '! line %s: cab a has sent no line yet\n' '2, column 9' '3, column 13') | head -n 2)
verdict "what cab b sent is no line of cab a" "$wrong"

# What a step tells of counters and call may be copied into a script.
record=$(awk '$1 == 12 && $3 == "private" { print $11 "," $12 }' samples/private-call.shown)
printf 'a settings user=7\na private record state=P4 TFP5=yes %s\na private end\n' "$record" >"$room/given"
play
verdict "counters and call of a step can be copied into a record" \
    "$(grep -q '^3 a private 0 R9 P4 P3 TFP5 TFP3 TFP3 CFP1=0,CFP3=1,CFP4=0 ' "$room/wrote" || sed -n 2p "$room/wrote")"

# ---- the ends of its input

: >"$room/given"
cp "$room/nothing" "$room/wanted"
play
judge "no input is a script without commands" $?

# Makes a script of so many bytes as the first word says: a comment, a line end, and the second word.
script_of() { { printf '#' && head -c $(($1 - 2 - ${#2})) /dev/zero | tr '\0' ' ' && printf '\n%s' "$2"; } >"$room/given"; }
cut='! the script has more than 65536 bytes: only the lines that end within them were played'

head -c 70000 /dev/zero | tr '\0' ' ' >"$room/given"
{ head -n 1 "$room/nothing" && echo "$cut" && tail -n +2 "$room/nothing"; } >"$room/wanted"
play
judge "a script without a line end in its first 65,536 bytes is not played" $?
{ head -c 40 samples/old-timer.drill && sleep 0.2 && tail -c +41 samples/old-timer.drill; } | "${drill[@]}" >"$room/wrote" 2>"$room/said"
ended=${PIPESTATUS[1]}
cp samples/old-timer.shown "$room/wanted"
judge "a script that comes in pieces is put together" "$ended"

script_of 65536 'x'
{ head -n 1 "$room/nothing" && echo '! line 2, column 1: a cab was expected, a or b' && tail -n +2 "$room/nothing"; } >"$room/wanted"
play
judge "65,536 bytes are played to the last, also without a line end" $?
script_of 65537 $'x\n'
{ head -n 1 "$room/nothing" && echo "$cut" && tail -n +2 "$room/nothing"; } >"$room/wanted"
play
judge "a line whose end is byte 65,537 is not played, and that is said" $?
script_of 65538 $'x\n#\n'
{ head -n 1 "$room/nothing" && echo '! line 2, column 1: a cab was expected, a or b' && echo "$cut" && tail -n +2 "$room/nothing"; } >"$room/wanted"
play
judge "a line whose end is byte 65,536 is played" $?

: >"$room/wrote"
: >"$room/wanted"
"${drill[@]}" <samples/private-call.drill >/dev/full 2>"$room/said"
judge "an answer that cannot be written is named once" $? 0 "drill: the answer could not be written"

exit $status
