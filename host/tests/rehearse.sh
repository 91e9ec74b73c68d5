#!/usr/bin/env bash
# The proved program drill against the independent implementation of host/independent: no difference on random scripts, and a difference is
# found, and cut down, where there is one.
set -u
cd "$(dirname "${BASH_SOURCE[0]}")/../.." || exit 2
. host/verdict.sh
room=$(mktemp -d) || exit 2
trap 'rm -rf "$room"' EXIT
rehearse=target/independent/release/rehearse

# Runs the program that compares with these words, under a limit of time, and leaves what it wrote and said, and its status, for `wrongs`.
run() {
    timeout 300 "$rehearse" "$@" >"$room/wrote" 2>"$room/said" </dev/null
    ended=$?
}

# Prints what is wrong with the last run: its status is not that of the first word, or it said something on standard error.
wrongs() {
    [ $ended -eq "$1" ] || printf ' status %s' $ended
    [ ! -s "$room/said" ] || printf ' said: %s' "$(head -n 1 "$room/said")"
}

# ---- the programs

# Built ahead of the case, so that it does not see them being built for the first time.
[ -x "$rehearse" ] && [ -x target/bin/drill ] || bash host/rehearse.sh --seed 1 --help </dev/null >/dev/null 2>&1

bash host/rehearse.sh --seed 1 --help >"$room/wrote" 2>"$room/said" </dev/null
ended=$?
verdict "host/rehearse.sh builds all it needs, and its program says how to call it, as the script does" \
    "$(wrongs 0; bash host/rehearse.sh --help | diff - "$room/wrote" | head -n 2)"
# Without programs of this state there is nothing to try.
[ $status -eq 0 ] || exit $status
mapfile -t drill < <(bash host/program.sh --command drill)

# Those of the programs compare and speed are tried by the tests of their names, since they need archives.
unit_tests "all other unit tests of the independent implementation than those of compare and speed pass" \
    "$(grep -rhF --exclude-dir=compare --exclude-dir=speed '#[test]' host/independent/src | wc -l)" --lib --bin rehearse

# ---- no difference

# One case: a run from the seed of the second word finds no difference in 12,000 steps, and meets all it should; what it met is shown.
agrees() {
    run --seed "$2" --steps 12000 -- "${drill[@]}"
    local wrong first last
    wrong=$(wrongs 0)
    first=$(head -n 1 "$room/wrote")
    last=$(tail -n 1 "$room/wrote")
    [ "$first" = "seed $2" ] || wrong="$wrong first: $first"
    [[ $last =~ ^no\ difference:\ 12[0-9]{3}\ steps$ ]] || wrong="$wrong last: $last"
    sed -n '/^steps/,/^  Group call: the cabs are in different/s/^/  /p' "$room/wrote"
    # A difference is told whole, but in one line as every case is.
    verdict "$1" "$wrong$(sed -n '/^DIFFERENCE/,$p; /^FAILED/p' "$room/wrote" | sed '1s/^/ /' | paste -s -d ';')"
}
agrees "drill and the independent implementation print the same for 12,000 steps" 1
cp "$room/wrote" "$room/first"
agrees "they print the same from another seed" 20261

run --seed 1 --steps 12000 -- "$rehearse" --play -
wrong=$(wrongs 0)
cmp -s "$room/first" "$room/wrote" || wrong="$wrong another run: $(cmp "$room/first" "$room/wrote" 2>&1 | sed "s|$room/||g")"
"$rehearse" --seed 1 --script 1 >"$room/one" && "$rehearse" --seed 1 --script 1 >"$room/again"
"$rehearse" --seed 2 --script 1 >"$room/other"
[ -s "$room/one" ] && cmp -s "$room/one" "$room/again" || wrong="$wrong another script"
! cmp -s "$room/one" "$room/other" || wrong="$wrong the script of another seed"
verdict "the same seed gives the same scripts and the same counts, and another seed others" "$wrong"

# ---- a difference is found

# Prints the part of the last run's report that stands between the lines that begin with the two words.
part() { sed -n "/^$1/,/^$2/p" "$room/wrote" | sed '1d;$d'; }

# Prints what is wrong with the last report: no difference shown, or its script has more commands than the first word, or is not what the
# two sides printed those answers to.
report_wrongs() {
    local lines
    grep -qE '^DIFFERENCE: seed 1, script [1-9][0-9]*$' "$room/wrote" || printf ' no difference shown'
    part 'the script, ' 'the program ' >"$room/script"
    lines=$(wc -l <"$room/script")
    [ "$lines" -ge 1 ] && [ "$lines" -le "$1" ] || printf ' a script of %s lines' "$lines"
    part 'the program printed:' 'the independent ' >"$room/program"
    sed '1,/^the independent /d' "$room/wrote" >"$room/independent"
    "${drill[@]}" <"$room/script" | cmp -s - "$room/program" || printf ' the script shown is not the one that was played'
    ! cmp -s "$room/program" "$room/independent" || printf ' not two transcripts shown'
}

# One case: with a slip of this name in the independent machines, a difference is found soon, and cut down to a few commands.
finds() {
    run --slip "$1" --steps 5000 -- "${drill[@]}"
    verdict "the slip $1 is found, and cut down to at most four commands" "$(wrongs 1; report_wrongs 4)"
}
"$rehearse" --slips >"$room/slips"
verdict "there are twelve slips" "$([ "$(wc -l <"$room/slips")" -eq 12 ] || wc -l <"$room/slips")"
while read -r name _; do
    finds "$name"
done <"$room/slips"

# ---- the slips of docs/SLIPS.md, each on its script

# Prints, for each command of the page that plays a script with a slip: the slip, the script, and where the sentence ahead of the command
# says that it goes wrong.
slipped() {
    awk 'BEGIN { line = "nowhere" }
        /^On the script above it goes wrong in [0-9]+: / { line = $9 + 0 }
        /^    bash host\/rehearse\.sh --slip .* --play / { print $4, $6, line; line = "nowhere" }' docs/SLIPS.md
}

# One case: a script, the second word, prints what is kept beside it; and with the slip of the first word, named ahead of the script or
# behind it, the first line that is another is one of the command of the third word.
goes_wrong() {
    local wrong kept=${2%.drill}.shown first
    run --play "$2"
    wrong=$(wrongs 0)
    cmp -s "$room/wrote" "$kept" || wrong="$wrong without it: $(cmp "$room/wrote" "$kept" 2>&1 | sed "s|$room/||g")"
    "$rehearse" --play - --slip "$1" <"$2" >"$room/behind" || wrong="$wrong named behind: status $?"
    run --slip "$1" --play "$2"
    wrong="$wrong$(wrongs 0)"
    cmp -s "$room/wrote" "$room/behind" || wrong="$wrong not the same either way round"
    [ "$(wc -l <"$room/wrote")" -eq "$(wc -l <"$kept")" ] || wrong="$wrong not as many lines"
    first=$(diff "$kept" "$room/wrote" | sed -n 's/^> \([^ ]*\) .*/\1/p' | head -n 1)
    [ "$first" = "$3" ] || wrong="$wrong first different: ${first:-none}"
    verdict "the slip $1 goes wrong on $2 in $3, and without it all is as kept" "$wrong"
}
verdict "docs/SLIPS.md plays seven slips, each on a script" "$([ "$(slipped | cut -d ' ' -f 1 | sort -u | wc -l)" -eq 7 ] || slipped | paste -s -d ';')"
while read -r name script line; do
    goes_wrong "$name" "$script" "$line"
done < <(slipped)

# One case: a program that fails, the words from the third on, is told to fail as the second word says.
fails() {
    local name=$1 how=$2
    shift 2
    run --steps 1 -- "$@"
    verdict "$name" "$(wrongs 1; grep -qxF "the program failed: $how" "$room/wrote" || echo " printed: $(grep '^the program' "$room/wrote")")"
}
fails "a program that ends with another status is told" 'it ended with status 3' sh -c 'cat >/dev/null; exit 3'
# shellcheck disable=SC2016
fails "a program that is ended by a signal is told" 'it was ended by signal 9' sh -c 'kill -9 $$'

# shellcheck disable=SC2016
run --steps 1 -- sh -c 'echo "no room" >&2; exec "$0" --play -' "$rehearse"
wrong=$(wrongs 1)
said=$(part 'the program said on standard error:' 'the program printed:')
[ "$said" = "no room" ] || wrong="$wrong shown: $said"
[ -n "$(part 'the program printed:' 'the independent ')" ] || wrong="$wrong nothing printed"
cmp -s <(part 'the program printed:' 'the independent ') <(sed '1,/^the independent /d' "$room/wrote") || wrong="$wrong another transcript"
verdict "a program that prints what it should, but says something on standard error, is told with what it said" "$wrong"

# ---- the independent player

printf 'a private start identifier=5 callee=2 media=1\nb hears a' >"$room/given"
"$rehearse" --play "$room/given" >"$room/wanted"
"$rehearse" --play - <"$room/given" >"$room/wrote" 2>"$room/said"
ended=$?
[ "$(wc -l <"$room/wanted")" -eq 10 ] || echo "ten lines" >"$room/wanted"
judge "a script from a file and from standard input is played alone" $ended

printf 'a private start identifier=5 callee=2 media=1\na private start\na privat end' >"$room/given"
"$rehearse" --play "$room/given" >"$room/wanted"
"$rehearse" --slip second-accept --play - <"$room/given" >"$room/wrote" 2>"$room/said"
ended=$?
judge "a script that a slip does not touch is played with it as without it, complaints and all" $ended

# ---- bad usage

# One case: the program, given the words from the third on, must refuse them, and say just the second word.
refuses() {
    local name=$1 line=$2
    shift 2
    run "$@"
    judge_refusal "$name" $ended "rehearse: $line"
}
refuses "an option that there is not is named" 'no such option: "--step"; --help lists them' --step 5 -- true
refuses "a seed that is no number is named" '--seed needs a number from 0 to 18446744073709551615, not "one"' --seed one -- true
refuses "an option without its word is named" '--steps needs a word behind it' --seed 5 --steps -- true
refuses "a slip that there is not is named" '--slip needs the name of a slip, not "none"; --slips lists them' --slip none -- true
refuses "a run needs a command" 'no COMMAND: -- and what runs the program come last' --seed 5
refuses "a play is of one script" 'too many words for --play' --play one two
refuses "a play with a slip is of one script too" 'too many words for --play' --slip old-start --play one two
refuses "a play by a slip that there is not names it" '--slip needs the name of a slip, not "none"; --slips lists them' --play one --slip none

# One case: the last run must have ended with status 2, and said one line that starts with the second word.
gives_up() {
    local wrong=''
    [ $ended -eq 2 ] || wrong="status $ended"
    [ "$(wc -l <"$room/said")" -eq 1 ] || wrong="$wrong said $(wc -l <"$room/said") lines"
    grep -q "^rehearse: $2: " "$room/said" || wrong="$wrong said: $(head -n 1 "$room/said")"
    verdict "$1" "$wrong"
}
run --steps 5 -- "$room/none"
gives_up "a command that cannot be run is told" "$room/none could not be run"
run --play "$room/none"
gives_up "a script that is not there is told" "$room/none could not be read"
run --slip old-start --play "$room/none"
gives_up "it is told where a slip is put in too" "$room/none could not be read"
"$rehearse" --help >/dev/full 2>"$room/said" </dev/null
ended=$?
gives_up "an output that takes nothing is told" 'standard output could not be written'

exit $status
