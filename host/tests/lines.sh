#!/usr/bin/env bash
# The program lines, built and run: the ends of its input, how it is fed, and docs/LOGS.md; host/tests/edges.sh has what its command does besides.
set -u
cd "$(dirname "${BASH_SOURCE[0]}")/../.." || exit 2
. host/verdict.sh
room=$(mktemp -d) || exit 2
trap 'rm -rf "$room"' EXIT

ringing=0212340000000700000009
reject=0412340000000700000009

# Prints the first word, with a line end, as often as the second says.
times() { yes "$1" | head -n "$2"; }

# The program on its own, fed from standard input.
answer() { bash host/program.sh lines; }

# One case: the program, on the input $room/given, says the second word, or nothing where there is none.
case_of() {
    answer <"$room/given" >"$room/wrote" 2>"$room/said"
    judge "$1" $? 0 "${2-}"
}

# What it says of an input that has more than it answers.
cut='lines: only the first 65536 bytes are answered'

# Built ahead of the cases, so that none of them sees it being built.
answer </dev/null >/dev/null 2>&1

cp target/bin/lines.state "$room/wanted"
sed -i 's/ .*/ another/' target/bin/lines.state
bash host/program.sh --command lines >/dev/null 2>"$room/said" </dev/null
ended=$?
cp target/bin/lines.state "$room/wrote"
judge "a program of another state is looked at by rt again" $ended

# ---- the ends of the input

: >"$room/given"
: >"$room/wanted"
case_of "no input gives no output"

# 2,832 lines of 23 bytes and 16 of 25 make 65,536 bytes
{ times $ringing 2832 && times ${reject}02 16; } >"$room/full"
cp "$room/full" "$room/given"
cp "$room/full" "$room/wanted"
case_of "65,536 bytes of readable lines come back whole"

{ cat "$room/full" && times $ringing 9; } >"$room/given"
case_of "readable lines behind 65,536 bytes change nothing, and that is said" "$cut"

{ cat "$room/full" && printf 'zz\n\n\0'; } >"$room/given"
case_of "damage behind 65,536 bytes changes nothing" "$cut"

# 2,849 lines of 23 bytes are 65,527: the cut leaves nine bytes of the next
times $ringing 3000 >"$room/given"
{ times $ringing 2849 && echo '!1'; } >"$room/wanted"
case_of "a line that the cut at 65,536 bytes leaves unended is answered !1" "$cut"

yes $ringing | answer >"$room/wrote" 2>"$room/said"
judge "input that never ends is answered all the same" "${PIPESTATUS[1]}" 0 "$cut"

# 2,844 lines of 23 bytes and 5 of 25 make 65,537
{ times $ringing 2844 && times ${reject}02 5; } >"$room/given"
{ times $ringing 2844 && times ${reject}02 4 && echo '!1'; } >"$room/wanted"
case_of "a line whose end is byte 65,537 is answered !1" "$cut"

times '' 65536 >"$room/given"
times '!3' 65536 >"$room/wanted"
case_of "65,536 line ends give 65,536 times !3"

yes 0 | tr -d '\n' | head -c 65536 >"$room/given"
echo '!1' >"$room/wanted"
case_of "65,536 digits without a line end are one line"

printf %s $ringing >"$room/given"
case_of "a line one byte short of its end is answered !1"

# ---- how it is fed, and who reads

{ times $ringing 1 && times ${reject}05 1 && times $ringing 1; } >"$room/whole"
{ times $ringing 1 && echo '!5' && times $ringing 1; } >"$room/wanted"
{ head -c 10 "$room/whole" && sleep 0.2 && tail -c +11 "$room/whole" | head -c 30 && sleep 0.2 && tail -c +41 "$room/whole"; } |
    answer >"$room/wrote" 2>"$room/said"
judge "input that comes in pieces is put together" "${PIPESTATUS[1]}"

times '' 65536 | answer 2>"$room/said" | (sleep 0.2 && cat) >"$room/wrote"
ended=${PIPESTATUS[1]}
times '!3' 65536 >"$room/wanted"
judge "a slow reader gets all 196,608 bytes of the longest answer" "$ended"

# ---- the command

sample=samples/night-shift.log
sed -n '/^```$/,/^```$/p' README.md | sed '1d' | sed '/^```$/,$d' >"$room/wanted"
bin/lines "$sample" >"$room/wrote" 2>"$room/said"
judge "the README shows what its first command prints" $?

cp "$room/full" "$room/wanted"
bin/lines "$room/full" >"$room/wrote" 2>"$room/said"
judge "a log of 65,536 bytes is answered whole" $?

{ cat "$room/full" && echo; } >"$room/long"
bin/lines "$room/long" >"$room/wrote" 2>"$room/said"
judge "a longer log is cut, and the cut is named" $? 0 "$cut"

# ---- docs/LOGS.md

bin/lines "$sample" >"$room/sample"
awk '/^!/ { print NR, $0 }' "$room/sample" >"$room/wanted"
sed -nE 's/^\| ([0-9]+) \| .* \| `(![1-5])` \|$/\1 \2/p' docs/LOGS.md >"$room/wrote"
: >"$room/said"
judge "docs/LOGS.md has each line of its log that cannot be read, with its number" 0

# Each kind with its digits, by the page, where its bytes are half as many, and by the lines that can be read.
sed -nE 's/^\| (0[1-9]) \| [A-Z ]+ \| .* \| ([0-9]+) \| ([0-9]+) \|$/\1 \2 \3/p' docs/LOGS.md | awk '2 * $2 == $3 { print $1, $3 }' >"$room/wanted"
grep -hE '^0' "$room/sample" crates/lines/stdout | awk '{ print substr($0, 1, 2), length }' | sort -u >"$room/wrote"
judge "docs/LOGS.md has each kind, with its length" 0

# ---- what the stored logs hold

missing=''
for stored in crates/lines/stdout "$room/sample"; do
    for start in 01 02 03 04 05 06 07 08 09 '!1' '!2' '!3' '!4' '!5'; do
        grep -q "^$start" "$stored" || missing="$missing $start"
    done
done
verdict "the stored log and the sample have every kind and every number 1 to 5" "${missing:+not found:$missing}"

missing=''
stored=crates/lines/stdin
for line in '0800100000000302001e0000000500000007000003e8000003e80000000701' '021234000000070000000A' '' $ringing$'\r'; do
    LC_ALL=C grep -aqxF -- "$line" $stored || missing="$missing '$line'"
done
[ "$(tr -d '\0' <$stored | wc -c)" -lt "$(wc -c <$stored)" ] || missing="$missing NUL"
[ -n "$(tail -c 1 $stored | tr -d '\n')" ] || missing="$missing an unended tail"
verdict "the stored log has an announcement, a capital digit, an empty line, CR LF, NUL and an unended tail" "${missing:+not found:$missing}"

exit $status
