#!/usr/bin/env bash
# The proved implementation against the independent one of host/independent: no difference on random inputs, and a difference is found
# where there is one.
set -u
cd "$(dirname "${BASH_SOURCE[0]}")/../.." || exit 2
. host/verdict.sh
room=$(mktemp -d) || exit 2
trap 'rm -rf "$room"' EXIT
compare=target/independent/release/compare

# The program under a limit of time: a run that hangs must not hold up all other tests.
limited() {
    timeout 300 "$compare" "$@"
}

# Runs the program with these words, and leaves what it wrote and said, and its status, for `wrongs`.
run() {
    limited "$@" >"$room/wrote" 2>"$room/said" </dev/null
    ended=$?
}

# Prints what is wrong with the last run: its status is not that of the first word, or it said something on standard error.
wrongs() {
    [ $ended -eq "$1" ] || printf ' status %s' $ended
    [ ! -s "$room/said" ] || printf ' said: %s' "$(head -n 1 "$room/said")"
}

# ---- the program and the package it is part of

# Built ahead of the case, so that it does not see it being built for the first time.
[ -e target/archives/libtrial.a ] || bash host/compare.sh --seed 1 --help </dev/null >/dev/null 2>&1

bash host/compare.sh --seed 1 --help >"$room/wrote" 2>"$room/said" </dev/null
ended=$?
verdict "host/compare.sh builds all it needs, and its program says how to call it, as the script does" \
    "$(wrongs 0; bash host/compare.sh --help | diff - "$room/wrote" | head -n 2)"
# Without a program of this state there is nothing to try.
[ $status -eq 0 ] || exit $status

unit_tests "all unit tests of the program compare pass" "$(grep -rhF '#[test]' host/independent/src/bin/compare | wc -l)" --bin compare

# Prints the functions for C that the crates have, as Rust declares them: a lent slice is a pointer and a length.
declared() {
    sed -n 's/^pub extern "C" fn \(.*\)(\(.*\)) -> \(.*\)$/fn \1(\2) -> \3/p' crates/{panel,trial}_c/src/lib.rt |
        sed 's/\([a-z_]*\): &\[\(u8\|u32\)\]/\1: *const \2, \1_len: usize/g
            s/\([a-z_]*\): &mut \[u8\]/\1: *mut u8, \1_len: usize/g' | sort
}

# Prints the functions for C that the program calls, each as one line.
called() {
    sed -n '/^extern "C" {/,/^}/p' host/independent/src/bin/compare/proved.rs | sed '1d;$d;/\/\/\//d' | tr '\n' ' ' | tr ';' '\n' |
        sed 's/  */ /g; s/^ //; s/( /(/; s/,\{0,1\} )/)/; /^ *$/d' | sort
}
declared >"$room/declared"
called >"$room/called"
wrong=''
[ -s "$room/declared" ] || wrong='none is declared'
cmp -s "$room/declared" "$room/called" || wrong="$wrong$(diff "$room/declared" "$room/called" | grep '^[<>]' | paste -s -d ';')"
verdict "the program calls the functions for C just as the crates declare them" "$wrong"

# ---- no difference

# One case: a run from the seed of the second word, with as many lines, pairs, writings and logs as the others say, finds no difference.
agrees() {
    run --seed "$2" --lines "$3" --pairs "$4" --writings "$5" --logs "$6"
    local wrong first last
    wrong=$(wrongs 0)
    first=$(head -n 1 "$room/wrote")
    last=$(tail -n 1 "$room/wrote")
    [ "$first" = "seed $2" ] || wrong="$wrong first: $first"
    [ "$last" = "no difference: $3 lines, $4 pairs, $5 writings, $6 logs" ] || wrong="$wrong last: $last"
    # A difference is told whole, but in one line as every case is.
    verdict "$1" "$wrong$(sed -n '/^DIFFERENCE/,$p; /^FAILED/p' "$room/wrote" | sed '1s/^/ /' | paste -s -d ';')"
}
agrees "the two implementations agree on a million inputs" 1 400000 400000 200000 2000
agrees "the two implementations agree from another seed" 20261 100000 100000 50000 500

# ---- a difference is found

# One case: with a slip in the independent answers to the part of the first word, a difference is found there, and shown with its input, of
# which the second word is the start of the line, and with two answers.
finds() {
    local wrong proved independent
    run --spoil "$1" --lines 5000 --pairs 5000 --writings 5000 --logs 500
    wrong=$(wrongs 1)
    proved=$(sed -n 's/^proved: //p' "$room/wrote")
    independent=$(sed -n 's/^independent: //p' "$room/wrote")
    grep -q "^DIFFERENCE in $1: seed 1, draw [1-9]" "$room/wrote" || wrong="$wrong no difference shown"
    LC_ALL=C grep -qE "^$2.*: [ -~]+$" "$room/wrote" || wrong="$wrong no input shown"
    [ -n "$proved" ] && [ -n "$independent" ] && [ "$proved" != "$independent" ] || wrong="$wrong not two answers shown"
    verdict "a slip in the independent $1 is found, and shown with its input" "$wrong"
}
finds lines 'the line, [0-9]+ bytes'
finds values 'the line, [0-9]+ bytes'
finds pairs 'second, [0-9]+ bytes'
finds numbers 'second, [0-9]+ bytes'
finds writings 'the values'
finds room 'the values'
finds logs 'the log, [0-9]+ bytes'

# Only the pairs are run, first as many as may be needed and then just up to the difference.
pairs() {
    run --spoil pairs --lines 0 --pairs "$1" --writings 0 --logs 0
    wrong="$wrong$(wrongs 1)"
}
wrong=''
pairs 5000
cp "$room/wrote" "$room/first"
draw=$(sed -n 's/^DIFFERENCE in pairs: seed 1, draw \([0-9]*\)$/\1/p' "$room/first")
[ -n "$draw" ] || wrong="$wrong no draw shown"
pairs "${draw:-0}"
cmp -s "$room/first" "$room/wrote" || wrong="$wrong draw ${draw:-0} shows another: $(tail -n 1 "$room/wrote")"
verdict "a difference is shown again by as many inputs as its draw says" "$wrong"

# ---- the program lines

# Built ahead of the case, so that it does not see it being built.
bash host/program.sh lines </dev/null >/dev/null 2>&1

mkdir "$room/logs"
wrong=''
for seed in 1 39 48 76; do
    limited log $seed >"$room/logs/$seed" || wrong="$wrong no log $seed"
done

# The cut: a log that ends at it or a byte beside it, and a line that ends with the last byte taken or with the one behind.
long=$room/logs/48
[ "$(wc -c <"$long")" -gt 65600 ] || wrong="$wrong log 48 is not longer than the cut"
for length in 65535 65536 65537; do
    head -c $length "$long" >"$room/logs/length-$length"
done
for length in 65535 65536; do
    { head -c $length "$long"; echo; tail -c +$((length + 2)) "$long"; } >"$room/logs/ended-behind-$length"
done

for log in "$room"/logs/*; do
    name=${log##*/}
    limited answer <"$log" >"$room/wanted" || wrong="$wrong no independent answer to log $name"
    [ -s "$room/wanted" ] || wrong="$wrong nothing wanted of log $name"
    bash host/program.sh lines <"$log" >"$room/wrote" 2>"$room/said"
    ended=$?
    [ "$(wc -c <"$log")" -le 65536 ] || sed -i '/^lines: only the first 65536 bytes are answered$/d' "$room/said"
    wrong="$wrong$(wrongs 0)"
    cmp -s "$room/wrote" "$room/wanted" || wrong="$wrong log $name: $(cmp "$room/wrote" "$room/wanted" 2>&1 | sed "s|$room/||g")"
done
verdict "the program lines answers random logs as the independent implementation does, below, at and above the cut" "$wrong"

# ---- bad usage

# One case: the program, given the words from the third on, must refuse them, and say just the second word.
refuses() {
    local name=$1 line=$2
    shift 2
    run "$@"
    judge_refusal "$name" $ended "compare: $line"
}
refuses "an option that there is not is named" 'no such option: "--line"; --help lists them' --line 5
refuses "a seed that is no number is named" '--seed needs a number from 0 to 18446744073709551615, not "one"' --seed one
refuses "an option without its word is named" '--logs needs a word behind it' --lines 5 --logs
refuses "a slip that there is not is named" '--spoil needs the name of a slip, not "frames"' --spoil frames
refuses "a log needs a seed" 'log needs a seed' log
refuses "an answer takes no word" 'too many words for answer' answer 1

# ---- no way to read or write

# One case: the last run must have ended with status 2, and said one line that starts with the second word.
gives_up() {
    local wrong=''
    [ $ended -eq 2 ] || wrong="status $ended"
    [ "$(wc -l <"$room/said")" -eq 1 ] || wrong="$wrong said $(wc -l <"$room/said") lines"
    grep -q "^compare: $2: " "$room/said" || wrong="$wrong said: $(head -n 1 "$room/said")"
    verdict "$1" "$wrong"
}
limited --help >/dev/full 2>"$room/said" </dev/null
ended=$?
gives_up "an output that takes nothing is told" 'standard output could not be written'
limited answer >/dev/null 2>"$room/said" <.
ended=$?
gives_up "an input that cannot be read is told" 'standard input could not be read'

exit $status
