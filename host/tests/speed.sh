#!/usr/bin/env bash
# The program that measures: its figures are all there and go together, on docs/SPEED.md too, an earlier state is measured beside this one, the C
# that it measures against is clean, is compiled as it says and answers as it should, a wrong one is noticed, and C that does more is seen to take
# longer. How fast anything is does not matter here.
# shellcheck disable=SC2016
set -u
cd "$(dirname "${BASH_SOURCE[0]}")/../.." || exit 2
. host/verdict.sh
. host/speed_page.sh
room=$(mktemp -d) || exit 2
trap 'rm -rf "$room"' EXIT

# Runs host/speed.sh with these words, under a limit of time, and leaves what it wrote and said, and its status, for `wrongs`; with the PATH
# that the variable `path` names, where it names one.
run() {
    timeout 300 env PATH="${path:-$PATH}" bash host/speed.sh "$@" >"$room/wrote" 2>"$room/said" </dev/null
    ended=$?
}

# Prints what is wrong with the last run: its status is not that of the first word, or it said something on standard error.
wrongs() {
    [ $ended -eq "$1" ] || printf ' status %s' $ended
    [ ! -s "$room/said" ] || printf ' said: %s' "$(head -n 1 "$room/said")"
}

# ---- the program

# Built ahead of the case, so that it does not see it being built for the first time.
[ -e target/archives/libpace.a ] || bash host/speed.sh --seed 1 --help </dev/null >/dev/null 2>&1

run --seed 1 --help
verdict "host/speed.sh builds all it needs, and its program says how to call it, as the script does" \
    "$(wrongs 0; bash host/speed.sh --help | diff - "$room/wrote" | head -n 2)"
# Without a program of this state there is nothing to try.
[ $status -eq 0 ] || exit $status

[ "$(uname -m)" = x86_64 ] || other="^Rattle is here the same module .*, compiled for $(uname -m)\.\$"

# As host/speed.sh builds the program, so that neither undoes what the other has built.
unset STATICLIB
profile=speed archives=SPEEDLIB=$(pwd -P)/target/archives
unit_tests "all unit tests of the program speed pass" "$(grep -rhF '#[test]' host/independent/src/bin/speed | wc -l)" --bin speed

# ---- the figures

page=docs/SPEED.md
others=('plain C by cc' 'plain C by clang' 'plain Rust' 'table C by cc' 'table C by clang' 'best scalar C by cc' 'best scalar C by clang')
# Where the page has an earlier state there is one here too: this state itself, so that nothing has to be proved again.
before=() each=(Rattle "${others[@]}")
! grep -q '^| Rattle before |' $page || { before=(--before .) && each=(Rattle 'Rattle before' "${others[@]}"); }
asked='|  | line check (a line), ns | ratio | chooser (a pair), ns | ratio | answer to a log (a line), ns | ratio |'
counted='|  | line check (a line) | chooser (a pair) | answer to a log (a line) |'

# Prints the rows of a table of a file, whose first line is the second word.
rows() { awk -v head="$2" '$0 == head { on = 1 } $0 == "" { on = 0 } on' "$1" | sed 1,2d; }

# One case: of the last run, the table whose first line is the second word has just the rows of the others, in their order, each with a number
# in every column.
table() {
    local name=$1 head=$2 columns
    shift 2
    columns=$(($(tr -cd '|' <<<"$head" | wc -c) - 2))
    rows "$room/wrote" "$head" >"$room/rows"
    verdict "$name" "$(diff <(sed -E "s/^\\| ([^|]*) \\|( [0-9]+(\\.[0-9]+)? \\|){$columns}\$/\\1/" "$room/rows") <(printf '%s\n' "$@") | head -n 3)"
}

# Prints which of some patterns no line of the last run matches.
unmatched() {
    local line
    for line; do
        grep -q "$line" "$room/wrote" || echo "no line $line"
    done
}
run "${before[@]}" --quick --seed 7
verdict "a quick run ends well, says that it is one, its seed, the machine, and both compilers with their level" \
    "$(wrongs 0; unmatched '^Measured on: .*[^ ], [a-z0-9_]*\.$' '^A quick run: ' '^Inputs: .*, from seed 7\.$' ${other:+"$other"} \
        "^Compiled: C by .* and by the kit's clang .*, both at -O3, Rust by rustc .* at its level 3, Rattle by the same clang at -O3\\.\$" \
        '^Each figure is the median of [0-9]* rounds, ')"
table "line check, chooser and answer stand for each implementation" "$asked" "${each[@]}"
table "what a line costs stands by its digits, for each implementation" \
    '|  | 22 digits | 42 digits | 62 digits | 184 digits | 22, damaged | 42, damaged | 62, damaged | 184, damaged | log | log, damaged |' "${each[@]}"
table "both steps stand against Rust" "|  | Rattle, ns | Rust, ns | ratio |" \
    'private step, whole calls' 'private step, any inputs' 'group step, whole calls' 'group step, any inputs'
table "each implementation has its lines and bytes a second" \
    "|  | lines checked | bytes checked | lines answered | bytes answered |" "${each[@]}"
table "cost stands against size, from one line to 65,536 bytes" \
    '|  | 1 line | 64 bytes | 256 bytes | 1024 bytes | 4096 bytes | 16384 bytes | 65536 bytes |' "${each[@]}"
verdict "each ratio is the quotient of two times, and each rate goes with its time" "$(awk -f host/tests/speed_held.awk "$room/wrote" | head -n 3)"
cp "$room/wrote" "$room/times"

if command -v valgrind >/dev/null; then
    run "${before[@]}" --instructions
    verdict "instructions are counted, and it says by what" \
        "$(wrongs 0; unmatched '^Counted by: valgrind-[0-9.]*, [a-z0-9_]*\.$' '^Compiled: C by ' '^Inputs: .*, from seed 1\.$' ${other:+"$other"})"
    table "each implementation has its instructions" "$counted" "${each[@]}"
    cp "$room/wrote" "$room/instructions"
else
    left_out "instructions" "there is no valgrind"
fi

# ---- the page

verdict "$page has what the program writes, its sums are right, and its figures go together" "$(page_wrong $page)"
changes_found
[ ! -e "$room/instructions" ] || counts_held

# ---- an earlier state

# Prints which names stand behind Rattle in the tables of the last run, and in how many.
behind() { awk -F ' *[|] *' '$2 == "Rattle" { getline; print $2 }' "$room/wrote" | uniq -c | sed 's/^ *//'; }

# Makes $room/earlier a checkout without git, which has been built before, whose script for archives does at this root what the first word says.
checkout() {
    mkdir -p "$room/earlier/host" "$room/earlier/crates/panel" "$room/earlier/target/archives"
    echo "$1" >"$room/earlier/host/archive.sh"
    : >>"$room/earlier/target/archives/libtrial.a"
}

run --quick --seed 7
verdict "without --before there is no earlier state" "$(wrongs 0; grep -m 1 'Rattle before' "$room/wrote")"
run --before . --quick --seed 7
told=$([ ! -e .git ] || git describe --always --dirty 2>/dev/null)
told="Rattle before: ${told:+commit }${told:-the folder $(basename "$(pwd -P)")}, proved and compiled by its own scripts."
verdict "--before measures an earlier state beside this one, and says which it is" \
    "$(wrongs 0; grep -A 2 '^Compiled: ' "$room/wrote" | tail -n 1 | diff - <(echo "$told"); behind | diff - <(echo '4 Rattle before'))"
verdict "its ratios and rates go with its times" "$(awk -f host/tests/speed_held.awk "$room/wrote" | head -n 3)"
if [ -e "$room/instructions" ]; then
    run --before . --instructions
    verdict "an earlier state of the same code has the same instructions, but for what the C library does" \
        "$(wrongs 0; behind | diff - <(echo '1 Rattle before'); rows "$room/wrote" "$counted" | sed -nE 's/^\| Rattle( before)? \| (.*) \| [0-9]+ \|$/\2/p' | uniq -u)"
    verdict "a page is held to the instructions of this state, and not to those of an earlier one" \
        "$(diff <(typed none) <(typed 'Rattle before') | head -n 2; cmp -s <(typed none) <(typed Rattle) && echo 'it is to none')"
fi

checkout 'cp "target/archives/lib$1.a" "$2"'
(cd "$room" && timeout 300 bash "$OLDPWD/host/speed.sh" --quick --before earlier >wrote 2>said </dev/null)
ended=$?
verdict "it is looked for from where one stands, and called by its folder where git knows nothing of it" \
    "$(wrongs 0; unmatched '^Rattle before: the folder earlier, proved and compiled by its own scripts\.$'; behind | diff - <(echo '4 Rattle before'))"

# An earlier state that gives 7 for everything.
gcc -x c -c -o "$room/seven.o" - <<<'unsigned panel_line_check(void) { return 7U; } unsigned panel_choose(void) { return 7U; }' &&
    ar rcs "$room/libpanel.a" "$room/seven.o" && cp target/archives/libtrial.a "$room/"
checkout "cp \"$room/lib\$1.a\" \"\$2\""
run --before "$room/earlier" --quick
verdict "an earlier state that answers otherwise is named, with the line" \
    "$(wrongs 1; sed -E 's/ [0-5], input: .+$//' "$room/wrote" | diff - <(echo 'DIFFERENCE: Rattle before answers otherwise than Rattle: line check, 7 for') | head -n 2)"

# ---- the C

# Whether the archive has just what each compiler makes of the C at -O3, without a warning, with the names of one apart.
kit=$(dirname "$(dirname "$(readlink -f "$(command -v rt)")")")
flags=(-std=c99 -O3 -Wall -Wextra -Wconversion -pedantic -Werror -c)
mapfile -t apart < <(printf -- '-D%s=clang_%s\n' {plain,table,best}_{line_check,choose,answer_log}{,})
wrong=$(ar t target/archives/libbaseline.a | sort | paste -s -d ' ' | grep -vx 'best.o clang_best.o clang_plain.o clang_table.o plain.o table.o')
for source in plain table best; do
    # shellcheck disable=SC2086
    ${CC:-cc} "${flags[@]}" host/speed/$source.c -o "$room/$source.o" 2>"$room/said" || wrong="$wrong $(grep -m 1 error "$room/said")"
    # shellcheck disable=SC2086
    "$kit/toolchain/bin/clang" --no-default-config --target="$(uname -m)-unknown-linux-gnu" "${flags[@]}" "${apart[@]}" \
        -isystem "$(${CC:-cc} -print-file-name=include)" host/speed/$source.c -o "$room/clang_$source.o" 2>"$room/said" ||
        wrong="$wrong $(grep -m 1 error "$room/said")"
    for object in "$source.o" "clang_$source.o"; do
        ar p target/archives/libbaseline.a "$object" | cmp -s - "$room/$object" || wrong="$wrong $object"
    done
done
verdict "the C that is measured is what both compilers make of it at -O3, without a warning" "$wrong"
verdict "Rust is compiled as for a release, but that sums are not checked" \
    "$(diff <(sed -n '/^\[profile\./,$p' host/independent/Cargo.toml | grep -v -e '^#' -e '^$' | paste -s -d ' ') - \
        <<<'[profile.release] overflow-checks = true [profile.speed] inherits = "release" overflow-checks = false' | head -n 3)"

gcc -std=c99 -g -O1 -Wall -Wextra -Wconversion -pedantic -Werror -fsanitize=address,undefined -fno-sanitize-recover=all -I host/speed \
    host/tests/speed_baseline.c host/speed/*.c -o "$room/baseline" 2>"$room/said"
ended=$?
wrong=$(wrongs 0)
if [ -z "$wrong" ]; then
    # What the trial itself leaves behind at its end is no matter.
    ASAN_OPTIONS=detect_leaks=0 timeout 100 "$room/baseline" samples/*.log >"$room/wrote" 2>"$room/said"
    ended=$?
    wrong=$(wrongs 0; cat "$room/wrote")
fi
verdict "the three agree on the sample logs, whole and cut, and touch nothing beside what is lent" "$wrong"

# ---- bad usage

# One case: host/speed.sh, given the words from the third on, must refuse them, and say just the second word.
refuses() {
    local name=$1 line=$2
    shift 2
    run "$@"
    judge_refusal "$name" $ended "speed: $line"
}
refuses "an option that there is not is named" 'no such option: "--slow"; --help lists them' --slow
refuses "a seed that is no number is named" '--seed needs a number from 0 to 18446744073709551615, not "one"' --seed one
refuses "a seed that is not there is missed" '--seed needs a word behind it' --seed
refuses "so it is beside an earlier state" '--seed needs a word behind it' --before . --seed
refuses "a page that is missing is named" "$room/none.md cannot be read: No such file or directory (os error 2)" --page "$room/none.md"
refuses "a page without marks is left alone" \
    'README.md: the marks between which the figures stand are not there, or not in their order' --page README.md
refuses "a quick run is not for a page" '--quick goes neither with --page nor with --instructions' --quick --page $page
refuses "an earlier state that is not there is missed" '--before needs a word behind it' --quick --before
refuses "a folder that is none is no earlier state" "$room/none is no checkout of this repository" --before "$room/none"
mkdir -p "$room/scripts/host" "$room/crates/crates/panel" && : >"$room/scripts/host/archive.sh"
refuses "nor is one without the crates" "$room/scripts is no checkout of this repository" --before "$room/scripts"
refuses "nor is one without the scripts" "$room/crates is no checkout of this repository" --before "$room/crates"
checkout 'echo "archive: no archive of $1, and so on" >&2; exit 2'
refuses "why an earlier state has no archives is handed on" "$room/earlier: no archive of panel, and so on" --before "$room/earlier"
checkout 'cp target/archives/libpanel.a "$2/lib$1.a"'
refuses "an earlier state without an entry is told as that" \
    "the archives of $room/earlier lack an entry that is measured, or their names could not be changed" --before "$room/earlier"
CC=no-such-compiler refuses "a C compiler that is not there is named" 'no C compiler: no-such-compiler'
BASELINE=$room/none refuses "a folder of C that is not there is named" "there is no folder $room/none"
BASELINE=host/speed refuses "other C is not for a page" '--page is for the C of host/speed alone, and BASELINE names another folder' --page $page

# With few commands on the PATH.
mkdir "$room/few"
ln -s "$(command -v bash)" "$(command -v dirname)" "$(command -v basename)" "$(command -v readlink)" "$room/few/"
path=$room/few refuses "rt is missed" 'rt, the command of the Rattle kit, is not on the PATH'
ln -s "$(command -v rt)" "$room/few/"
path=$room/few refuses "cargo is missed" 'cargo, the command of the Rust toolchain, is not on the PATH'
ln -s "$(command -v cargo)" "$(command -v cc)" "$(command -v ar)" "$(command -v nm)" "$room/few/"
CC=cc path=$room/few refuses "objcopy is missed" 'objcopy, which changes the names in objects, is not on the PATH'
mkdir -p "$room/kit/bin" && : >"$room/kit/bin/rt" && chmod +x "$room/kit/bin/rt"
path=$room/kit/bin:$PATH refuses "the kit's compiler is missed" "the kit has no clang for $(uname -m)"
PATH=$room/few target/independent/speed/speed --instructions >"$room/wrote" 2>"$room/said"
judge_refusal "valgrind is missed" $? 'speed: valgrind, which counts instructions, cannot be run: No such file or directory (os error 2)'

bash host/archive.sh panel >"$room/wrote" 2>"$room/said"
judge_refusal "an archive needs a folder" $? 'archive: usage: host/archive.sh NAME FOLDER [TARGET]'
bash host/archive.sh lines "$room/few" >"$room/wrote" 2>"$room/said"
judge_refusal "an archive of a program is refused" $? 'archive: no library lines_c in crates/'

# ---- C that does more, or answers otherwise

# So many thousand instructions more for each question; the answer of plain C and of table C asks for the check of each line.
slow='| plain C by cc | 1 | 0 | 1 |
| plain C by clang | 0 | 4 | 0 |
| table C by cc | 0 | 0 | 1 |
| table C by clang | 2 | 2 | 2 |
| best scalar C by cc | 1 | 0 | 0 |
| best scalar C by clang | 0 | 2 | 2 |'
cp target/archives/libbaseline.a "$room/baseline.a"
cp target/independent/speed/speed "$room/speed"
cp -r host/speed "$room/slip"
cp host/tests/speed_slow.h "$room/slip/"
while read -r name words; do
    sed -i "/^[a-z0-9_]* $name(/{n;s/^{\$/{ SLOW($words);/}" "$room/slip/${name%%_*}.c"
done <<'END'
plain_line_check 1, 0
plain_choose 0, 4
table_line_check 0, 2
table_choose 0, 2
best_line_check 1, 0
best_choose 0, 2
END
sed -i '1i #include "speed_slow.h"' "$room"/slip/*.c
sed -i '/^uint32_t table_line_check(/{n;s/$/ SLIP(NO_DIGIT);/}
    s/^size_t table_answer_log(/static uint32_t asked(const uint8_t *line, size_t length) { SLOW(1, 0); return table_line_check(line, length); }\n&/
    s/answer_put(log, log_len, out, table_line_check)/answer_put(log, log_len, out, asked)/' "$room/slip/table.c"
sed -i 's/^        size_t length = readable(/        SLOW(0, 2);\n&/' "$room/slip/best.c"

# Prints which figures of the table whose first line is the second word did not rise as they should from a file to the last run.
unmoved() { awk "${@:3}" -f host/tests/speed_slow.awk <(echo "$slow") <(rows "$1" "$2") <(rows "$room/wrote" "$2") | head -n 3; }

# Where the machine is busy a time can be anything, so there are some tries; what is measured wrongly is wrong each time.
for try in 1 2 3 4 5; do
    [ $try -eq 1 ] || "$room/speed" --quick --seed 7 >"$room/times"
    BASELINE=$room/slip run --quick --seed 7
    wrong=$(wrongs 0; unmoved "$room/times" "$asked" -v wide=2 -v by=0.4 -v still=0.4)
    [ -n "$wrong" ] || break
done
verdict "C that does more takes as much longer, and nothing else does" "$wrong"
verdict "the ratios and the rates follow" "$(awk -f host/tests/speed_held.awk "$room/wrote" | head -n 3)"
if [ -e "$room/instructions" ]; then
    BASELINE=$room/slip run --instructions
    verdict "C that does more has as many instructions more, and nothing else has" \
        "$(wrongs 0; unmoved "$room/instructions" "$counted" -v wide=1 -v by=0.03 -v still=0.03 -v cost=1000)"
fi

BASELINE=$room/slip SPEED_SLIP=cc run --quick
wrong=$(wrongs 1)
[ "$(wc -l <"$room/wrote")" -eq 1 ] || wrong="$wrong printed $(wc -l <"$room/wrote") lines"
grep -qE '^DIFFERENCE: table C by cc answers otherwise than Rattle: line check, 2 for 0, input: [0-9a-f]+\\x0a$' "$room/wrote" ||
    wrong="$wrong printed: $(head -c 200 "$room/wrote" | head -n 1)"
verdict "C that finds no digits is named, with the line" "$wrong"

# The C as it is again; what links it is built anew when it is next asked for.
rm -f target/archives/libbaseline.state
cp "$room/baseline.a" target/archives/libbaseline.a

exit $status
