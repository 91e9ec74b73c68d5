#!/usr/bin/env bash
# The receive loop in C: lines in whatever pieces they come, lines that are too long, the own group, the ends of input, and memory.
set -u
cd "$(dirname "${BASH_SOURCE[0]}")/../.." || exit 2
. host/verdict.sh
room=$(mktemp -d) || exit 2
trap 'rm -rf "$room"' EXIT

receive=target/panel/panel-receive
sample=samples/announcements.log
warnings='-Wall -Wextra -Wpedantic -Wconversion -Werror'
sanitized='-g -fsanitize=address,undefined -fno-sanitize-recover=all'
# what valgrind ends with where it finds something, which nothing here ends with of itself
found=99

bash host/panel.sh >/dev/null 2>"$room/said"
ended=$?
verdict "host/panel.sh builds it" "$([ $ended -eq 0 ] || tail -n 1 "$room/said")"
[ $status -eq 0 ] || exit $status

# Gives standard input to the loop with these words, and leaves what it wrote and said, and its status.
run() {
    $receive "$@" >"$room/wrote" 2>"$room/said"
    ended=$?
}

# ---- what is told of a line

# What the panel shell shows of the same log, but for its words.
sed 's/refused (\([0-9]\)): .*/refused (\1)/; s/^7: .*/7: announcement: the call of line 5 again/; s/^8: .*/8: announcement: of another group/' \
    samples/announcements.shown >"$room/shown"
cp "$room/shown" "$room/wanted"
run <$sample
judge "each line is told, and the best call of the first group is held" $ended

run < <(dd if=$sample bs=1 status=none)
judge "the same byte by byte" $ended

run 00000003 <$sample
judge "the same where its group is given" $ended

sed 's/announcement: .*/announcement: of another group/; s/^8: .*/8: announcement: the first, its call is held/; $d' "$room/shown" >"$room/wanted"
echo "the call of line 8: $(sed -n 8p $sample)" >>"$room/wanted"
run 00000004 <$sample
judge "of another group that is given that group's call is held" $ended

echo 'no call' >"$room/wanted"
run </dev/null
judge "no input is no call" $ended

# Prints a thousand announcements, of two groups, made of a seed.
announcements() {
    awk -v seed="$1" 'BEGIN { srand(seed); for (i = 1; i <= 1000; i++) { start = sprintf("%08x", rand() * 50 + 1000)
        printf "08%04x0000000%d0%d001e0000000500000007%s%s0000000700\n", rand() * 60000 + 1, rand() < 0.5 ? 3 : 4, rand() * 3 + 1, start, start } }'
}
wrong=''
for seed in 1 2 3; do
    announcements $seed >"$room/many"
    target/panel/panel-shell "$room/many" | tail -n 1 >"$room/wanted"
    run <"$room/many"
    tail -n 1 "$room/wrote" | cmp -s - "$room/wanted" && grep -q ' wins over that of ' "$room/wrote" || wrong="$wrong $seed"
done
verdict "the call held at the end is the panel shell's, of a thousand announcements" "$wrong"

# A call that is raised is announced by the same identifier with a later change: in whatever order, what is held is what the proved machine of a
# cab has that hears the same lines.
announced() { printf '08%s000000030%s001e0000000500000007000003e8%s0000000700\n' "$@"; }
basic=$(announced 0010 1 000003e8) raised=$(announced 0010 2 0000044c) peril=$(announced 0011 3 000003e9) again=$(announced 0010 1 ffffffff)
# Prints identifier, type and last change of the announcement that is held, and of the call that the cab has.
held_by_loop() { $receive <"$1" | sed -n 's/^the call of line [0-9]*: 08\(....\).\{8\}\(..\).\{28\}\(.\{8\}\).*/0x\1 0x\2 0x\3/p' | xargs printf '%d %d %d\n'; }
held_by_cab() {
    { echo 'b settings group=3' && sed 's/^/b hears /' "$1"; } | bin/drill |
        sed -nE 's/.* b group .*,identifier=([0-9]+),type=([0-9]+),.*,last-change=([0-9]+),.*/\1 \2 \3/p' | tail -n 1
}
wrong=''
for order in "$basic $raised $peril" "$raised $basic $peril" "$peril $basic $raised" "$basic $peril $raised" "$raised $peril $basic" "$raised $again $peril" "$basic $raised"; do
    # shellcheck disable=SC2086
    printf '%s\n' $order >"$room/log"
    [ -n "$(held_by_cab "$room/log")" ] && [ "$(held_by_loop "$room/log")" = "$(held_by_cab "$room/log")" ] || wrong="$wrong; $order: $(held_by_loop "$room/log"), not $(held_by_cab "$room/log")"
done
verdict "a call that is raised is held as the proved machine has it" "$wrong"
printf '%s\n' "$basic" "$raised" "$basic" >"$room/log"
printf '%s\n' '1: announcement: the first, its call is held' '2: announcement: the call of line 1 with a later change' \
    '3: announcement: the call of line 2 again' "the call of line 2: $raised" >"$room/wanted"
run <"$room/log"
judge "a later change is told, and an earlier one is not taken back" $ended

# What it says of the lines that the program lines answers: the same number, or that the line is too long, which has none.
sed -n 's/^[0-9]*: refused (\([0-9]\))$/!\1/p; s/^[0-9]*: too long.*/long/p; s/^[0-9]*: \(readable\|announcement\).*/good/p' <($receive <crates/lines/stdin) >"$room/told"
sed 's/^[^!].*/good/' crates/lines/stdout >"$room/answers"
wrong=$(paste -d ' ' "$room/told" "$room/answers" | awk '$1 != $2 && $1 != "long" || NF != 2 { print NR ": " $0; exit }')
[ "$(grep -c '!' "$room/told")" -gt 9 ] || wrong="$wrong few lines were refused"
verdict "the loop refuses what the program lines refuses, by the same number" "$wrong"

# ---- too long, and unended

# Prints so many zeros.
zeros() { head -c "$1" /dev/zero | tr '\0' 0; }

good=$(sed -n 1p $sample)
for length in 63 64 65 100000; do
    { zeros $((length - 1)) && printf '\n%s\n' "$good"; } >"$room/log"
    told='too long for a line'
    [ $length -gt 63 ] || told='refused (3)'
    printf '%s\n' "1: $told" '2: announcement: the first, its call is held' "the call of line 2: $good" >"$room/wanted"
    run <"$room/log"
    judge "a line of $length bytes is told as: $told; the next one is taken" $ended
done

for length in 1 62 63 64 100000; do
    { printf '%s\n' "$good" && zeros $length; } >"$room/log"
    told='too long for a line'
    [ $length -gt 63 ] || told='refused (1)'
    printf '%s\n' '1: announcement: the first, its call is held' "2: $told" "the call of line 1: $good" >"$room/wanted"
    run <"$room/log"
    judge "$length bytes without a line end are told once, as: $told" $ended
done

# A link that breaks in a line, short or too long: what comes then is a line of its own. The same from C++.
cat >"$room/breaks.c" <<'END'
#include <stdio.h>
#include <string.h>
#include "receive.h"

/* Takes a text to its end, and prints what becomes of it. */
static void take(struct receive_state *state, const char *text)
{
    size_t at = 0U;

    while (at < strlen(text)) {
        size_t taken = 0U;

        (void)printf("%d ", (int)receive_bytes(state, (const uint8_t *)&text[at], strlen(text) - at, &taken).kind);
        at += taken;
    }
}

/* Prints what becomes of a short line, a line that is too long and a good one, with a break behind each of the first two. */
int main(void)
{
    struct receive_state state;

    receive_start(&state);
    take(&state, "0");
    (void)printf("%d ", (int)receive_end(&state).kind);
    take(&state, "0000000000000000000000000000000000000000000000000000000000000000000000");
    (void)printf("%d ", (int)receive_end(&state).kind);
    take(&state, "0800100000000301001e0000000500000007000003e8000003e80000000700\n");
    (void)printf("%d %lu\n", (int)RECEIVE_FIRST, (unsigned long)state.held_place);
    return 0;
}
END
echo '0 2 1 0 0 5 5 3' >"$room/wanted"
gcc -std=c99 -O2 -c -I target/panel -o "$room/receive.o" host/receive/receive.c
for compiler in 'gcc -std=c99' 'g++ -x c++'; do
    # shellcheck disable=SC2086
    $compiler $warnings -I target/panel -I host/receive -c -o "$room/breaks.o" "$room/breaks.c" 2>"$room/said" &&
        g++ -o "$room/breaks" "$room/breaks.o" "$room/receive.o" target/panel/libpanel.a 2>>"$room/said" && "$room/breaks" >"$room/wrote" 2>>"$room/said"
    judge "what comes behind a break is a line of its own, by ${compiler%% *}" $?
done

# ---- as it comes, and its ends

mkfifo "$room/in" "$room/out"
$receive <"$room/in" >"$room/out" 2>"$room/said" &
exec 3>"$room/in" 4<"$room/out"
printf '%s' "${good:0:20}" >&3 && read -r -t 1 -u 4 early
printf '%s\n' "${good:20}" >&3 && read -r -t 10 -u 4 line
exec 3>&-
wait $!
ended=$?
verdict "a line is told when it ends, and not before" "$([ $ended -eq 0 ] && [ -z "${early-}" ] && [ "${line-}" = '1: announcement: the first, its call is held' ] || echo "status $ended: ${early-}:${line-}")"
exec 4<&-

: >"$room/wanted"
run <"$room"
judge "input that cannot be read is named, and is not its end" $ended 2 "panel-receive: standard input: cannot be read"

# The program with a read that hands out an announcement and the half of another, and then fails.
cat >"$room/fails.c" <<END
#include <string.h>
#include <sys/types.h>
ssize_t fails(int from, void *to, size_t most);
ssize_t fails(int from, void *to, size_t most)
{
    static const char bytes[] = "$good\\n0800";
    static int times = 0;

    times++;
    (void)from;
    (void)most;
    (void)memcpy(to, bytes, sizeof(bytes) - 1U);
    return (times == 1) ? (ssize_t)(sizeof(bytes) - 1U) : -1;
}
END
echo '1: announcement: the first, its call is held' >"$room/wanted"
gcc -std=c99 -Dread=fails -I target/panel -I host/receive -o "$room/fails" "$room/fails.c" host/receive/*.c target/panel/libpanel.a &&
    "$room/fails" >"$room/wrote" 2>"$room/said"
judge "input that fails within a line is named, and nothing is told of what has come of it" $? 2 "panel-receive: standard input: cannot be read"

: >"$room/wanted"
: >"$room/wrote"
$receive <$sample >/dev/full 2>"$room/said"
judge "an answer that cannot be written is named" $? 1 "panel-receive: the answer could not be written"
yes | timeout 20 $receive 2>"$room/said" >/dev/full
judge "and is not waited for" $? 1 "panel-receive: the answer could not be written"

usage="panel-receive: usage: panel-receive [GROUP], a group of eight digits 0-9 and a-f, not 0"
for words in 00000000 0000003 0000000A 000000003 '00000003 00000003'; do
    # shellcheck disable=SC2086
    run $words <$sample
    judge_refusal "no group: $words" $ended "$usage"
done

run --help
verdict "--help says how to call it" "$(grep -q '^panel-receive \[GROUP\]: ' "$room/wrote" || head -n 1 "$room/wrote")"

bash host/panel.sh --version | sed 's/^panel /panel-receive /' >"$room/wanted"
run --version
judge "--version says its version" $ended

# ---- pieces, and memory

{ cat $sample && echo && zeros 62 && echo && zeros 63 && echo && zeros 64 && echo && zeros 100000 && echo && head -n 100 "$room/many" && printf 08; } >"$room/log"

# Compiles a program of the loop to the first word, with the words behind it.
compile() {
    local to=$1
    shift
    # shellcheck disable=SC2086
    gcc -std=c99 $warnings -I target/panel -I host/receive -o "$to" "$@" host/receive/receive.c target/panel/libpanel.a
}

compile "$room/pieces" -g host/tests/receive_pieces.c && "$room/pieces" <"$room/log" >"$room/wanted" 2>"$room/said"
ended=$?
cp "$room/wanted" "$room/wrote"
judge "whole, byte by byte, and in random pieces of 200 seeds the answer is the same" $ended
verdict "and it has every line, and the call held" \
    "$(awk 'END { if (NR != 121 || $1 != "held") print NR ": " $0 }' "$room/wanted")"

# shellcheck disable=SC2086
compile "$room/sanitized" $sanitized host/tests/receive_pieces.c && "$room/sanitized" <"$room/log" >"$room/wrote" 2>"$room/said"
judge "the same under the address and undefined behaviour sanitizers" $?

run <"$room/log"
cp "$room/wrote" "$room/wanted"
valgrind -q --leak-check=full --error-exitcode=$found $receive <"$room/log" >"$room/wrote" 2>"$room/said"
judge "the program under valgrind" $?

# shellcheck disable=SC2086
compile "$room/small" $sanitized -DPIECE=1 host/receive/panel_receive.c && "$room/small" <"$room/log" >"$room/wrote" 2>"$room/said"
judge "the program with pieces of one byte, under the sanitizers" $?

head -c 20000 "$room/log" >"$room/short"
"$room/pieces" <"$room/short" >"$room/wanted" 2>&1
valgrind -q --leak-check=full --error-exitcode=$found "$room/pieces" <"$room/short" >"$room/wrote" 2>"$room/said"
judge "pieces in blocks of just their length: valgrind finds nothing" $?

printf '#include "receive.h"\nextern char few[sizeof(struct receive_state) <= 4U * PANEL_LONGEST_LINE ? 1 : -1];\n' >"$room/few.c"
gcc -std=c99 -fsyntax-only -I target/panel -I host/receive "$room/few.c" 2>"$room/said"
verdict "all memory is the struct, less than that of four lines" "$(head -n 1 "$room/said")"
verdict "the pair calls the entries, and nothing else but what a compiler brings" \
    "$(nm -u "$room/receive.o" | awk '{ print $2 }' | grep -vx -e panel_choose -e panel_line_check -e memcpy -e memset -e __stack_chk_fail | paste -s -d ' ')"

# ---- the commands of docs/C.md

ln -s "$(pwd -P)/target" "$(pwd -P)/host" "$(pwd -P)/samples" "$room/"
command=$(sed -n 's/^    \(cc .* -o receive .*\)$/\1/p' docs/C.md)
call=$(sed -n 's/^    \(\.\/receive .*\)$/\1/p' docs/C.md)
cp "$room/shown" "$room/wanted"
(cd "$room" && eval "${command:-false}" && eval "${call:-false}") >"$room/wrote" 2>"$room/said"
judge "the commands of docs/C.md build and run it" $?

exit $status
