#!/usr/bin/env bash
# The C entries: the header, the archive, the panel shell and a program of a newcomer's, built and run, also under a memory checker.
set -u
cd "$(dirname "${BASH_SOURCE[0]}")/../.." || exit 2
. host/verdict.sh
room=$(mktemp -d) || exit 2
trap 'rm -rf "$room"' EXIT

header=host/include/panel.h
shell=target/panel/panel-shell
warnings='-Wall -Wextra -Wpedantic -Wconversion -Werror'
sanitized='-g -fsanitize=address,undefined -fno-sanitize-recover=all'
# what valgrind ends with where it finds something, which nothing here ends with of itself
found=99

# ---- header, archive, shell

# Built ahead of the case, so that it does not see it being proved.
bash host/panel.sh >/dev/null 2>&1
CFLAGS='-Werror' bash host/panel.sh >"$room/wrote" 2>"$room/said"
ended=$?
printf 'target/panel/%s\n' panel.h libpanel.a geolmiwoo-panel.pc panel-shell panel-receive >"$room/wanted"
judge "one command builds header, archive, shell and receive loop, without a warning" $ended
# Without them there is nothing to try.
[ $status -eq 0 ] || exit $status

CC=no-such-compiler bash host/panel.sh >"$room/wrote" 2>"$room/said"
judge_refusal "a compiler that is not there is named" $? "panel: no C compiler: no-such-compiler"

printf '#!/bin/sh\necho sparc-sun-solaris\n' >"$room/other-cc" && chmod +x "$room/other-cc"
CC=$room/other-cc bash host/panel.sh >"$room/wrote" 2>"$room/said"
judge_refusal "a compiler for another machine is named" $? \
    "panel: the archive is for $(uname -m)-linux-gnu, and $room/other-cc compiles for sparc-sun-solaris"

bash host/panel.sh --for pdp11 >"$room/wrote" 2>"$room/said"
judge_refusal "a machine that no archive can be made for is named, with those that one can" $? \
    "panel: no target pdp11: it is one of x86_64-linux-gnu aarch64-linux-gnu armv7-linux-gnueabihf thumbv7em-none-eabi"

for words in '--for' 'panel' '--for armv7-linux-gnueabihf panel' '--from armv7-linux-gnueabihf'; do
    # shellcheck disable=SC2086
    bash host/panel.sh $words >"$room/wrote" 2>"$room/said"
    judge_refusal "the words $words are no usage" $? "panel: usage: host/panel.sh [--for TARGET]"
done

for word in --help -h; do
    bash host/panel.sh $word >"$room/wrote" 2>"$room/said"
    verdict "$word says how to call the script, and every target" "$([ ! -s "$room/said" ] && grep -q '^host/panel\.sh \[--for TARGET\]: ' "$room/wrote" &&
        grep -q '^TARGET is one of x86_64-linux-gnu aarch64-linux-gnu armv7-linux-gnueabihf thumbv7em-none-eabi\.$' "$room/wrote" || head -n 1 "$room/wrote")"
done

# ---- the header

# shellcheck disable=SC2086
wrong=$(echo '#include "panel.h"' | gcc -x c -std=c99 $warnings -Wmissing-prototypes -fsyntax-only -I target/panel - 2>&1 | head -n 1)
verdict "the header alone is good C99, without a warning" "$wrong"

# shellcheck disable=SC2086
wrong=$(echo '#include "panel.h"' | g++ -x c++ $warnings -fsyntax-only -I target/panel - 2>&1 | head -n 1)
verdict "the header alone is good C++, without a warning" "$wrong"

# The declarations in C of the entries that the crate exports.
declared() {
    sed -n 's/^pub extern "C" fn \(.*\)(\(.*\)) -> u32$/uint32_t \1(\2);/p' crates/panel_c/src/lib.rt |
        sed 's/\([a-z_]*\): &\[u8\]/const uint8_t *\1, uint64_t \1_len/g' | sort
}
# The declarations of a header.
declares() { grep -E '^[a-z].*\);$' "$1" | sort; }
declared >"$room/wanted"
declares $header >"$room/wrote"
: >"$room/said"
[ "$(grep -c '^pub extern "C" fn ' crates/panel_c/src/lib.rt)" -eq "$(wc -l <"$room/wanted")" ] || echo "an entry of the crate was not understood" >"$room/said"
judge "the header declares the entries of the crate, as they are" 0

sed 's/uint64_t \([a-z]*_len\)/size_t \1/g' $header >"$room/narrow.h"
verdict "a header whose lengths are no longer of 64 bits would be found" "$(cmp -s <(declares "$room/narrow.h") "$room/wanted" && echo "it was not")"

# Constants are of use to the preprocessor, and the three numbers of the version make the one.
cat >"$room/constants.c" <<'END'
#include <stdio.h>

#include "panel.h"

#if (PANEL_NO_CHOICE != 10) || (PANEL_READABLE != 0) || (PANEL_SECOND != 2) || (PANEL_LONGEST_LINE != 63) || (PANEL_STACK < 256)
#error "a constant has another value"
#endif
#if (PANEL_VERSION < 10000) || (PANEL_VERSION / 10000 != PANEL_VERSION_MAJOR) || (PANEL_VERSION % 100 != PANEL_VERSION_PATCH)
#error "the version is another"
#endif

int main(void)
{
    const uint32_t number[3] = {PANEL_VERSION_MAJOR, PANEL_VERSION_MINOR, PANEL_VERSION_PATCH};

    (void)printf("panel %lu.%lu.%lu\n", (unsigned long)number[0], (unsigned long)number[1], (unsigned long)number[2]);
    return (sizeof(PANEL_LONGEST_LINE) == 8U) ? 0 : 1;
}
END
bash host/panel.sh --version >"$room/wanted"
# shellcheck disable=SC2086
gcc -std=c99 $warnings -I target/panel -o "$room/constants" "$room/constants.c" 2>"$room/said" && "$room/constants" >"$room/wrote" 2>>"$room/said"
judge "the constants of the header are of use in #if, and its version is that of the script" $?

sed -n 's/^Version: /panel /p' target/panel/geolmiwoo-panel.pc >"$room/wrote" 2>"$room/said"
judge "the file for pkg-config has the version of the header" 0

# ---- the archive

# Whatever the archive has but code and constants of its own; names with $ mark places.
nm target/panel/libpanel.a | sed -n '/ \$/d; s/^[0-9a-f ]* \([^rt]\) \(.*\)$/\1 \2/p' | sort >"$room/wrote"
sed -n 's/^pub extern "C" fn \([a-z0-9_]*\).*/T \1/p' crates/panel_c/src/lib.rt | sort >"$room/wanted"
: >"$room/said"
judge "the archive has those entries, keeps no state and needs nothing else" 0

# ---- the entries

# Compiles the entries' cases to the first word, with the words behind it.
compile_entries() {
    local to=$1
    shift
    # shellcheck disable=SC2086
    gcc -std=c99 $warnings "$@" -I target/panel -o "$to" host/tests/panel_entries.c target/panel/libpanel.a
}

compile_entries "$room/entries" -g && "$room/entries"
ended=$?
verdict "the cases of the entries end with a pass" "$([ $ended -eq 0 ] || echo "status $ended")"

"$room/entries" >"$room/wanted"
valgrind -q --leak-check=full --error-exitcode=$found "$room/entries" >"$room/wrote" 2>"$room/said"
judge "the entries read no byte beside a line: valgrind finds nothing" $?

# The same cases with a length that is one too large, which valgrind must find.
sed 's|answers = ask(one, first.length,|answers = ask(one, first.length + 1U,|' host/tests/panel_entries.c >"$room/too_long.c"
gcc -std=c99 -g -I target/panel -o "$room/too_long" "$room/too_long.c" target/panel/libpanel.a
valgrind -q --error-exitcode=$found "$room/too_long" >/dev/null 2>&1
ended=$?
verdict "valgrind would find a byte read too many" "$([ $ended -eq $found ] || echo "status $ended")"

# shellcheck disable=SC2086
compile_entries "$room/sanitized" $sanitized && "$room/sanitized" >"$room/wrote" 2>"$room/said"
judge "the code that calls the entries, under the address and undefined behaviour sanitizers" $?

# shellcheck disable=SC2086
gcc -std=c99 -O2 $warnings -I target/panel -o "$room/stack" host/tests/panel_stack.c target/panel/libpanel.a
most=$("$room/stack") && ended=0 || ended=1
verdict "no entry takes the bytes of stack that panel.h names" "$([ $ended -eq 0 ] || echo "${most:-no} bytes")"

# ---- the shell

sample=samples/announcements.log
shown=samples/announcements.shown

cp $shown "$room/wanted"
$shell $sample >"$room/wrote" 2>"$room/said"
judge "the shell shows what each announcement is and which call wins" $?

$shell - <$sample >"$room/wrote" 2>"$room/said"
judge "the shell takes standard input as it takes a file" $?

valgrind -q --leak-check=full --error-exitcode=$found $shell $sample >"$room/wrote" 2>"$room/said"
judge "the shell under valgrind" $?

# shellcheck disable=SC2086
gcc -std=c99 $warnings $sanitized -I target/panel -I host/shell -o "$room/shell" host/shell/*.c target/panel/libpanel.a &&
    "$room/shell" $sample >"$room/wrote" 2>"$room/said"
judge "the shell under the address and undefined behaviour sanitizers" $?

# What the shell says of each line, in the words of the program lines: `!` and a number, or the line itself, which it does not show.
verdicts() { sed -n 's/^[0-9]*: refused (\([0-9]*\)).*/!\1/p; s/^[0-9]*: \(readable\|announcement\).*/good/p' "$1"; }
"$room/shell" crates/lines/stdin >"$room/shown" 2>"$room/said"
ended=$?
verdicts "$room/shown" >"$room/wrote"
sed 's/^[^!].*/good/' crates/lines/stdout >"$room/wanted"
judge "the shell refuses what the program lines refuses, by the same number" $ended

echo 'no call' >"$room/wanted"
$shell </dev/null >"$room/wrote" 2>"$room/said"
judge "no input is no call" $?

# ---- the ends of what the shell reads

# 2,849 lines of 23 bytes are 65,527: nine bytes are left of the next one.
yes 0212340000000700000009 | head -c 65536 >"$room/full"
seq -f '%.0f: readable, and no announcement' 2849 >"$room/wanted"
printf '%s\n' '2850: refused (1): it does not end in a line end' 'no call' >>"$room/wanted"
$shell "$room/full" >"$room/wrote" 2>"$room/said"
judge "65,536 bytes are heard, and nothing is said of more" $?

{ cat "$room/full" && printf x; } >"$room/long"
$shell "$room/long" >"$room/wrote" 2>"$room/said"
judge "a byte more is named and not heard" $? 0 "panel-shell: $room/long: only its first 65536 bytes are heard"

$shell <"$room/long" >"$room/wrote" 2>"$room/said"
judge "a byte more is named of standard input too" $? 0 "panel-shell: standard input: only its first 65536 bytes are heard"

: >"$room/wanted"
: >"$room/wrote"
$shell $sample >/dev/full 2>"$room/said"
judge "an answer that cannot be written is named" $? 1 "panel-shell: the answer could not be written"

$shell --help >/dev/full 2>"$room/said"
judge "help that cannot be written is named" $? 1 "panel-shell: the answer could not be written"

$shell "$room/none" >"$room/wrote" 2>"$room/said"
judge_refusal "a log that is not there is named" $? "panel-shell: $room/none: cannot be opened"

$shell "$room" >"$room/wrote" 2>"$room/said"
judge_refusal "a folder is no log" $? "panel-shell: $room: cannot be read"

$shell <"$room" >"$room/wrote" 2>"$room/said"
judge_refusal "a folder is no standard input" $? "panel-shell: standard input: cannot be read"

$shell $sample $sample >"$room/wrote" 2>"$room/said"
judge_refusal "two logs are one too many" $? "panel-shell: usage: panel-shell [LOG]"

$shell --help >"$room/wrote" 2>"$room/said"
verdict "--help says how to call the shell" "$(grep -q '^panel-shell \[LOG\]: ' "$room/wrote" || echo "printed: $(head -n 1 "$room/wrote")")"

bash host/panel.sh --version | sed 's/^panel /panel-shell /' >"$room/wanted"
$shell --version >"$room/wrote" 2>"$room/said"
judge "--version says the version of the shell" $?

# A guard that is changed is told: the shell with one byte of a guard changed once the first line is heard.
head -n 1 $shown >"$room/wanted"
for byte in 'ahead[0]' 'ahead[LENT_GUARD - 1U]' 'behind[0]' 'behind[LENT_GUARD - 1U]'; do
    sed "s|held = hear(held, next);|& heard.$byte = 0U;|" host/shell/panel_shell.c >"$room/spoilt.c"
    gcc -std=c99 -I target/panel -I host/shell -o "$room/spoilt" "$room/spoilt.c" host/shell/lent.c target/panel/libpanel.a &&
        "$room/spoilt" $sample >"$room/shown" 2>"$room/said"
    ended=$?
    head -n 1 "$room/shown" >"$room/wrote"
    judge "a change of the guard at $byte is told" $ended 3 "panel-shell: memory beside the buffer was changed at line 1"
done

# ---- a newcomer's program

sed -n '/^```c$/,/^```$/p' docs/C.md | sed '1d;$d' >"$room/mine.c"
sed -n 's|^/\* prints: \(.*\) \*/$|\1|p' "$room/mine.c" >"$room/wanted"
[ -s "$room/wanted" ] || echo "what the program of docs/C.md says that it prints" >"$room/wanted"
command=$(sed -n 's/^    \(cc .* mine\.c target.*\)$/\1/p' docs/C.md)
ln -s "$(pwd -P)/target" "$room/target"
(cd "$room" && eval "${command:-false}" && ./mine) >"$room/wrote" 2>"$room/said"
judge "the program in docs/C.md compiles by the command that stands there, and prints what it says" $?

# shellcheck disable=SC2086
gcc -std=c99 $warnings -fsyntax-only -I target/panel "$room/mine.c" >"$room/wrote" 2>&1
verdict "the program in docs/C.md has no warning" "$(head -n 1 "$room/wrote")"

# shellcheck disable=SC2086
g++ -x c++ $warnings -I target/panel -o "$room/mine" "$room/mine.c" -x none target/panel/libpanel.a 2>"$room/said" &&
    "$room/mine" >"$room/wrote" 2>>"$room/said"
judge "the same program is good C++, and links" $?

# By the command with pkg-config, with the folder where it was made, and moved, and gone from there.
command=$(sed -n 's/^    \(cc .* mine\.c \$(.*\)$/\1/p' docs/C.md)
if command -v pkg-config >/dev/null; then
    rm -f "$room/mine"
    (cd "$room" && eval "${command:-false}" && ./mine) >"$room/wrote" 2>"$room/said"
    judge "the program in docs/C.md compiles by the command with pkg-config that stands there" $?
    rm "$room/target" "$room/mine" && mkdir "$room/moved" && cp target/panel/{panel.h,libpanel.a,geolmiwoo-panel.pc} "$room/moved/"
    (cd "$room" && eval "${command/target\/panel/moved}" && ./mine) >"$room/wrote" 2>"$room/said"
    judge "the folder may be moved" $?
    wrong=$(PKG_CONFIG_PATH=$room/moved pkg-config --cflags --libs geolmiwoo-panel | sed 's/ *$//' | grep -vxF -e "-I$room/moved $room/moved/libpanel.a")
    verdict "and pkg-config finds what is in it, and nothing elsewhere" "$wrong"
    PKG_CONFIG_PATH=$room/moved pkg-config --modversion geolmiwoo-panel | sed 's/^/panel /' >"$room/wrote"
    bash host/panel.sh --version >"$room/wanted"
    judge "pkg-config tells the version of the header" 0
else
    left_out "the file for pkg-config" "there is no pkg-config"
fi

exit $status
