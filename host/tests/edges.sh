#!/usr/bin/env bash
# The commands of bin/, at their edges: an input that cannot be read is not its end, an answer that cannot be written is told, both by one line
# and a status; and what they are called with.
set -u
cd "$(dirname "${BASH_SOURCE[0]}")/../.." || exit 2
. host/verdict.sh
room=$(mktemp -d) || exit 2
trap 'rm -rf "$room"' EXIT
gcc -std=c99 -Wall -Wextra -Wpedantic -Wconversion -Werror -o "$room/fed" host/tests/fed.c
verdict "what feeds the commands is compiled" "$([ $? -eq 0 ] || echo 'it is not')"

# One case: the run that ended with the status of the second word was to write nothing, and to say that its input could not be read.
unread() {
    : >"$room/wanted"
    judge "$name: $1" "$2" 2 "$name: standard input could not be read"
}

# One case: the run that ended with the status of the second word was to say that its answer could not be written.
unwritten() {
    : >"$room/wrote"
    : >"$room/wanted"
    judge "$name: $1" "$2" 1 "$name: the answer could not be written"
}

# One case: the command, given the words from the third on, must refuse them, and say just the second word behind its name.
refuses() {
    local case=$1 line=$2
    shift 2
    "$command" "$@" >"$room/wrote" 2>"$room/said" <"$input"
    judge_refusal "$name: $case" $? "$name: $line"
}

# All cases of the command of the first word, which calls what it reads by the second, as in the file of the third, with the answer of the
# fourth.
edges() {
    local name=$1 what=$2 input=$3 answer=$4 command=bin/$1
    # Built ahead of the cases, so that none of them sees it being built.
    "$command" </dev/null >/dev/null 2>&1

    # What cannot be read, or not to its end.
    "$command" <"$room" >"$room/wrote" 2>"$room/said"
    unread "a folder is no standard input" $?
    "$command" 0>"$room/out" >"$room/wrote" 2>"$room/said"
    unread "a descriptor that is not for reading is no standard input" $?
    "$room/fed" pipe "$command" <"$input" >"$room/wrote" 2>"$room/said"
    unread "a pipe that does not wait for the rest is told, and no part of it answered" $?
    "$room/fed" pipe "$command" </dev/null >"$room/wrote" 2>"$room/said"
    unread "a pipe that does not wait for anything is told" $?
    "$command" <&- >"$room/wrote" 2>"$room/said"
    judge_refusal "$name: a standard input that is closed is told" $? "$name: standard input is closed"
    bash host/program.sh "$name" <&- >"$room/wrote" 2>"$room/said"
    judge_refusal "$name: a standard input that is closed is told, without the command" $? "$name: standard input is closed"

    # What can.
    cp "$answer" "$room/wanted"
    "$room/fed" terminal "$command" <"$input" >"$room/wrote" 2>"$room/said"
    judge "$name: a terminal is read, and its end is typed once" $?
    "$command" - <"$input" >"$room/wrote" 2>"$room/said"
    judge "$name: a - stands for standard input" $?
    "$command" -- "$input" >"$room/wrote" 2>"$room/said"
    judge "$name: behind -- stands a file" $?
    (cd "$room" && "$OLDPWD/$command") <"$input" >"$room/wrote" 2>"$room/said"
    judge "$name: standard input is read in any folder" $?
    cp "$input" "$room/a file"
    "$command" "$room/a file" >"$room/wrote" 2>"$room/said"
    judge "$name: a file may have a blank in its name" $?
    ln -sf "$PWD/$command" "$room/linked"
    (cd "$room" && ./linked "a file") >"$room/wrote" 2>"$room/said"
    judge "$name: the command may be linked to" $?

    # What cannot be written.
    "$command" "$input" >/dev/full 2>"$room/said"
    unwritten "an answer that does not fit its device is told" $?
    "$command" "$input" >&- 2>"$room/said"
    unwritten "an answer to nowhere is told" $?
    yes '#' | head -c 70000 | "$command" >"$room/wanted" 2>/dev/null
    yes '#' | head -c 70000 | "$command" >"$room/wrote" 2>/dev/full
    ended=$?
    : >"$room/said"
    judge "$name: an error output that takes nothing changes nothing" $ended

    # What they are called with.
    refuses "a file that is not there is named" "$room/none: no such file" "$room/none"
    refuses "'' is no file name" "'' is no file name" ''
    refuses "a folder is no file" "$room: is a folder" "$room"
    setsid -w "$command" /dev/tty <"$input" >"$room/wrote" 2>"$room/said"
    judge_refusal "$name: a file that cannot be opened is told, and standard input is not taken for it" $? "$name: /dev/tty: cannot be opened"
    refuses "two files are one too many" "usage: $name [$what]" "$input" "$input"
    refuses "an option that there is not is named" "no such option: --none; --help says how to call it" --none
}
printf '%s\n' 0212340000000700000009 0212340000000700000009z '' 0512340000000700000009 >"$room/log"
printf '%s\n' 0212340000000700000009 '!2' '!3' 0512340000000700000009 >"$room/answer"
edges lines LOG "$room/log" "$room/answer"
edges drill SCRIPT samples/old-timer.drill samples/old-timer.shown

# ---- every command says what it is

# The version, of which there is one, as a compiler reads it.
version=$(gcc -E -P -x c - <<<'#include "host/include/panel.h"
PANEL_VERSION_MAJOR.PANEL_VERSION_MINOR.PANEL_VERSION_PATCH' | tail -n 1 | tr -d 'U ')
verdict "the version is three numbers" "$([[ $version =~ ^[0-9]+\.[0-9]+\.[0-9]+$ ]] || echo "$version")"

# One case: the command of the first word prints its name and version, and nothing else.
has_version() {
    local name
    name=$(basename "$1" .sh)
    bash "$1" --version >"$room/wrote" 2>"$room/said" </dev/null
    ended=$?
    echo "$name $version" >"$room/wanted"
    judge "$1 --version says the version" $ended
}

# One case: the command of the first word prints how it is called, begun by its name, where it is asked in either way, and says so where that
# cannot be written.
has_help() {
    local name wrong='' option
    name=$(basename "$1" .sh)
    for option in --help -h; do
        (cd docs && bash "../$1" $option) >"$room/wrote" 2>"$room/said" </dev/null || wrong="$wrong $option: status $?"
        [ ! -s "$room/said" ] || wrong="$wrong $option said: $(head -n 1 "$room/said")"
        grep -qE "^(host/)?$name(\.sh)?( [^:]+)?: " "$room/wrote" || wrong="$wrong $option printed: $(head -n 1 "$room/wrote")"
    done
    bash "$1" --help >/dev/full 2>"$room/said" </dev/null
    ended=$?
    [ $ended -eq 1 ] && [ "$(cat "$room/said")" = "$name: the answer could not be written" ] || wrong="$wrong not written: status $ended $(cat "$room/said")"
    verdict "$1 --help says how to call it, from any folder" "$wrong"
}

# The commands: those of bin/, and those of host/ that others do not read.
for command in bin/* $(grep -l '^#!' host/*.sh); do
    has_version "$command"
    has_help "$command"
done

exit $status
