#!/usr/bin/env bash
# host/program.sh [--command] NAME: runs the program NAME of crates/ on this standard input and output. Before that it proves and builds NAME
# quietly, where anything has changed. With --command it does not run it, but says the words of the command that would, a line each.
# Ends as the program does, but with 1 where it says that its answer could not be written, and with 2 where it says that its input could not
# be read.
set -u
root=$(cd "$(dirname "${BASH_SOURCE[0]}")/.." && pwd -P) || exit 2
. "$root/host/command.sh"
. "$root/host/state.sh"
about "$@"
run=run
if [ "${1-}" = --command ]; then
    run=tell
    shift
fi
[ $# -eq 1 ] && [ -n "$1" ] || fail "usage: host/program.sh [--command] NAME"
name=$1
called=$name

# Runs the command of these words, hands on what it says on standard error, and ends as it does; a signal ends both.
run() {
    local errors child signal status=1
    ended=''
    [ -e /dev/fd/0 ] || fail "standard input is closed"
    errors=$(mktemp) || fail "there is no room for temporary files"
    # shellcheck disable=SC2064
    trap "rm -f $(printf %q "$errors")" EXIT
    if [ -e /dev/fd/1 ]; then
        "$@" <&0 2>"$errors" &
        child=$!
        for signal in TERM HUP INT; do
            # shellcheck disable=SC2064
            trap "ended=$signal; kill $child" $signal
        done
        wait $child 2>/dev/null
        status=$?
        # A signal ends the wait ahead of the program.
        while kill -0 $child 2>/dev/null; do
            wait $child 2>/dev/null
            status=$?
        done
    else
        echo "$called: the answer could not be written" >"$errors"
    fi
    cat "$errors" >&2
    if [ -n "$ended" ]; then
        rm -f "$errors"
        trap - EXIT "$ended"
        kill -s "$ended" $$
    fi
    case $(tail -n 1 "$errors") in
    *'could not be written') status=1 ;;
    *'could not be read') status=2 ;;
    esac
    exit $status
}

# Says the words, a line each.
tell() { printf '%s\n' "$@"; }

[ -f "$root/crates/$name/src/main.rt" ] || fail "no program of this name in crates/"
needs_kit
program=$root/target/bin/$name

# Has rt prove and build the program, which stays in its crate, and run it on no input; takes it to where it belongs.
# shellcheck disable=SC2016
build='"$1" run </dev/null >/dev/null 2>&1 && cp "out/$2" "$3.new" && mv "$3.new" "$3"'

# Where nothing has changed rt is not asked: it may be busy.
now=$(cd "$root" && state)
if [ ! -x "$program" ] || { [ -e "$program.state" ] && ! is_noted "$program" "$program.state"; }; then
    needs_target
    rm -f "$program.state"
    echo "$name: proving and building it first: a few minutes, once" >&2
fi
if ! is_state "$program" "$program.state" "$now"; then
    needs_target
    rm -f "$program.state"
    mkdir -p "$root/target/bin" 2>/dev/null || fail "target/bin cannot be written"
    bash "$root/host/alone.sh" env -C "crates/$name" bash -c "$build" build "$rt" "$name" "$program" </dev/null >/dev/null 2>&1 ||
        fail "not proved or not built: cd crates/$name && rt run says why"
    # Of a source that has changed meanwhile nothing is known.
    [ "$(cd "$root" && state)" != "$now" ] || note_state "$program" "$program.state" "$now" || fail "target/bin cannot be written"
fi

$run "$program"
