#!/usr/bin/env bash
# host/pictures.sh [--check]: draws the machines of private and of group calls, docs/private-call.svg and docs/group-call.svg, from the
# tables of their rows. With --check it writes nothing, and names each picture that is not what it would draw, and what docs/MACHINES.md
# says otherwise than the definitions; its status is then 1. What it cannot read in a table, has no place for in a layout, or has a word for
# that does not say what its definition means, it names in a line, and draws nothing; its status is then 2.
set -u
export LC_ALL=C
root=$(cd "$(dirname "${BASH_SOURCE[0]}")/.." && pwd -P) || exit 2
. "$root/host/command.sh"
about "$@"
cd "$root" || exit 2

# Prints the rows of a machine, and what more docs/MACHINES.md tells of it, as plain lines: its name, and the definitions of what runs in a
# state.
rows() {
    local asks=crates/$1_rows/specs does=crates/$1_call/specs
    awk -v command="$called" -v words="host/pictures/$1-call.words" -v causing="$asks/Causes.antt" -v wording="$asks/Asking.antt" \
        -v asking="$asks/Rows.antt" -v doing="$does/Effects.antt" -v running="$2" -v carrying="$does/Carried.antt" \
        -v meanings="host/pictures/$1-call.meanings" -v naming="crates/$1_record/src/states.rt" -v reasoning=crates/frame/specs/Range.antt \
        -v requesting=crates/call/specs/Request.antt -v forming="crates/$1_record/specs/Formed.antt" -v setting=crates/call/specs/Settings.antt \
        -v framing=crates/frame/specs/Frame.antt -v table="host/rows/$1-call.words" -f host/pictures/terms.awk -f host/pictures/asks.awk \
        -f host/pictures/tables.awk -f host/pictures/words.awk -f host/pictures/rows.awk -f host/pictures/timers.awk </dev/null
}

# Draws a machine into $room: its name, the definitions of what runs in a state, and what the picture is about.
draw() {
    rows "$1" "$2" >"$room/$1.rows" || exit 2
    awk -v layout="host/pictures/$1-call.layout" -v command="$called" -v title="The $1 call machine" -v about="$3" -f host/pictures/clear.awk -f host/pictures/draw.awk \
        "$room/$1.rows" >"$room/$1-call.svg" || exit 2
}

[ $# -le 1 ] && [[ ${1---check} == --check ]] || fail "usage: host/pictures.sh [--check]"
room=$(mktemp -d) || exit 2
trap 'rm -rf "$room"' EXIT

draw private crates/private_record/specs/Phases.antt \
    "The states P0 to P5 as boxes, each with the timers that run in it and the rows that stay in it; the rows R1 to R29 that lead from one \
state to another as arrows, each with what causes it and what it does."
draw group crates/group_record/specs/States.antt \
    "The states S1, S3, S4 and S5 as boxes, each with the timers that run in it and the rows that stay in it; the rows G1 to G11 that lead \
from one state to another as arrows, each with what causes it and what it does."

stale='' wrong=''
[ -r docs/MACHINES.md ] || fail "docs/MACHINES.md may not be read"
[ $# -eq 0 ] || wrong=$(cat "$room/private.rows" "$room/group.rows" | awk -v command="$called" -f host/pictures/page.awk - docs/MACHINES.md) || exit 2
for picture in private-call group-call; do
    if [ $# -eq 0 ]; then
        cp "$room/$picture.svg" "docs/$picture.svg" || exit 2
    elif ! cmp -s "$room/$picture.svg" "docs/$picture.svg"; then
        stale="$stale docs/$picture.svg"
    fi
done
[ -z "$stale" ] || echo "$called: not up to date:$stale"
[ -z "$wrong" ] || echo "$wrong"
[ -z "$stale$wrong" ]
