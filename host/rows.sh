#!/usr/bin/env bash
# host/rows.sh [--check]: draws the two tables of docs/ROWS.md that have each row with all that it does, from the definitions of the rows.
# With --check it writes nothing, and says so where the page is not what it would draw; its status is then 1.
# What it cannot read in a definition, or does not find as host/rows/*.rules quote it, it names in a line, and draws nothing; its status is
# then 2.
set -u
export LC_ALL=C
root=$(cd "$(dirname "${BASH_SOURCE[0]}")/.." && pwd -P) || exit 2
. "$root/host/command.sh"
about "$@"
cd "$root" || exit 2
page=docs/ROWS.md

# Draws the table of a machine into $room: its name, the definitions of what runs in a state, and those on which only its rules rely.
draw() {
    local folder=crates/$1
    awk -v command="$called" -v words="host/rows/$1-call.words" -v rules="host/rows/both.rules host/rows/$1-call.rules" \
        -v causing="${folder}_rows/specs/Causes.antt" -v wording="${folder}_rows/specs/Asking.antt" -v asking="${folder}_rows/specs/Rows.antt" \
        -v doing="${folder}_call/specs/Effects.antt" -v running="$2" -v carrying="${folder}_call/specs/Carried.antt" \
        -v relied="crates/frame/specs/Media.antt crates/call/specs/Timing.antt crates/call/specs/Meeting.antt $3 ${folder}_call/specs/Step.antt" \
        -f host/pictures/terms.awk -f host/pictures/asks.awk -f host/pictures/tables.awk -f host/rows/table.awk \
        </dev/null >"$room/$1" || exit 2
}

# Prints the page with both tables in their places: each stands between a line that says whose it is and a line that says where it ends.
placed() {
    awk -v room="$room" '
        /^<!-- drawn by host\/rows\.sh: (private|group) -->$/ {
            print
            print ""
            while ((getline line <(room "/" $5)) > 0) print line
            print ""
            drawing = 1
            begun = begun " " $5
            next
        }
        /^<!-- end of what is drawn -->$/ {
            if (!drawing) stray = 1
            drawing = 0
        }
        !drawing { print }
        END { exit stray || drawing || begun != " private group" }' "$page"
}

[ $# -le 1 ] && [[ ${1---check} == --check ]] || fail "usage: host/rows.sh [--check]"
room=$(mktemp -d) || exit 2
trap 'rm -rf "$room"' EXIT

draw private crates/private_record/specs/Phases.antt \
    "crates/call/specs/Settings.antt crates/call/specs/Request.antt crates/private_record/specs/Formed.antt"
draw group crates/group_record/specs/States.antt "crates/frame/specs/Frame.antt crates/call/specs/Announced.antt"
[ -r "$page" ] || fail "$page may not be read"
placed >"$room/page" || fail "$page: the lines between which the tables stand are not there, or not in their order"

if [ $# -eq 0 ]; then
    cp "$room/page" "$page" || exit 2
elif ! cmp -s "$room/page" "$page"; then
    echo "$called: not up to date: $page"
    exit 1
fi
