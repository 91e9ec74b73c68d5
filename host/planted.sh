# shellcheck shell=bash
# For the tests of host/tests/ that try a command in a tree of its own, $room/tree, in which definitions can be changed: they read this file
# behind host/verdict.sh, and set `command` to the command and `planted` to the files that it reads.

# Makes $room/tree anew.
plant() {
    # shellcheck disable=SC2086
    rm -rf "$room/tree" && mkdir "$room/tree" && cp --parents "$command" host/command.sh $planted "$room/tree" || exit 2
}

# Runs the command of $room/tree with these words.
run() { bash "$room/tree/$command" "$@" >"$room/wrote" 2>"$room/said" </dev/null; }

# Changes a file of $room/tree by a command of sed; says so where that changes nothing.
change() {
    sed "$2" "$1" >"$room/tree/$1"
    ! cmp -s "$1" "$room/tree/$1" || verdict "$1 is changed by $2" "it is not"
}
