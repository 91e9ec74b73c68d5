# shellcheck shell=bash
# For the scripts that have rt build something from the crates, which read this file: by which word they tell that it is still what it was.

# Prints one word for all that rt builds from, at the root: the kit, whose folder the script has in $kit, and the crates, without what rt keeps
# in their folders out/; and for the files named. Where one of these cannot be read it prints nothing, and its status is not 0.
state() {
    local parts
    parts=$({ cat "${kit:?}/KIT-ID" crates.txt "$@" && set -o pipefail &&
        find -L crates/ -path 'crates/*/out' -prune -o -type f -print0 | LC_ALL=C sort -z | xargs -0 -r sha256sum | grep .; } 2>/dev/null) || return
    sum <<<"$parts"
}

# Prints a word for what comes in.
sum() { sha256sum | cut -d ' ' -f 1; }

# Notes in the file of the second word that the one of the first was made of the state of the third.
note_state() { echo "$(sum <"$1") $3" >"$2"; }

# Whether a file is the one of which something was noted in the file of the second word.
is_noted() { [ -f "$1" ] && [ "$(cut -d ' ' -f 1 "$2" 2>/dev/null)" = "$(sum <"$1")" ]; }

# Whether it was noted to be made of the state of the third word; an empty one is never the same.
is_state() { is_noted "$1" "$2" && [ -n "$3" ] && [ "$(cut -d ' ' -f 2- "$2")" = "$3" ]; }
