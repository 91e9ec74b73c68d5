# shellcheck shell=bash
# For the commands of bin/ and host/, which read this file: what they say of themselves, and how they give up. A command is called by the name
# of its file, or by what it sets `called` to, and has the root of the tree in $root.
called=$(basename "$0" .sh)

# Says one line on standard error, behind the name of the command, and gives up.
fail() {
    echo "$called: $*" >&2
    exit 2
}

# Prints the version, of which there is one: it stands in the header for C.
version() { sed -n 's/^#define PANEL_VERSION_[A-Z]* UINT32_C(\([0-9]*\))$/\1/p' "${root:?}/host/include/panel.h" | paste -s -d .; }

# Prints what stands at the head of the command; where it is one for a program of host/independent, how that is called, by its source.
help() {
    local program=$root/host/independent/src/bin/$called/options.rs
    if [ -f "$program" ]; then
        sed -n '/^pub const HELP: &str = "\\$/,/^";$/p' "$program" | sed '1d;$d'
    else
        sed -n '2,$ { /^#/!q; s/^# \{0,1\}//p; }' "$0"
    fi
}

# Where the first word asks for it, prints how the command is called, or its name and version, and ends.
about() {
    local told
    case ${1-} in
    -h | --help) told=$(help) ;;
    --version) told="$called $(version)" ;;
    *) return ;;
    esac
    { echo "$told"; } 2>/dev/null || { echo "$called: the answer could not be written" >&2 && exit 1; }
    exit 0
}

# Leaves in $rt the command of the Rattle kit, and in $kit the folder of the kit; gives up where there is none.
needs_kit() {
    rt=$(command -v rt) || fail "rt, the command of the Rattle kit, is not on the PATH"
    kit=$(dirname "$(dirname "$(readlink -f "$rt")")")
}

# Gives up where the folder that the scripts build in, of the tree at the root, cannot be written.
needs_target() { { mkdir -p "$root/target" && [ -w "$root/target" ]; } 2>/dev/null || fail "$root/target cannot be written"; }
