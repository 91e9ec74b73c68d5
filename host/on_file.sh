# shellcheck shell=bash
# For the commands of bin/, which read this file behind host/command.sh: a program that takes the file that is named, or standard input.

# take_file WHAT [FILE]: makes FILE the standard input, unless none is named or it is `-`. WHAT is what the usage calls it.
take_file() {
    local what=$1
    shift
    about "$@"
    [ "${1-}" != -- ] || shift
    [ $# -le 1 ] || fail "usage: $called [$what]"
    case ${1--} in
    -) [ -e /dev/fd/0 ] || fail "standard input is closed" ;;
    '') fail "'' is no file name" ;;
    -*) fail "no such option: $1; --help says how to call it" ;;
    *)
        [ -e "$1" ] || fail "$1: no such file"
        [ ! -d "$1" ] || fail "$1: is a folder"
        [ -r "$1" ] || fail "$1: may not be read"
        { exec <"$1"; } 2>/dev/null || fail "$1: cannot be opened"
        ;;
    esac
}
