#!/usr/bin/env bash
# host/alone.sh COMMAND [WORDS...]: runs a command at the root while no other runs there that was started this way: what rt has built is not
# to be built anew while it is taken, and two students may well type bin/drill at once. What such a command starts may not ask for this
# again. The lock is the file .alone at the root.
set -u
root=$(cd "$(dirname "${BASH_SOURCE[0]}")/.." && pwd -P) || exit 2
. "$root/host/command.sh"
about "$@"
[ $# -gt 0 ] || fail "usage: host/alone.sh COMMAND [WORDS...]"
[ "${ALONE_IN-}" != "$root" ] || fail "this runs alone already, and would wait for itself"
command -v flock >/dev/null || fail "flock is not on the PATH"
cd "$root" || exit 2
needs_target
{ : >>.alone; } 2>/dev/null || fail "$root cannot be written"
ALONE_IN=$root exec flock .alone "$@"
