#!/usr/bin/env bash
# host/take.sh [STATE]: takes over what rt ci has just built at the root, so that nothing has to be proved twice: each program to target/bin,
# where host/program.sh finds it, and the libraries by a note, by which host/archive.sh takes them. STATE is what the script printed ahead
# of rt ci: where it is no longer that of the crates and of the kit, nothing is taken. Without STATE it prints that word.
set -u
root=$(cd "$(dirname "${BASH_SOURCE[0]}")/.." && pwd -P) || exit 2
. "$root/host/command.sh"
. "$root/host/state.sh"
about "$@"
[ $# -le 1 ] && [ -n "${1-none}" ] || fail "usage: host/take.sh [STATE]"
needs_kit
cd "$root" || exit 2
now=$(state) || fail "the crates or the kit cannot be read"
if [ $# -eq 0 ]; then
    echo "$now"
    exit
fi
[ "$1" = "$now" ] || fail "the crates or the kit have changed: nothing is taken"
needs_target
mkdir -p target/bin || fail "target/bin cannot be written"
for main in crates/*/src/main.rt; do
    name=${main#crates/} name=${name%/src/main.rt}
    built=crates/$name/out/$name
    [ -x "$built" ] || continue
    rm -f "target/bin/$name.state"
    cp "$built" "target/bin/$name.new" && mv "target/bin/$name.new" "target/bin/$name" && note_state "target/bin/$name" "target/bin/$name.state" "$now" ||
        fail "target/bin cannot be written"
done
echo "$now" >target/libraries.state || fail "target cannot be written"
