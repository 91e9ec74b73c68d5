#!/usr/bin/env bash
# host/panel.sh [--for TARGET]: proves and builds libpanel.a for C, and leaves it with its header and all that goes with them in one folder.
# For the machine at hand, target/panel: panel.h, libpanel.a, geolmiwoo-panel.pc for pkg-config, panel-shell, panel-receive.
# With --for and the name of another machine, target/panel-TARGET: panel.h, libpanel.a, geolmiwoo-panel.pc.
# TARGET is one of x86_64-linux-gnu aarch64-linux-gnu armv7-linux-gnueabihf thumbv7em-none-eabi.
# CC names the C compiler, cc where it does not, and CFLAGS words for it. Says the files on standard output. Ends with 0; 2: bad usage, or not
# built.
set -u
root=$(cd "$(dirname "${BASH_SOURCE[0]}")/.." && pwd -P) || exit 2
. "$root/host/command.sh"
. "$root/host/targets.sh"
about "$@"
cd "$root" || exit 2
header=host/include/panel.h
programs=(panel-shell panel-receive)
new=''
trap '[ -z "$new" ] || rm -rf "$new"' EXIT

# Prints the file for pkg-config, which finds the others beside itself.
for_pkg_config() {
    cat <<END
Name: geolmiwoo-panel
Description: proved call control for the cab terminal: checks a line, and chooses between two announced calls
Version: $(version)
Cflags: -I\${pcfiledir}
Libs: \${pcfiledir}/libpanel.a
END
}

# Whether the compiler makes code for the target; tells why not, and gives up.
check_compiler() {
    local machine
    # shellcheck disable=SC2086
    machine=$(${CC:-cc} -dumpmachine 2>/dev/null) || fail "no C compiler: ${CC:-cc}"
    compiles_for "$machine" "$target" || fail "the archive is for $target, and ${CC:-cc} compiles for $machine"
}

# Compiles a program, the first word, of the files behind it, which stand in one folder.
compile() {
    local program=$1
    shift
    # shellcheck disable=SC2086
    ${CC:-cc} -std=c99 -O2 -Wall -Wextra -Wpedantic -Wconversion ${CFLAGS-} -I "$new" -I "$(dirname "$1")" -o "$new/$program" \
        "$@" "$new/libpanel.a" || fail "$program was not compiled"
}

own=$(own_target) || own=''
target=$own
if [ $# -gt 0 ]; then
    { [ $# -eq 2 ] && [ "$1" = --for ]; } || fail "usage: host/panel.sh [--for TARGET]"
    target=$2
    is_target "$target" || fail "no target $target: it is one of ${targets[*]}"
fi
[ -n "$target" ] || fail "no archive can be made for this machine, $(uname -m): --for names one of ${targets[*]}"

into=target/panel archives=target/archives
files=(panel.h libpanel.a geolmiwoo-panel.pc)
if [ "$target" = "$own" ]; then
    check_compiler
    files+=("${programs[@]}")
else
    into=target/panel-$target archives=target/archives/$target
fi
if [ ! -e "$archives/libpanel.a" ] && command -v rt >/dev/null && mkdir -p "$archives" 2>/dev/null; then
    echo "panel: proving and building it first: a minute or two, once" >&2
fi
if ! told=$(bash host/archive.sh panel "$archives" "$target" 2>&1); then
    # What is no longer proved is not left lying about.
    [ -e "$archives/libpanel.a" ] || rm -f "$into/libpanel.a" "${programs[@]/#/$into/}"
    fail "${told#archive: }"
fi

# Everything is made aside, so that nobody finds the half of it.
{ mkdir -p "$into" && [ -w "$into" ] && new=$(mktemp -d "$into/new.XXXXXX") && cp $header "$archives/libpanel.a" "$new"; } 2>/dev/null ||
    fail "$root/$into cannot be written"
for_pkg_config >"$new/geolmiwoo-panel.pc" || fail "$root/$into cannot be written"
if [ "$target" = "$own" ]; then
    compile panel-shell host/shell/panel_shell.c host/shell/lent.c
    compile panel-receive host/receive/panel_receive.c host/receive/receive.c
fi
mv "${files[@]/#/$new/}" "$into/" 2>/dev/null || fail "$root/$into cannot be written"
printf '%s\n' "${files[@]/#/$into/}"
