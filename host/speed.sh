#!/usr/bin/env bash
# host/speed.sh [WORDS...]: measures the proved implementation against the same in C and in Rust, in one run on the same inputs, and prints
# the figures, or writes them into a page; --help says what the words may be. Before that it builds, quietly but for a line the first time,
# where anything has changed: the archives of panel, trial and pace, proved and made for this machine, the C of host/speed, or of the folder
# that BASELINE names, both by the words of CC, or cc, and by the compiler that the kit has for Rattle, where --before names the checkout of an
# earlier state its archives, by its own script, and the program that links them.
set -u
here=$PWD
root=$(cd "$(dirname "${BASH_SOURCE[0]}")/.." && pwd -P) || exit 2
. "$root/host/command.sh"
about "$@"
sources=$(cd "${BASELINE:-$root/host/speed}" 2>/dev/null && pwd -P)

# Leaves in `words` what the program is told, and in `before` and `earlier` the folder of an earlier state, as --before names it and as it is;
# where help is asked for nothing else is, and so the words are left alone.
before='' earlier='' words=()
[[ " $* " != *' --help '* ]] || { words=("$@") && set --; }
while [ $# -gt 0 ]; do
    if [ "$1" = --before ]; then
        before=${2-}
        [ -n "$before" ] || fail "--before needs a word behind it"
        earlier=$(cd "$before" 2>/dev/null && pwd -P)
        [ -f "$earlier/host/archive.sh" ] && [ -d "$earlier/crates/panel" ] || fail "$before is no checkout of this repository"
        shift
    else
        words+=("$1")
    fi
    shift
done

export SPEEDLIB=$root/target/archives
# How far both compilers go with the C: as far as the kit's goes with Rattle.
level=-O3

[ -n "$sources" ] || fail "there is no folder ${BASELINE-}"
[[ -z ${BASELINE-} || " ${words[*]} " != *' --page '* ]] || fail "--page is for the C of host/speed alone, and BASELINE names another folder"
cd "$root" || exit 2
needs_kit
cargo=$(command -v cargo) || fail "cargo, the command of the Rust toolchain, is not on the PATH"
# shellcheck disable=SC2086
compiler=$(${CC:-cc} --version 2>/dev/null)
[ -n "$compiler" ] || fail "no C compiler: ${CC:-cc}"
command -v ar >/dev/null || fail "ar, which makes archives of objects, is not on the PATH"
command -v nm >/dev/null || fail "nm, which lists the names in objects, is not on the PATH"
command -v objcopy >/dev/null || fail "objcopy, which changes the names in objects, is not on the PATH"
clang=$kit/toolchain/bin/clang
kits=$("$clang" --version 2>/dev/null | head -n 1)
[ -n "$kits" ] || fail "the kit has no clang for $(uname -m)"

# Compiles the C, once by each compiler, in a folder of its own, into the archive of the first word; one that is the same is left alone. What
# the kit's compiler makes has names of its own. It comes without C's headers, and takes those of the other.
compiled() {
    local objects entry apart=() flags=(-std=c99 "$level" -Wall -Wextra -Werror -c) ended
    for entry in {plain,table,best}_{line_check,choose,answer_log}; do
        apart+=("-D$entry=clang_$entry")
    done
    objects=$(mktemp -d) || return
    # shellcheck disable=SC2086
    (cd "$objects" && "$clang" --no-default-config "--target=$(uname -m)-unknown-linux-gnu" -isystem "$(${CC:-cc} -print-file-name=include)" \
        "${flags[@]}" "${apart[@]}" "$sources"/{plain,table,best}.c && for entry in *.o; do mv "$entry" "clang_$entry"; done &&
        ${CC:-cc} "${flags[@]}" "$sources"/{plain,table,best}.c && ar rcsD all.a ./*.o) &&
        { cmp -s "$objects/all.a" "$1" || mv "$objects/all.a" "$1"; }
    ended=$?
    rm -rf "$objects"
    return $ended
}

# Puts the objects of panel and trial from the archives of the folder $from into the archive of the first word, with before_ ahead of each name
# that they have for others, so that they can be linked beside those of today; one that is the same is left alone.
renamed() {
    local objects name ended
    objects=$(mktemp -d) || return
    (cd "$objects" && ar x "$from/libpanel.a" && ar x "$from/libtrial.a" || exit
        nm -g --defined-only ./*.o | awk 'NF == 3 { print $3, "before_" $3 }' >names
        for name in panel_line_check panel_choose trial_answer_log; do grep -q "^$name " names || exit; done
        for name in *.o; do objcopy --redefine-syms=names "$name" || exit; done
        ar rcsD all.a ./*.o) &&
        { cmp -s "$objects/all.a" "$1" || mv "$objects/all.a" "$1"; }
    ended=$?
    rm -rf "$objects"
    return $ended
}

# Leaves the archive of the first word's name up to date, as the function of the second makes it; quick where what comes in, all that it is made
# of, has not changed.
up_to_date() {
    local archive=$SPEEDLIB/lib$1.a kept=$SPEEDLIB/lib$1.state now
    now=$(sha256sum)
    if [ ! -f "$archive" ] || [ "$(cat "$kept" 2>/dev/null)" != "$now" ]; then
        rm -f "$kept"
        "$2" "$archive" && echo "$now" >"$kept"
    fi
}

[ -e "$SPEEDLIB/libpace.a" ] || echo "speed: proving and building it first: a few minutes, once" >&2
for name in panel trial pace; do
    told=$(bash host/archive.sh $name "$SPEEDLIB" 2>&1) || fail "${told#archive: }"
done
{ echo "${CC:-cc}" "$compiler" "$clang" "$kits" && cat host/speed.sh "$sources"/*.[ch]; } | up_to_date baseline compiled >/dev/null 2>&1 ||
    fail "the C of ${BASELINE:-host/speed} was not compiled by ${CC:-cc} and by the kit's clang"

# Without an earlier state its place is taken by today's, so that there is something to link.
from=${earlier:-$root}/target/archives
if [ -n "$earlier" ]; then
    [ -e "$from/libtrial.a" ] || echo "speed: proving and building $before first: a few minutes, once" >&2
    for name in panel trial; do
        told=$(bash "$earlier/host/archive.sh" $name "$from" 2>&1) || fail "$before: ${told#archive: }"
    done
fi
cat host/speed.sh "$from"/lib{panel,trial}.a | up_to_date before renamed >/dev/null 2>&1 ||
    fail "the archives of ${before:-panel and trial} lack an entry that is measured, or their names could not be changed"

# Where a target is set, cargo would put the program elsewhere.
build=(build --profile speed --offline --locked --manifest-path host/independent/Cargo.toml --target-dir target/independent --bin speed)
env -u CARGO_BUILD_TARGET -u STATICLIB "$cargo" "${build[@]}" </dev/null >/dev/null 2>&1 ||
    fail "the program was not built: cargo ${build[*]} says why"

# Few versions of gcc say that they are one.
first=${compiler%%$'\n'*}
[[ $first == *gcc* || $compiler != *'Free Software Foundation'* ]] || first="$first, a gcc,"
rust=$(rustc --version 2>/dev/null)
compilers="C by $first and by the kit's $kits, both at $level, Rust by ${rust:-rustc} at its level 3, Rattle by the same clang at -O3"
if [ -n "$earlier" ]; then
    state=$([ ! -e "$earlier/.git" ] || git -C "$earlier" describe --always --dirty 2>/dev/null)
    words=(--before "${state:+commit }${state:-the folder ${earlier##*/}}" "${words[@]}")
fi
cd "$here" || exit 2
exec "$root/target/independent/speed/speed" --compilers "$compilers" "${words[@]}"
