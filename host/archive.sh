#!/usr/bin/env bash
# host/archive.sh NAME FOLDER [TARGET]: proves the library NAME_c of crates/ and leaves its archive for C as FOLDER/libNAME.a, made for the
# machine TARGET of host/targets.sh, or for the one at hand; quiet, and quick where nothing has changed since. rt makes archives for x86-64.
# For another machine the kit makes the same library, 64-bit Arm of itself and any other by its own compiler, which is asked on its way. Where
# the gate has just proved all, its libraries are taken, and rt is not asked. Where rt or the kit refuses, FOLDER has no archive of that name
# afterwards.
set -u
root=$(cd "$(dirname "${BASH_SOURCE[0]}")/.." && pwd -P) || exit 2
. "$root/host/command.sh"
. "$root/host/state.sh"
. "$root/host/targets.sh"

about "$@"
[ $# -ge 2 ] && [ $# -le 3 ] && [ -n "$1" ] && [ -n "$2" ] || fail "usage: host/archive.sh NAME FOLDER [TARGET]"
name=$1
crate=${1}_c
target=${3-}
[ $# -eq 3 ] || target=$(own_target) || fail "no archive can be made for this machine, $(uname -m), but for one of ${targets[*]}"
is_target "$target" || fail "no target $target: it is one of ${targets[*]}"
[ -f "$root/crates/$crate/src/lib.rt" ] || fail "no library $crate in crates/"
needs_kit
mkdir -p "$2" 2>/dev/null || fail "$2 cannot be written"
folder=$(cd "$2" && pwd -P) || exit 2
cd "$root" || exit 2
archive=$folder/lib$name.a
said=$root/target/native/$target/said
aside=''
trap 'rm -f "$archive.new"; [ -z "$aside" ] || rm -rf "$aside"' EXIT

# Leaves in the folder aside what the kit takes for its tools: its own, but with a compiler that makes code for the target. It has links, so it
# lies outside the tree.
other_tools() {
    local entry clang=${said%/*}/clang
    aside=$(mktemp -d) && mkdir "$aside/bin" && ln -s "$kit/toolchain/lib" "$aside/lib" || return
    for entry in "$kit"/toolchain/bin/*; do
        [ "${entry##*/}" = clang ] || ln -s "$entry" "$aside/bin/" || return
    done
    changes >"${said%/*}/changes.sed" && compiler "$kit/toolchain/bin/clang" >"$clang" && chmod +x "$clang" && ln -s "$clang" "$aside/bin/"
}

# Prints what becomes of the text of the module, for sed. What is said of an x86 processor is taken out of it. Two values that are read as one
# are read one by one: they were written so, the second at place 8, and with short pointers it would be looked for at 4.
changes() {
    cat <<'END'
s/ "target-cpu"="x86-64[-v0-9]*"//
s/ "probe-stack"="inline-asm"//
s/ "stack-probe-size"="[0-9]*"//
s/^ *(%[a-z0-9.]+) = load (\{ (ptr|i[0-9]+), (ptr|i[0-9]+) \}), ptr (%[a-z0-9.]+), align 8$/  \1.first = load \3, ptr \5, align 8\
  \1.place = getelementptr i8, ptr \5, i64 8\
  \1.second = load \4, ptr \1.place, align 8\
  \1.half = insertvalue \2 poison, \3 \1.first, 0\
  \1 = insertvalue \2 \1.half, \4 \1.second, 1/
END
}

# Prints the compiler that stands in for that of the first word.
compiler() {
    cat <<END
#!/usr/bin/env bash
# The kit's compiler, asked for $target where it is asked for x86-64. The module goes through it as text, so that it can be
# changed: with a processor that it does not know the compiler makes poorer code, and values beside a pointer lie otherwise.
clang=$(printf %q "$1")
own=($(target_words "$target") -Wno-override-module)
words=()
for word in "\$@"; do
    case \$word in
    --target=* | -march=*) ;;
    *.bc)
        "\$clang" "\${own[@]}" --no-default-config -Xclang -disable-llvm-passes -S -emit-llvm -x ir "\$word" -o "\$word.ll" || exit
        sed -i -E -f $(printf %q "${said%/*}/changes.sed") "\$word.ll" || exit
        if grep -E ' (load|store) [{[][^%@]*\bptr\b[^%@]*[]}]' "\$word.ll" >&2; then
            echo "values with a pointer among them are read or written as one, and may lie otherwise on $target" >&2
            exit 1
        fi
        words+=("\$word.ll")
        ;;
    *) words+=("\$word") ;;
    esac
done
exec "\$clang" "\${words[@]}" "\${own[@]}"
END
}

# Prints the libraries of crates.txt that the one of the first word stands on: those that it names, or with a second word all below it.
stands_on() {
    awk -v name="$1" -v all="${2-}" '
        { sub(/#.*/, "") }
        /:/ { split($1, own, ":"); sub(/[^:]*:/, ""); on[own[1]] = $0 }
        END { on_these(name) }
        function on_these(above, each, n, i) {
            n = split(on[above], each, " ")
            for (i = 1; i <= n; i++) if (each[i] in on && !seen[each[i]]++) { print each[i]; if (all) on_these(each[i]) }
        }' crates.txt
}

# Whether the libraries below are those that the gate has proved at this state; rt notes at its own what they were made from.
are_taken() {
    local library
    [ -n "$(state)" ] && [ "$(cat target/libraries.state 2>/dev/null)" = "$(state)" ] || return
    for library in $(stands_on "$crate" all); do
        [ -d "crates/$library/out/rlib/$library.rlib" ] && [ ! -e "crates/$library/out/rlib/stamp" ] || return
    done
}

# Has rt prove the library of the first word and all below it, and build it: of one for C it makes the archive for x86-64.
prove() { (cd "crates/$1" && exec "$rt" lib) </dev/null >"$said" 2>&1; }

# Has rt make the archive for x86-64 beside where it belongs.
make() { prove "$crate" && cp "crates/$crate/out/lib$crate.a" "$archive.new"; }

# Has rt prove all below the library.
prove_below() {
    local library
    for library in $(stands_on "$crate"); do prove "$library" || return; done
}

# Has the kit prove the library, over those below it as they are built, and make the archive beside where it belongs, with the words behind;
# the first word is the folder of the tools.
build() {
    local words=(--crate-name "$crate" src/lib.rt --extern "std=$kit/rlibs/std.rlib" -L "dependency=$kit/rlibs") library
    for library in $(stands_on "$crate"); do words+=(--extern "$library=$root/crates/$library/out/rlib/$library.rlib"); done
    for library in $(stands_on "$crate" all); do words+=(-L "dependency=$root/crates/$library/out/rlib"); done
    words+=(--antt-project "$kit/rattle/logic/antt-project.json" --logic-built "$kit/logic_built" --jobs 1 --links "$crate=")
    (cd "crates/$crate" && exec "$kit/bin/rattle" build "${words[@]}" --crate-type staticlib --toolchain "$1" --backend llvm "${@:2}" \
        -o "$archive.new") </dev/null
}

# The same for the target.
build_for_target() {
    case $target in
    x86_64-linux-gnu) build "$kit/toolchain" ;;
    aarch64-linux-gnu) build "$kit/toolchain" --target aarch64-unknown-linux-gnu ;;
    *) other_tools && build "$aside" ;;
    esac
}

now=$(state host/archive.sh host/targets.sh) && now="$now $target"
if is_state "$archive" "$folder/lib$name.state" "$now"; then
    exit 0
fi
[ -w "$folder" ] || fail "$folder cannot be written"
needs_target
# What follows is for one at a time.
if [ "${ALONE_IN-}" != "$root" ]; then
    exec bash host/alone.sh bash host/archive.sh "$name" "$folder" "$target"
fi
! flock -n .alone true 2>/dev/null || fail "ALONE_IN is set, and nothing runs alone here: unset it"
rm -f "$folder/lib$name.state" "$archive" || fail "$folder cannot be written"
{ mkdir -p "${said%/*}" && : >"$said"; } 2>/dev/null || fail "$root/target cannot be written"
if [ "$target" != x86_64-linux-gnu ] || are_taken; then
    { are_taken || prove_below; } && build_for_target >"$said" 2>&1
else
    make
fi && [ -f "$archive.new" ] || fail "no archive of $name for $target: $said says why"
mv "$archive.new" "$archive" && note_state "$archive" "$folder/lib$name.state" "$now" || fail "$folder cannot be written"
