#!/usr/bin/env bash
# The archives for other machines: each is made and looked at on every machine, by the kit's own compiler, and run where a compiler for C
# and an emulator are there. What runs there must answer as it does here.
set -u
cd "$(dirname "${BASH_SOURCE[0]}")/../.." || exit 2
. host/verdict.sh
. host/targets.sh
room=$(mktemp -d) || exit 2
trap 'rm -rf "$room"' EXIT

own=$(own_target) || exit 2
warnings='-Wall -Wextra -Wpedantic -Wconversion -Werror'
missing=()

# Prints the folder of a target.
folder_of() { [ "$1" = "$own" ] && echo target/panel || echo "target/panel-$1"; }

# ---- what they are

# Prints what the archive of a target must have been made for, as its object says: on 32-bit Arm also the floating point unit that it asks
# for, and whether it takes arguments in its registers.
machine_of() {
    case $1 in
    x86_64-linux-gnu) echo ELF64 Advanced Micro Devices X86-64 ;;
    aarch64-linux-gnu) echo ELF64 AArch64 ;;
    armv7-linux-gnueabihf) echo ELF32 ARM v7 VFPv3-D16 VFP registers ;;
    thumbv7em-none-eabi) echo ELF32 ARM v7E-M ;;
    esac
}

# Looks at the archive of a target: names with $ mark places.
look_at() {
    local archive
    archive=$(folder_of "$1")/libpanel.a
    nm "$archive" | sed -n '/ \$/d; s/^[0-9a-f ]* \([^rt]\) \(.*\)$/\1 \2/p' | sort >"$room/wrote"
    : >"$room/said"
    cp "$room/entries" "$room/wanted"
    judge "the archive has the entries, keeps no state and needs nothing else, $1" 0
    readelf -hA "$archive" 2>"$room/said" | sed -nE 's/^ *(Class|Machine|Tag_CPU_arch|Tag_FP_arch|Tag_Advanced_SIMD_arch|Tag_ABI_VFP_args): *//p' | paste -s -d ' ' >"$room/wrote"
    machine_of "$1" >"$room/wanted"
    judge "the archive is for the machine that it is named by, $1" 0
}

sed -n 's/^pub extern "C" fn \([a-z0-9_]*\).*/T \1/p' crates/panel_c/src/lib.rt | sort >"$room/entries"
for target in "${targets[@]}"; do
    into=$(folder_of "$target")
    bash host/panel.sh --for "$target" >/dev/null 2>&1
    bash host/panel.sh --for "$target" >"$room/wrote" 2>"$room/said"
    ended=$?
    printf "$into/%s\n" panel.h libpanel.a geolmiwoo-panel.pc >"$room/wanted"
    [ "$target" != "$own" ] || printf "$into/%s\n" panel-shell panel-receive >>"$room/wanted"
    judge "header, archive and file for pkg-config are made, $target" $ended
    look_at "$target"
done
[ $status -eq 0 ] || exit $status

# What rt makes of itself is for x86-64.
bash host/alone.sh env -C crates/panel_c rt lib >"$room/said" 2>&1 </dev/null || tail -n 1 "$room/said"
verdict "the archive for x86-64 is byte for byte the one that rt makes" "$(cmp crates/panel_c/out/libpanel_c.a "$(folder_of x86_64-linux-gnu)/libpanel.a" 2>&1)"

# The compiler that stands in for the kit's, asked as rt asks it, about a module that names an x86 processor.
bash host/archive.sh panel "$room/again" armv7-linux-gnueabihf >"$room/said" 2>&1
verdict "an archive that is made again is the same" "$(cat "$room/said"; cmp "$room/again/libpanel.a" target/panel-armv7-linux-gnueabihf/libpanel.a 2>&1)"
cat >"$room/module.bc" <<'END'
target triple = "x86_64-unknown-linux-gnu"
define i32 @answer() #0 { ret i32 7 }
attributes #0 = { nounwind "probe-stack"="inline-asm" "stack-probe-size"="3072" "target-cpu"="x86-64-v2" }
END
# Has it make the module $room/module.bc for 32-bit Arm, as text.
stand_in() {
    target/native/armv7-linux-gnueabihf/clang --target=x86_64-unknown-linux-gnu -march=x86-64 --no-default-config -Werror \
        -O3 -S -emit-llvm -x ir "$room/module.bc" -o "$room/module.ll" >"$room/said" 2>&1
}
stand_in
wrong=$(head -n 1 "$room/said"; grep -E 'x86|probe' "$room/module.ll")
grep -q '^target triple = "armv7' "$room/module.ll" || wrong="$wrong no module for armv7"
verdict "what a module says of an x86 processor is taken out for another machine" "$wrong"

# A pair that is written value by value, the pointer at 8, and read as one.
cat >"$room/module.bc" <<'END'
target triple = "x86_64-unknown-linux-gnu"
@seven = private constant i32 7
define i32 @answer() {
  %pair = alloca [16 x i8], align 8
  store i64 1, ptr %pair, align 8
  %place = getelementptr i8, ptr %pair, i64 8
  store ptr @seven, ptr %place, align 8
  %both = load { i8, ptr }, ptr %pair, align 8
  %second = extractvalue { i8, ptr } %both, 1
  %number = load i32, ptr %second, align 4
  ret i32 %number
}
END
stand_in
verdict "a pointer is read from where it was written, also where pointers are short" \
    "$(head -n 1 "$room/said"; grep -q '^ *ret i32 7$' "$room/module.ll" || grep '^ *ret' "$room/module.ll")"
sed -i 's/^  ret .*/  store { i8, ptr } %both, ptr %pair, align 8\n&/' "$room/module.bc"
stand_in
ended=$?
verdict "a module whose pointers may lie otherwise is not taken" \
    "$([ $ended -ne 0 ] && grep -q 'may lie otherwise on armv7-linux-gnueabihf$' "$room/said" || echo "status $ended"; head -n 1 "$room/said" | grep -v 'store { i8, ptr }')"

# ---- what they answer

# Prints the C compiler and the emulator of a target.
compiler_of() {
    case $1 in
    armv7-linux-gnueabihf) echo arm-linux-gnueabihf-gcc ;;
    thumbv7em-none-eabi) echo arm-none-eabi-gcc ;;
    *) [ "$1" = "$own" ] && echo gcc || echo "$1-gcc" ;;
    esac
}
emulator_of() {
    case $1 in
    armv7-linux-gnueabihf) echo qemu-arm ;;
    thumbv7em-none-eabi) echo qemu-system-arm ;;
    *) echo "qemu-${1%%-*}" ;;
    esac
}

# Compiles for a target, the first word, to the second, with the words behind; programs for a system are static, so that an emulator needs
# none of its libraries.
compile() {
    local target=$1 to=$2 more=(-static)
    shift 2
    [ "$target" != thumbv7em-none-eabi ] || more=(-mcpu=cortex-m4 -mthumb -nostartfiles --specs=rdimon.specs '-Wl,-z,noexecstack' -T host/tests/cortex_m.ld host/tests/cortex_m.c)
    # shellcheck disable=SC2086
    "$(compiler_of "$target")" -std=c99 -O2 $warnings -I host/shell -I host/receive -o "$to" "$@" "${more[@]}" "$(folder_of "$target")/libpanel.a"
}

# Runs a program that was made for a target, the first word, at most for a minute.
run() {
    local words=()
    [ "$1" = "$own" ] || words=("$(emulator_of "$1")")
    [ "$1" != thumbv7em-none-eabi ] || words+=(-M mps2-an386 -display none -monitor none -serial none -semihosting-config 'enable=on,target=native' -kernel)
    timeout 60 "${words[@]}" "$2"
}

# Compiles a program for a target and runs it on a log: the target, the log, and the files of the program.
answer() {
    local target=$1 log=$2
    shift 2
    compile "$target" "$room/program" -I "$(folder_of "$target")" "$@" && run "$target" "$room/program" <"$log"
}

# One case: a program answers for a target as it does here. Its name, the target, the log, and its files.
same_answer() {
    local name=$1 target=$2
    shift 2
    rm -f "$room/program"
    answer "$own" "$@" >"$room/wanted" 2>"$room/said" || echo "it fails here" >>"$room/said"
    answer "$target" "$@" >"$room/wrote" 2>>"$room/said"
    judge "$name, $target" $?
}

# What a target lacks to be run, as one word; nothing where it lacks nothing.
lacks() {
    command -v "$(compiler_of "$1")" >/dev/null || compiler_of "$1"
    command -v "$(emulator_of "$1")" >/dev/null || emulator_of "$1"
    [ "$1" != thumbv7em-none-eabi ] || [[ $("$(compiler_of "$1")" -print-file-name=rdimon.specs 2>/dev/null) = */* ]] || echo newlib
}

# A log with all that there is: the sample, lines that are too long, and an unended one.
{ cat samples/announcements.log && printf '\n%064d\n%01000d\n' 0 0 && head -n 3 samples/announcements.log && printf 08; } >"$room/log"
# And a thousand lines: the lines that the program lines is tried on, and announcements of two groups, every third with a byte changed.
cp crates/lines/stdin "$room/many"
awk 'BEGIN { srand(7); for (i = 1; i <= 960; i++) { start = sprintf("%08x", rand() * 4294967295)
    line = sprintf("08%04x0000000%d0%d001e0000000500000007%s%s0000000700", rand() * 65535, rand() < 0.8 ? 3 : 4, rand() * 3 + 1, start, start)
    if (i % 3 == 0) { at = int(rand() * 62); line = substr(line, 1, at) sprintf("%c", rand() * 90 + 32) substr(line, at + 2) }
    print line } }' >>"$room/many"
sed -n '/^```c$/,/^```$/p' docs/C.md | sed '1d;$d' >"$room/mine.c"
mkdir "$room/header" && sed 's/uint64_t \([a-z]*_len\)/size_t \1/g' host/include/panel.h >"$room/header/panel.h"

# The cases of one target.
try() {
    same_answer "the cases of the entries" "$1" /dev/null host/tests/panel_entries.c
    verdict "and they are as many as here, and pass, $1" "$(grep -v '^ok ' "$room/wrote"; [ "$(grep -c '^ok ' "$room/wrote")" -ge 40 ] || echo few)"
    same_answer "the program in docs/C.md, without a warning" "$1" /dev/null "$room/mine.c"
    same_answer "the panel shell" "$1" samples/announcements.log host/shell/*.c
    same_answer "the panel shell on a thousand lines" "$1" "$room/many" host/shell/*.c
    same_answer "the receive loop" "$1" "$room/log" host/receive/*.c
    same_answer "the receive loop in pieces" "$1" "$room/log" host/tests/receive_pieces.c host/receive/receive.c
    answer "$1" /dev/null host/tests/panel_stack.c >"$room/wrote" 2>"$room/said" && ended=0 || ended=$?
    verdict "no entry takes the bytes of stack that panel.h names, $1" "$([ $ended -eq 0 ] || echo "status $ended: $(cat "$room/wrote" "$room/said")")"
    [ "${1#arm}${1#thumb}" = "$1$1" ] || try_narrow "$1"
    [ "${1#thumb}" = "$1" ] || try_page "$1"
}

# The command of docs/C.md by which a firmware of a target compiles the receive loop.
try_page() {
    local command
    command=$(sed -n 's/^    \(arm-none-eabi-gcc .*\)$/\1/p' docs/C.md)
    mkdir "$room/page" && ln -s "$PWD/host" "$PWD/target" "$room/page/"
    (cd "$room/page" && eval "${command:-false}") >"$room/said" 2>&1 && ended=0 || ended=1
    verdict "the command in docs/C.md compiles the receive loop, $1" "$([ $ended -eq 0 ] && [ ! -s "$room/said" ] && [ -f "$room/page/receive.o" ] || echo "it does not: $(head -n 1 "$room/said")")"
}

# The cases of a target with 32 bits, with a header that has size_t for lengths: it compiles, and the answers are wrong.
try_narrow() {
    compile "$1" "$room/narrow" -I "$room/header" host/tests/panel_entries.c 2>"$room/said" && ended=0 || ended=1
    verdict "a header with size_t compiles without a warning, $1" "$([ $ended -eq 0 ] || head -n 1 "$room/said")"
    run "$1" "$room/narrow" >"$room/wrote" 2>/dev/null </dev/null && ended=0 || ended=1
    verdict "and the cases of the entries go wrong with it, $1" "$([ $ended -ne 0 ] || echo "they passed")"
}

for target in "${targets[@]}"; do
    [ "$target" != "$own" ] || continue
    lacking=$(lacks "$target" | paste -s -d ' ')
    if [ -z "$lacking" ]; then
        try "$target"
    else
        missing+=("$lacking for $target")
    fi
done
[ ${#missing[@]} -eq 0 ] || left_out "running the archives for other machines" "what is missing is $(printf '%s; ' "${missing[@]}" | sed 's/; $//')"

exit $status
