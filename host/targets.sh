# shellcheck shell=bash
# For the scripts that make archives, which read this file: the machines that an archive can be made for.

# Their names.
targets=(x86_64-linux-gnu aarch64-linux-gnu armv7-linux-gnueabihf thumbv7em-none-eabi)

# Whether a word is one of the names.
is_target() { [[ " ${targets[*]} " = *" $1 "* ]] && [[ $1 != *' '* ]]; }

# Prints the name of the machine at hand; the status is not 0 where it has none.
own_target() {
    local name
    name=$(uname -m)-linux-gnu
    is_target "$name" && echo "$name"
}

# Prints the words by which the kit's compiler, asked for x86-64 at its level 3, makes code for the machine of a name instead: for every
# machine of that kind, and small where there is little room. Memory is cleared in place, with no call of C's memset, up to the 256 bytes of the
# largest table. For 64-bit Arm the kit has a name of its own, and needs none.
target_words() {
    case $1 in
    armv7-linux-gnueabihf) echo --target=armv7-unknown-linux-gnueabihf -mfpu=vfpv3-d16 -mfloat-abi=hard -mllvm -max-store-memset=64 ;;
    thumbv7em-none-eabi) echo --target=thumbv7em-none-eabi -mfpu=none -mfloat-abi=soft -fno-pic -Os -mllvm -max-store-memset=64 ;;
    esac
}

# Whether a compiler that says this of itself (-dumpmachine) makes code for the machine of a name.
compiles_for() {
    case $2 in
    x86_64-linux-gnu) [[ $1 = x86_64*linux* ]] ;;
    aarch64-linux-gnu) [[ $1 = aarch64*linux* ]] ;;
    armv7-linux-gnueabihf) [[ $1 = arm*linux*hf ]] ;;
    thumbv7em-none-eabi) [[ $1 = arm*-none-eabi ]] ;;
    *) false ;;
    esac
}
