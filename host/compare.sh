#!/usr/bin/env bash
# host/compare.sh [WORDS...]: gives random inputs to the proved implementation and to the independent one of host/independent, and looks
# for a difference; --help says what the words may be. Before that it builds, quietly but for a line the first time, where anything has
# changed: the archives of panel and trial, proved and made for this machine, and the program that links them.
set -u
root=$(cd "$(dirname "${BASH_SOURCE[0]}")/.." && pwd -P) || exit 2
. "$root/host/command.sh"
about "$@"

needs_kit
cargo=$(command -v cargo) || fail "cargo, the command of the Rust toolchain, is not on the PATH"

export STATICLIB=$root/target/archives
[ -e "$STATICLIB/libtrial.a" ] || echo "compare: proving and building it first: a few minutes, once" >&2
for name in panel trial; do
    told=$(bash "$root/host/archive.sh" $name "$STATICLIB" 2>&1) || fail "${told#archive: }"
done

# Where a target is set, cargo would put the program elsewhere.
build=(build --release --offline --locked --manifest-path host/independent/Cargo.toml --target-dir target/independent --bin compare)
(cd "$root" && env -u CARGO_BUILD_TARGET "$cargo" "${build[@]}") </dev/null >/dev/null 2>&1 ||
    fail "the program was not built: cargo ${build[*]} says why"

exec "$root/target/independent/release/compare" "$@"
