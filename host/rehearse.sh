#!/usr/bin/env bash
# host/rehearse.sh [WORDS...]: plays random scripts by the proved program drill and by the independent implementation of host/independent,
# and looks for a difference: a million steps where no words say otherwise; --help says what they may be. Before that it builds, quietly
# but for a line the first time: it proves drill, and builds the program that compares, where anything has changed.
set -u
root=$(cd "$(dirname "${BASH_SOURCE[0]}")/.." && pwd -P) || exit 2
. "$root/host/command.sh"
about "$@"

cargo=$(command -v cargo) || fail "cargo, the command of the Rust toolchain, is not on the PATH"
words=$(bash "$root/host/program.sh" --command drill </dev/null) || exit 2
mapfile -t drill <<<"$words"

# Where a target is set, cargo would put the program elsewhere. The archives are named as host/compare.sh names them, so that neither
# undoes what the other has built; this program does without them.
build=(build --release --offline --locked --manifest-path host/independent/Cargo.toml --target-dir target/independent --bin rehearse)
(cd "$root" && env -u CARGO_BUILD_TARGET STATICLIB="$root/target/archives" "$cargo" "${build[@]}") </dev/null >/dev/null 2>&1 ||
    fail "the program was not built: cargo ${build[*]} says why"

exec "$root/target/independent/release/rehearse" "$@" -- "${drill[@]}"
