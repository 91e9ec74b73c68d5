#!/usr/bin/env bash
# How archives are made: when rt is asked, that it is asked by one at a time, and that nothing unproved is handed out. In a small tree of its
# own, with a stand-in for the kit that proves nothing: it notes each call, and hands out the archive of target/panel, or fails.
set -u
cd "$(dirname "${BASH_SOURCE[0]}")/../.." || exit 2
. host/verdict.sh
. host/targets.sh
room=$(mktemp -d) || exit 2
trap 'rm -rf "$room"' EXIT
tree=$room/tree
kit=$room/kit
calls=$room/calls

bash host/panel.sh >"$room/wrote" 2>&1 || exit 2
mkdir -p "$tree/crates" "$kit/bin" "$kit/toolchain/bin" && cp -r host crates.txt "$tree/" && for crate in panel panel_c reader chooser; do
    mkdir -p "$tree/crates/$crate" && cp -r crates/$crate/src "$tree/crates/$crate/"
done || exit 2
touch "$calls" "$kit/toolchain/bin/clang" && echo one >"$kit/KIT-ID"
# Asked for an archive, rt takes its time, and says when it begins and when it ends. It builds libraries at once. rattle, which it stands on, notes
# the tools that it is given, and whether they are the kit's own.
cat >"$kit/bin/rt" <<END
#!/usr/bin/env bash
[ "\${PWD##*/}" = panel_c ] || { [ ! -e $room/refuses ] && mkdir -p "out/rlib/\${PWD##*/}.rlib" && : >out/rlib/stamp; exit; }
echo begins >>$calls
sleep 0.2
[ ! -e $room/refuses ] && mkdir -p out && cp $(pwd -P)/target/panel/libpanel.a out/libpanel_c.a && echo rt >$room/made
ended=\$?
echo ends >>$calls
exit \$ended
END
cat >"$kit/bin/rattle" <<END
#!/usr/bin/env bash
echo begins >>$calls
sleep 0.2
while [ \$# -gt 0 ]; do
    [ "\$1" != --toolchain ] || tools=\$2
    [ "\$1" != --target ] || tools="\$tools \$2"
    [ "\$1" != -o ] || into=\$2
    shift
done
[ ! -e $room/refuses ] && cp $(pwd -P)/target/panel/libpanel.a "\$into" && echo "\$tools" >$room/made
ended=\$?
echo ends >>$calls
exit \$ended
END
chmod +x "$kit/bin/rt" "$kit/bin/rattle"
own=$(own_target) || exit 2
other=aarch64-linux-gnu
[ "$own" != $other ] || other=armv7-linux-gnueabihf

# Runs a script of the tree with the stand-in on the PATH, and leaves what it wrote and said, and its status.
run() {
    env -u ALONE_IN PATH="$kit/bin:$PATH" bash "$tree/host/$1" "${@:2}" >"$room/wrote" 2>"$room/said" </dev/null
    ended=$?
}

# Prints what is wrong where the last run did not end with the status of the first word, or rt was not called as often in all as the second says.
wrongs() {
    [ $ended -eq "$1" ] || printf ' status %s: %s' $ended "$(head -n 1 "$room/said")"
    [ "$(grep -c begins "$calls")" -eq "$2" ] || printf ' rt was called %s times' "$(grep -c begins "$calls")"
}

# ---- when rt is asked

run archive.sh panel "$room/a"
verdict "rt is asked for an archive that is not there" "$(wrongs 0 1; cmp "$room/a/libpanel.a" target/panel/libpanel.a; grep -vx rt "$room/made")"
run archive.sh panel "$room/a"
verdict "rt is not asked again where nothing has changed" "$(wrongs 0 1)"
echo '// more' >>"$tree/crates/panel/src/lib.rt"
run archive.sh panel "$room/a"
verdict "rt is asked again where a crate has changed" "$(wrongs 0 2)"
echo two >"$kit/KIT-ID"
run archive.sh panel "$room/a"
verdict "rt is asked again where the kit has changed" "$(wrongs 0 3)"
run archive.sh panel "$room/a" aarch64-linux-gnu
verdict "for 64-bit Arm the kit is asked again, by the name that it has for it" "$(wrongs 0 4; grep -vx "$kit/toolchain aarch64-unknown-linux-gnu" "$room/made")"
run archive.sh panel "$room/a" armv7-linux-gnueabihf
verdict "and for another machine with tools that stand in" "$(wrongs 0 5; grep -E "^$kit|^rt|linux" "$room/made")"
rm "$kit/KIT-ID"
run archive.sh panel "$room/a" && run archive.sh panel "$room/a"
verdict "rt is asked each time where the state cannot be told" "$(wrongs 0 7)"
echo two >"$kit/KIT-ID"

# ---- one at a time

: >"$calls"
for target in "${targets[@]}"; do
    run archive.sh panel "$room/at-once/$target" "$target" &
done
wait
verdict "rt is asked by one at a time" "$(paste -s -d ' ' "$calls" | grep -vx 'begins ends begins ends begins ends begins ends')"

: >"$calls"
for _ in 1 2 3; do
    run archive.sh panel "$room/same" &
done
wait
verdict "who waited finds what was made meanwhile" "$(grep -c begins "$calls" | grep -vx 1)"

echo old >"$tree/crates/panel_c/out/libpanel_c.a"
run archive.sh panel "$room/b" $other
verdict "an archive for another machine stays out of the crate's folder out/" \
    "$([ $ended -eq 0 ] || cat "$room/said"; find "$tree/crates/panel_c/out" -type f ! -name libpanel_c.a; cmp <(echo old) "$tree/crates/panel_c/out/libpanel_c.a" 2>&1)"

# ---- what the gate has proved

# One case: where the gate has left this state, and the libraries are there without what rt notes at its own but for what the third word does to
# them, the kit makes the archive at once, or rt is asked, by the second.
taken() {
    rm -rf "$tree"/crates/*/out && for library in frame reader group_order chooser panel; do mkdir -p "$tree/crates/$library/out/rlib/$library.rlib"; done
    (cd "$tree" && PATH="$kit/bin:$PATH" bash host/take.sh "$(PATH="$kit/bin:$PATH" bash host/take.sh)") && eval "${3-}"
    run archive.sh panel "$room/taken"
    rm -f "$room/taken/libpanel.state"
    verdict "$1" "$([ $ended -eq 0 ] || cat "$room/said"; grep -vx "$2" "$room/made")"
}
taken "what the gate has just proved is not proved again" "$kit/toolchain"
taken "what is another since is" rt 'echo "// more" >>"$tree/crates/reader/src/lib.rt"'
taken "so it is where rt has built a library since" rt ': >"$tree/crates/frame/out/rlib/stamp"'
taken "and where one is not there" rt 'rm -r "$tree/crates/chooser/out"'

echo '// more' >>"$tree/crates/panel/src/lib.rt"
env ALONE_IN="$tree" PATH="$kit/bin:$PATH" bash "$tree/host/archive.sh" panel "$room/b" >"$room/wrote" 2>"$room/said" </dev/null
judge_refusal "who says to be alone and is not is told" $? "archive: ALONE_IN is set, and nothing runs alone here: unset it"

# ---- nothing unproved is handed out

run panel.sh
verdict "panel.sh builds in the small tree" "$([ $ended -eq 0 ] || head -n 1 "$room/said")"
touch "$room/refuses"
run panel.sh
verdict "where nothing has changed rt is not asked" "$([ $ended -eq 0 ] || head -n 1 "$room/said")"

echo '// and more' >>"$tree/crates/panel/src/lib.rt"
for target in "$own" $other; do
    folder=$room/at-once/$target
    run archive.sh panel "$folder" "$target"
    says="no archive of panel for $target: $tree/target/native/$target/said says why"
    judge_refusal "a library that rt refuses is named, $target" $ended "archive: $says"
    verdict "and its archive of before is gone, $target" "$(ls "$folder")"
done

run panel.sh
verdict "panel.sh tells what rt refuses, in one line" "$([ $ended -eq 2 ] && [ ! -s "$room/wrote" ] && [ "$(grep -c '^panel: no archive of panel' "$room/said")" -eq 1 ] || cat "$room/wrote" "$room/said")"
verdict "and leaves no archive or program of before" "$(find "$tree/target/panel" -type f ! -name panel.h ! -name geolmiwoo-panel.pc)"
rm "$room/refuses"

# ---- what cannot be written

: >"$room/file"
run archive.sh panel "$room/file"
judge_refusal "a folder that is a file is named" $ended "archive: $room/file cannot be written"
run archive.sh panel "$room/file/in"
judge_refusal "a folder that cannot be made is named" $ended "archive: $room/file/in cannot be written"
rm -rf "$tree/target" && : >"$tree/target"
run archive.sh panel "$room/d"
judge_refusal "a tree that cannot be written is named" $ended "archive: $tree/target cannot be written"
run panel.sh
judge_refusal "panel.sh names it too" $ended "panel: target/archives cannot be written"
run archive.sh panel "$room/d" pdp11
judge_refusal "a machine that no archive can be made for is named" $ended "archive: no target pdp11: it is one of ${targets[*]}"

exit $status
