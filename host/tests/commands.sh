#!/usr/bin/env bash
# The commands around the programs, in a tree of its own with a stand-in for rt: what has changed is noticed, what is not proved is not run,
# the status is handed on, and one rt runs at a time; host/tests/archive.sh has the same of archives.
set -u
cd "$(dirname "${BASH_SOURCE[0]}")/../.." || exit 2
. host/verdict.sh
room=$(mktemp -d) || exit 2
trap 'rm -rf "$room"' EXIT
tree=$room/tree
kit=$room/kit
export PATH=$kit/bin:$PATH ALONE_IN=''

# ---- the stand-in

mkdir -p "$kit/bin"
echo 'a kit' >"$kit/KIT-ID"
# rt notes each call with the folder, and that another was there at the time; it refuses where $room/refuse is there, leaves no program where
# $room/nothing is, and else one that does what $room/program says. As the true one does, it leaves a program alone as long as its stamp has
# the sources and the program is the one that was built, keeps all in the crate's folder out/, and takes that away while ci runs.
cat >"$kit/bin/rt" <<RT
#!/usr/bin/env bash
name=\${PWD##*/}
echo "\$* \$name" >>"$room/calls"
mkdir "$room/busy" 2>/dev/null || echo overlap >>"$room/calls"
[ ! -e "$room/slow" ] || sleep 0.3
rmdir "$room/busy" 2>/dev/null
[ ! -e "$room/refuse" ] || exit 1
case \$1 in
run)
    now=\$(find -L .. -path '*/out' -prune -o -type f -exec cat {} + | cksum)
    [ ! -e "$room/nothing" ] || { rm -f "out/\$name" && exit 0; }
    mkdir -p out
    [ "\$(cat out/stamp 2>/dev/null)" = "\$now\$(cksum <"out/\$name" 2>/dev/null)" ] || cp "$room/program" "out/\$name"
    chmod +x "out/\$name"
    echo "\$now\$(cksum <"out/\$name")" >out/stamp
    ;;
lib) mkdir -p out && : >"out/lib\$name.a" ;;
ci) rm -rf crates/*/out ;;
esac
RT
chmod +x "$kit/bin/rt"

# Has the program do what the word says.
does() { printf '#!/usr/bin/env bash\n%s\n' "$1" >"$room/program"; }

# Makes the tree anew, with nothing built in it, and forgets all calls.
plant() {
    rm -rf "$tree" "$room/calls" "$room/refuse" "$room/nothing" "$room/slow"
    mkdir -p "$tree" && cp -R bin host crates.txt "$tree/" || exit 2
    mkdir -p "$tree/crates/lines/src" "$tree/crates/panel_c/src"
    echo 'fn main() {}' >"$tree/crates/lines/src/main.rt"
    echo 'pub fn entry() {}' >"$tree/crates/panel_c/src/lib.rt"
    does cat
    : >"$room/calls"
}

# How often rt was called since.
calls() { grep -c "$1" "$room/calls"; }

# Runs the command lines of the tree on a line.
lines() { echo in | "$tree/bin/lines" "$@" >"$room/wrote" 2>"$room/said"; }

# One case: bin/lines answers, with nothing said but that it is built where the second word is `first`, and rt was called as often as the third
# says.
answers() {
    local ended
    lines
    ended=$?
    echo in >"$room/wanted"
    [ "$(calls '^run lines$')" -eq "$3" ] || echo "rt was called $(calls .) times" >>"$room/said"
    judge "$1" $ended 0 "$([ "$2" != first ] || echo "lines: proving and building it first: a few minutes, once")"
}

# ---- a changed source is noticed

plant
answers "a program is proved and built where it is not there" first 1
answers "a program of the same state is not looked at again" again 1
echo '// another' >>"$tree/crates/lines/src/main.rt"
answers "a source that has changed is noticed" again 2
mkdir "$tree/crates/frame" && echo 'pub fn more() {}' >"$tree/crates/frame/lib.rt"
answers "a source that was added is noticed" again 3
rm "$tree/crates/frame/lib.rt"
answers "a source that was taken away is noticed" again 4
mv "$tree/crates/lines/src/main.rt" "$room/main" && cp "$room/main" "$tree/crates/lines/src/main.rt"
answers "a source that was only written again is no change" again 4
echo '# more' >>"$tree/crates.txt"
answers "another list of crates is noticed" again 5
echo 'another kit' >"$kit/KIT-ID"
answers "another kit is noticed" again 6
rm "$kit/KIT-ID"
answers "a kit that does not say which it is makes rt look" again 7
answers "and makes it look each time" again 8
echo 'a kit' >"$kit/KIT-ID"
rm "$tree/target/bin/lines"
answers "a program that was taken away is built again" first 9
does 'echo another' && cp "$room/program" "$tree/target/bin/lines" && does cat
answers "a program that is another than was built is built again" first 10
mkdir "$room/linked" && echo 'pub fn more() {}' >"$room/linked/lib.rt" && ln -s "$room/linked" "$tree/crates/linked"
answers "a source behind a link is one" again 11
echo '// another' >>"$room/linked/lib.rt"
answers "and is noticed where it has changed" again 12
mv "$tree/crates" "$room/crates" && ln -s "$room/crates" "$tree/crates" && echo '// another' >>"$room/crates/lines/src/main.rt"
answers "so it is where all crates are behind a link" again 13

# ---- what is not proved is not run

# One case: bin/lines refuses, and says the second word and nothing else.
refuses() {
    lines
    judge_refusal "$1" $? "$2"
}
says_why='lines: not proved or not built: cd crates/lines && rt run says why'
plant
answers "a program is built, to be changed" first 1
cp "$tree/crates/lines/src/main.rt" "$room/main"
echo '// wrong' >>"$tree/crates/lines/src/main.rt"
: >"$room/refuse"
refuses "a program that is no longer proved is not run, though it is there" "$says_why"
refuses "nor is it the next time" "$says_why"
cp "$room/main" "$tree/crates/lines/src/main.rt"
refuses "nor where the source is what it was, before rt has said so" "$says_why"
rm "$room/refuse"
answers "proved again it is run" again 5
: >"$room/nothing"
rm "$tree/target/bin/lines"
lines
judge_refusal "where rt leaves no program, none is run" $? "lines: proving and building it first: a few minutes, once
$says_why"

# ---- the status

# One case: a program that does what the second word says ends the command with the status of the third, which says the fourth.
hands_on() {
    plant
    does "$2"
    lines && lines
    lines
    ended=$?
    : >"$room/wanted"
    judge "$1" $ended "$3" "${4-}"
}
hands_on "the status of the program is handed on" 'exit 7' 7
# shellcheck disable=SC2016
hands_on "that a program was killed is handed on" 'kill -KILL $$' 137
# shellcheck disable=SC2016
hands_on "a program whose reader has gone ends the command as it ended" 'kill -PIPE $$' 141
hands_on "an answer that could not be written is status 1" 'echo "lines: the answer could not be written" >&2' 1 'lines: the answer could not be written'
hands_on "an input that could not be read is status 2" 'echo "lines: standard input could not be read" >&2' 2 'lines: standard input could not be read'
hands_on "whatever else a program says is handed on, and is no failure" 'echo "lines: only a part" >&2' 0 'lines: only a part'

# A signal for the command, while the program waits for its input, is one for the program.
plant
# shellcheck disable=SC2016
does 'echo $$ >"$0.pid"; read -r line'
lines
: >"$tree/target/bin/lines.pid"
mkfifo "$room/fifo"
exec 4<>"$room/fifo"
"$tree/bin/lines" <"$room/fifo" >"$room/wrote" 2>"$room/said" &
process=$!
for _ in {1..100}; do
    [ ! -s "$tree/target/bin/lines.pid" ] || break
    sleep 0.1
done
kill $process
wait $process 2>/dev/null
ended=$?
exec 4>&-
: >"$room/wanted"
! grep -qs '^State:[[:space:]]*[A-Ya-z]' "/proc/$(cat "$tree/target/bin/lines.pid")/status" || echo "the program still runs" >>"$room/said"
judge "a signal for the command ends the program" $ended 143

# ---- one rt at a time

plant
: >"$room/slow"
mkdir -p "$tree/.ci" "$tree/host/tests" && cp .ci/run "$tree/.ci/"
rm "$tree"/host/tests/*
for i in 1 2; do
    echo in | "$tree/bin/lines" >/dev/null 2>&1 &
    bash "$tree/host/archive.sh" panel "$room/archives-$i" >/dev/null 2>&1 </dev/null &
    TMPDIR=$room bash "$tree/.ci/run" >/dev/null 2>&1 </dev/null &
done
wait
verdict "commands, archives and the gate of one tree wait for each other's rt" \
    "$([ "$(calls .)" -ge 4 ] && [ "$(calls '^ci tree$')" -eq 2 ] && [ "$(calls '^lib panel_c$')" -ge 1 ] && [ "$(calls overlap)" -eq 0 ] || paste -s -d ';' "$room/calls")"

# ---- a tree that cannot be written

# One case: the command of the words from the third on refuses, and says the second.
told() {
    local name=$1 line=$2
    shift 2
    "$@" >"$room/wrote" 2>"$room/said" </dev/null
    judge_refusal "$name" $? "$line"
}
plant
: >"$tree/target"
told "a tree that cannot be written is told as that" "lines: $tree/target cannot be written" "$tree/bin/lines"
told "so it is by the lock" "alone: $tree/target cannot be written" bash "$tree/host/alone.sh" true
rm "$tree/target"
told "what runs alone may not ask for it again" "alone: this runs alone already, and would wait for itself" \
    bash "$tree/host/alone.sh" bash "$tree/host/alone.sh" true
told "to run nothing alone is no usage" "alone: usage: host/alone.sh COMMAND [WORDS...]" bash "$tree/host/alone.sh"

exit $status
