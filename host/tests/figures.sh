#!/usr/bin/env bash
# The figures that README.md and docs/ write out: each that can be counted in the tree is what is there.
# shellcheck disable=SC2016
set -u
cd "$(dirname "${BASH_SOURCE[0]}")/../.." || exit 2
. host/verdict.sh

# Figures in words, from none to twenty.
words=(no one two three four five six seven eight nine ten eleven twelve thirteen fourteen fifteen sixteen seventeen eighteen nineteen twenty)
any=$(IFS='|' && echo "${words[*]}")

# Notes in `wrong` a page that does not say a text with a figure in it, or says it with another: the page, the figure, and the text with % in
# the place of the figure in digits, or @ of the figure in words.
says() {
    local text=${3//%/${2:-?}} pattern
    [[ $text != *@* ]] || text=${text//@/${words[${2:-0}]-$2}}
    pattern=$(sed "s/[][\\.*^\$+?(){}|]/\\\\&/g; s/@/\\\\b($any)/g; s/%/[0-9,]+/g" <<<"$3")
    [ "$(grep -oiE -- "$pattern" "$1" | tr '[:upper:]' '[:lower:]' | sort -u)" = "${text,,}" ] || wrong="$wrong $1:'$text'"
}

# How many entries a list of demands has, each of which begins a line.
entries() {
    awk -v name="$1" '$0 == name " =" { on = 1 } on && /^ +∷ / { n++ } /^$/ { on = 0 } END { print n + 0 }' crates/demands/specs/*.antt
}

# How many fields a type has, by its file.
fields() { sed -n "/^pub struct $1 {/,/^}/p" "$2" | grep -c '^    pub '; }

# What a constant of the independent implementation is, by its text up to the number, with a comma for each thousand.
constant() { sed -nE "s/.*$1([0-9_]+).*/\1/p" "host/independent/src/bin/$2" | uniq | tr _ ,; }

# ---- what the definitions have

wrong=''
says docs/DECISIONS.md "$(entries plays)" '`plays` holds % steps'
says docs/DECISIONS.md "$(entries strays)" '`strays` has % steps'
says docs/DECISIONS.md "$(entries refusals)" '`refusals` % that are refused'
says docs/DECISIONS.md "$(entries group_plays)" '`group_plays` holds % steps'
says docs/DECISIONS.md "$(entries group_strays)" '`group_strays` % that meet no row'
says docs/DECISIONS.md "$(entries group_refusals)" '`group_refusals` % that are refused'
says docs/ROWS.md "$(entries group_plays)" '[`group_plays`](../crates/demands/specs/GroupPlays.antt) has % steps'
says docs/ROWS.md "$(grep -c '^row_number (Some G' crates/group_rows/specs/Rows.antt)" 'steps over all @ rows'
says docs/DECISIONS.md "$(grep -c '^state_of Phase' crates/private_record/specs/Phases.antt)" 'The table of states has @ lines'
says docs/DECISIONS.md "$(fields TimerFacts crates/call/src/timers.rt)" '@ facts of a timer (`TimerFacts`)'
says docs/DECISIONS.md "$(fields CounterFacts crates/private_call/src/carrying.rt)" 'at @ of a counter (`CounterFacts`)'
says docs/PROMISES.md "$(fields TimerFacts crates/call/src/timers.rt)" 'by the @ facts that the rules for all rows'
kinds=$(grep -c '^kind_of (' crates/frame/specs/Frame.antt)
says README.md "$kinds" 'it is none of the @, 01 to 0%'
says docs/DECISIONS.md "$kinds" 'The @ kinds and their digits'
says docs/ROWS.md "$kinds" 'a message that is one of @ kinds'
says docs/ROWS.md "$kinds" '), an enum of @ |'
held=$(($(fields GroupCall crates/frame/src/lib.rt) + 1))
for page in docs/DECISIONS.md docs/DEMANDS.md docs/ROWS.md docs/DRILL.md docs/SLIPS.md; do
    says $page "$held" 'all @ fields'
done
most=$(sed -n 's/^limit_good limit = within 1 limit \([0-9]*\)$/\1/p' crates/call/specs/Settings.antt)
says docs/DRILL.md "$most" 'a limit is from 1 to %;'
says docs/ROWS.md "$most" 'every limit lies between 1 and %;'
statements=$(grep -c '^pub record Demand[0-9] ' crates/demands/specs/Demands.antt)
says docs/DECISIONS.md "$statements" 'has the @ demands as @ statements'
says docs/DEMANDS.md "$statements" 'as @ statements'
says docs/DECISIONS.md $(($(sed -n 's/^ *pub const LONGEST: usize = \([0-9]*\);$/\1/p' crates/frame/src/lib.rt) - 1)) 'nobody writes % digits by hand'
says docs/READING.md "$(find crates/*/{specs,proofs} -name Found.antt | wc -l)" 'but for the @ files `Found.antt`'
says docs/DECISIONS.md $((($(grep -l '^file: specs/' crates/{demands,promises}/must-fail/*.edit | wc -l) + 6) / 12)) '@ dozen that change a statement'
verdict "the figures of README.md and docs/ are those of the definitions" "$wrong"

# ---- what else the tree has

wrong=''
lessons=$(grep -c '^| \[[a-z-]*\.drill\](' docs/DRILL.md)
says README.md "$lessons" 'a worked script and @ lessons'
says docs/READING.md "$lessons" 'and @ lessons'
told=$(grep -c '^## [0-9]*\. ' docs/SLIPS.md)
says README.md "$told" '@ mistakes that a'
says docs/READING.md "$told" '@ mistakes, and what shuts each of them'
says docs/DRILL.md "$told" 'takes @ of these for lessons'
says docs/ROWS.md "$told" 'and @ slips with a script each'
says docs/SLIPS.md "$told" '# @ slips'
says docs/SLIPS.md "$told" '@ mistakes that are easily made'
says docs/SLIPS.md "$told" 'any of the @ slips'
says docs/DECISIONS.md "$(constant 'SLIPS: \[Slip; ' rehearse/slips.rs)" '@ slips can be put into it'
says docs/DECISIONS.md "$(constant 'ALL: .*, Spoil\); ' compare/case.rs)" '@ slips that can be put in on purpose'
says docs/DECISIONS.md "$(constant ' enough: ' compare/parts.rs | head -n 1)" 'A run of % inputs a part'
says docs/DECISIONS.md "$(constant ' enough: ' compare/parts.rs | tail -n 1)" 'inputs a part (% logs) or more'
says docs/DRILL.md "$(constant 'ENOUGH: u64 = ' rehearse/tally.rs)" 'a run of % steps or more'
# How many bytes a program takes at most.
most_of() { sed -n 's/^const MOST: usize = \([0-9_]*\);$/\1/p' "crates/$1/src/main.rt" | tr _ ,; }
answered=$(most_of lines)
says docs/LOGS.md "$answered" 'at most the first % bytes'
says docs/ROWS.md "$answered" 'reads the first % bytes'
says docs/DECISIONS.md "$answered" 'behind the first % bytes'
says docs/DRILL.md "$(most_of drill)" 'a script with more than % bytes'
for_c=$(grep -c '^pub extern "C" fn ' crates/panel_c/src/lib.rt)
says docs/DECISIONS.md "$for_c" '**@ entries, and no more.**'
says docs/DECISIONS.md "$for_c" '`libpanel.a` has the @ entries alone'
says README.md "$(sed -n '/^```c$/,/^```$/p' docs/C.md | grep -vc '^```')" 'a program of @ lines'
says README.md "$(grep -c '' crates/vectors/stdout)" 'the @ lines that they send'
says docs/LOGS.md "$(grep -c '' samples/night-shift.log)" 'of its @ lines'
says docs/LOGS.md $(($(grep -c '^| [0-9]* | .* | `![0-9]` |$' docs/LOGS.md) - 1)) 'spoiled @ of its'
says docs/READING.md "$(sed -n 's/^ahead=(host\/tests\/{\(.*\)}\.sh)$/\1/p' .ci/run | tr , '\n' | grep -c .)" 'runs @ of them beside'
verdict "the figures of README.md and docs/ are those of the tree" "$wrong"

# ---- a run of the tests

read -r seed steps < <(sed -nE 's/.*`bash host\/rehearse\.sh --seed ([0-9]+) --steps ([0-9]+)` repeats one of the runs of the tests.*/\1 \2/p' docs/DRILL.md)
wrong=''
grep -q "^agrees .* ${seed:-none}\$" host/tests/rehearse.sh && grep -qF " --seed \"\$2\" --steps ${steps:-none} -- " host/tests/rehearse.sh || wrong="seed ${seed-} steps ${steps-}"
verdict "docs/DRILL.md repeats a run of the tests" "$wrong"

exit $status
