# shellcheck shell=bash
# For host/tests/speed.sh, which reads this file behind host/verdict.sh: what a page of figures has to be, and that one which is not is found.
# It has the page in $page, what the program prints for a part of it in $room/times and $room/instructions, and in `before` the words with which
# the program was run, so that it has the rows of the page.

# Prints a part of a page, without its marks.
part() { sed -n "/^<!-- measured by host\\/speed\\.sh: $1 -->\$/,/^<!-- end of what is measured, /p" "$2" | sed '1d;$d'; }

# Prints the instructions of a page without those of the answer to a log, in which the C library has a part, and without the earlier state, which
# is another than the one that a test has at hand.
own_counts() { part instructions "$1" | sed -E '/^(\| )?Rattle before/d; s/ [0-9]+ \|$//' | cat -s; }

# Prints what is left of the instructions of the last run, on a page where somebody typed one of those of the implementation of the first word.
typed() { own_counts <(echo '<!-- measured by host/speed.sh: instructions -->'; sed -E "s/^(\\| $1 \\|) [0-9]+/\\1 1/" "$room/wrote"; echo); }

# Prints a part of a page, or what the program prints for it, without what another run may tell otherwise: a # stands for each number.
shape() {
    sed -E '/^(A quick run: |Rattle is here the same module )/d; s/^(Measured on|Compiled|Counted by|Rattle before): .*/\1/; s/seed [0-9]+/seed #/
        /^Each/s/[0-9]+/#/; /^\| /s/ [0-9]+(\.[0-9]+)? /#/g' | cat -s
}

# Prints what is wrong with a page: a part is not as its sum says or not as the program prints it, or its figures do not go together.
page_wrong() {
    local name
    for name in times instructions; do
        part $name "$1" >"$room/part"
        grep -qx "<!-- end of what is measured, cksum $(cksum <"$room/part" | cut -d ' ' -f 1) -->" "$1" || echo "the $name were typed"
        [ ! -e "$room/$name" ] || diff <({ echo; cat "$room/$name"; echo; } | shape) <(shape <"$room/part") | grep -m 1 '^[<>]'
    done
    part times "$1" | awk -f host/tests/speed_held.awk
}

# Prints a page with the sum of its times anew.
summed() {
    local sum
    sum=$(part times "$1" | cksum | cut -d ' ' -f 1)
    awk -v sum="$sum" '/^<!-- end of what is measured, / && !done { $0 = "<!-- end of what is measured, cksum " sum " -->"; done = 1 } { print }' "$1"
}

# A case each: a change of the page by awk is found by its figures, where the sum is made anew, or else by the sum.
changes_found() {
    local name by change wrong
    while IFS=: read -r name by change; do
        awk -F '|' -v OFS='|' "$change" "$page" >"$room/typed"
        wrong=''
        cmp -s "$page" "$room/typed" && wrong="nothing was changed"
        [ "$by" = sum ] || { summed "$room/typed" >"$room/page" && mv "$room/page" "$room/typed"; }
        [ -n "$(page_wrong "$room/typed")" ] || wrong="$wrong it is not"
        verdict "found on the page by the $by: $name" "$wrong"
    done <<'CHANGES'
a ratio that is turned:figures:/^\| best scalar C by cc / && !done { $4 = sprintf(" %.2f ", 1 / $4); done = 1 } { print }
a time of a step that was typed:figures:/^\| private step, any inputs / { $3 = " 12.3 " } { print }
two columns that changed places:figures:/ lines checked / { on = 1 } /^$/ { on = 0 } on && !/---/ { kept = $3; $3 = $5; $5 = kept } { print }
a rate that was typed:figures:/ lines checked / { on = 1 } on && /^\| plain Rust / { $4 = " " $4 + 20 " "; on = 0 } { print }
a row that is missing:figures:/^\| table C by clang / && !done { done = 1; next } { print }
a row by digits that is missing:figures:/ 184 digits / { on = 1 } on && /^\| plain Rust / { on = 0; next } { print }
a time by digits that was typed:sum:/ 184 digits / { on = 1 } on && /^\| Rattle / { $6 = " " $6 + 1 " "; on = 0 } { print }
a cost that was typed:sum:/ 16384 bytes / { on = 1 } on && /^\| Rattle / { $6 = " " $6 + 0.1 " "; on = 0 } { print }
CHANGES
}

# A case each: instructions are written into a page, and a page has those of this state where it names the machine, the compilers and the kit at
# hand.
counts_held() {
    local wrong copy=$room/copy.md kit
    kit=$(grep -oE 'rattle-kit-[0-9a-z]+' "$page" | head -n 1)
    cp "$page" "$copy"
    run "${before[@]}" --instructions --page "$copy"
    wrong=$(wrongs 0; cat "$room/wrote"; diff <(echo; cat "$room/instructions"; echo) <(part instructions "$copy") | head -n 3)
    cmp -s <(part times "$page") <(part times "$copy") || wrong="$wrong other times"
    verdict "--page writes what is counted into the page and nothing else, and each time the same is counted" "$wrong"
    if [ "${kit:-none}" != "$(rt version | cut -d ' ' -f 1)" ]; then
        left_out "the instructions of $page against those of this state" "they were counted with another kit, ${kit:-which it does not name}"
    elif diff <(grep -e '^Co' "$room/instructions") <(part instructions "$page" | grep -e '^Co') >/dev/null; then
        verdict "the instructions of $page are those of this state" "$(page_wrong "$copy"; diff <(own_counts "$copy") <(own_counts "$page") | head -n 4)"
    else
        left_out "the instructions of $page against those of this state" "they were counted on another kind of machine, or with other compilers"
    fi
}
