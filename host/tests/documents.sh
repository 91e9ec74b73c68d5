#!/usr/bin/env bash
# The documents against the tree: what they name is there, and what they must name they do.
set -u
cd "$(dirname "${BASH_SOURCE[0]}")/../.." || exit 2
. host/verdict.sh

# The crates of crates.txt.
listed() { sed 's/#.*//' crates.txt | sed -nE 's/^[[:space:]]*([a-z0-9_]+)( staticlib)?:.*/\1/p'; }

# Those of them that are archives for C.
archives() { sed -n 's/^\([a-z0-9_]*\) staticlib:.*/\1/p' crates.txt; }

# The public functions of a library, CRATE::NAME, with the module ahead of the name and, where it is a method, the type: a method stands in
# the module of its type, whichever file has it. The parameters of a generic type are left out.
public_functions() {
    local crate
    for crate in $(listed); do
        [ -f "crates/$crate/src/lib.rt" ] || continue
        awk -v crate="$crate" '
            FNR == 1 {
                module = FILENAME
                gsub(/.*\/|\.rt$/, "", module)
                path = module == "lib" ? crate : crate "::" module
            }
            /^pub (struct|enum) / { name = $3; sub(/[^A-Za-z].*/, "", name); place[name] = path }
            /^impl[ <]/ { type = $0; sub(/^impl(<[^>]*>)? /, "", type); sub(/[^A-Za-z].*/, "", type) }
            /^}/ { type = "" }
            pass == 2 && /^ *pub (extern "C" )?fn / {
                sub(/^ *pub (extern "C" )?fn /, "")
                sub(/[^a-z0-9_].*/, "")
                print (type == "" ? path : place[type] "::" type) "::" $0
            }' pass=1 "crates/$crate/src"/*.rt pass=2 "crates/$crate/src"/*.rt
    done
}

# CRATE/LABEL for each must-fail edit.
edits() { find crates/*/must-fail -name '*.edit' | sed 's|^crates/\([^/]*\)/must-fail/\(.*\)\.edit$|\1/\2|' | sort; }

# Where the theorems of one answer stand.
one_answer=$(echo crates/promises/proofs/OneAnswer*.antt)

# What a document writes between backquotes.
quoted() { grep -o '`[^`]*`' "$1" | tr -d '`' | sort -u; }

wrong=''
for crate in crates/*/; do
    crate=$(basename "$crate")
    listed | grep -qx "$crate" || wrong="$wrong $crate"
done
verdict "every folder of crates/ is listed in crates.txt" "$wrong"

# Prints LAYER NAME for each crate, as crates.txt has them and as the map of README.md does: the name of a layer stands ahead of its crates.
layers() { awk '/^# [A-Za-z]+$/ { layer = $2 } /^[a-z]/ { sub(/( staticlib)?:.*/, ""); print layer, $1 }' crates.txt; }
mapped() { sed -nE 's/^\| ([A-Za-z]*) ?\| \[([a-z_]+)\]\(crates\/\2\) \| [^|]+ \|$/\1 \2/p' README.md | awk 'NF == 2 { layer = $1 } { print layer, $NF }'; }
wrong=$(diff <(layers) <(mapped) | grep '^[<>]' | paste -s -d ';')
names=$(layers | cut -d ' ' -f 1 | uniq | paste -s -d ' ')
[ "$names" = 'lines logs machines programs C demands' ] || wrong="$wrong $names"
verdict "the map of README.md has the crates and the six layers of crates.txt, in their order" "$wrong"

# Prints NAME:DEPENDENCY for each crate that stands on one that is listed behind it.
upwards() {
    awk 'NR == FNR { crate[$0]; next } { sub(/#.*/, ""); sub(/( staticlib)?:/, "") } { for (i = 2; i <= NF; i++) if ($i in crate && !($i in seen)) print $1 ":" $i; seen[$1] }' \
        <(listed) crates.txt | paste -s -d ' '
}
verdict "every crate of crates.txt stands on crates ahead of it alone" "$(upwards)"

wrong=$(wc -l <README.md | awk '$1 > 150')
verdict "README.md has at most 150 lines" "$wrong"

# Where git knows of no tree, all files count.
wrong=$({ git ls-files 2>/dev/null || find . -maxdepth 1 -type f -printf '%f\n'; } | grep -v / | grep -vxE 'README\.md|crates\.txt|\.gitignore|\.alone' | paste -s -d ' ')
verdict "the root has README.md and crates.txt, and folders" "$wrong"

wrong=''
for name in $(public_functions); do
    grep -qF "\`$name\`" docs/PROMISES.md || wrong="$wrong $name"
done
verdict "docs/PROMISES.md has every public function" "$wrong"

wrong=''
for name in $(public_functions); do
    ! archives | grep -qx "${name%%::*}" || continue
    path=$(echo "$name" | sed 's/::/.proofs./; s/::/./g')
    # shellcheck disable=SC2086
    file=$(grep -l "^use Rattle\.$path\.Reads as " $one_answer)
    called=$(sed -n "s/^use Rattle\.$path\.Reads as //p" "${file:-/dev/null}")
    theorem=$(sed -n "s/^ *pub \([a-z_-]*\) : .* OneAnswer (${called:-none}\.Asked\([A-Za-z_ ]*\)κs) (${called:-none}\.Learnt\2κs) .*/\1/p" "${file:-/dev/null}")
    [ -n "$theorem" ] && grep -qF "One answer: \`$theorem\`" docs/PROMISES.md || wrong="$wrong $name"
done
verdict "every public function has its theorem of one answer" "$wrong"

# Prints the functions of a file that are exported to C, or are public where the second word says so, each with its clauses, and nothing else.
functions() { awk -v begin="$2" 'index($0, begin) == 1 { on = 1 } /^{/ { on = 0 } on { sub(/ extern "C"/, ""); print }' "$1"; }

wrong=''
for archive in $(archives); do
    library=${archive%_c}
    exported=$(functions "crates/$archive/src/lib.rt" 'pub extern "C" fn ')
    [ -n "$exported" ] && [ "$exported" = "$(functions "crates/$library/src/lib.rt" 'pub fn ')" ] || wrong="$wrong $archive"
    # Each body calls the function of the library with the same parameters.
    bodies=$(sed -n '/^{/{n;p}' "crates/$archive/src/lib.rt")
    calls=$(sed -n 's/^pub fn \(.*\)) -> .*/\1)/p' <<<"$exported" | sed -E "s/: [^,)]*//g; s/^/    $library::/")
    [ "$bodies" = "$calls" ] || wrong="$wrong $archive:bodies"
done
verdict "every entry for C has the clauses of the function of its library, and calls it" "$wrong"

# Prints NAME|MARK|INPUT for each row of a table of docs/PROMISES.md that names an edit: the mark stands behind the name.
rows() { awk -F ' *[|] *' '/^[|].*`[a-z_]+\/[a-z0-9_]+`/ { split($3, edit, /`,? */); print edit[2] "|" edit[3] "|" $4 }' docs/PROMISES.md; }

wrong=$(comm -3 <(edits) <(rows | cut -d '|' -f 1 | sort -u) | paste -s -d ' ')
verdict "the tables of docs/PROMISES.md have every must-fail edit, and no other" "$wrong"

# Whether what a row says of an input, the first word, ends in what is promised there and in something else that comes of it, by the second.
differs() {
    [[ $1 =~ ^(.*:\ )?(.+)\ promised,\ (.+)\ $2(,\ .+)?$ ]] && [[ " ${BASH_REMATCH[2]}" != *" ${BASH_REMATCH[3]}" ]]
}

wrong=''
while IFS='|' read -r name mark input; do
    kind='' by=told
    if grep -q '^file: specs/' "crates/${name%/*}/must-fail/${name#*/}.edit"; then
        kind=definition by='by the changed definition'
        [[ $name != demands/* && $name != promises/* ]] || kind=statement
    fi
    [ "$mark" = "$kind" ] && { [ "$kind" = statement ] && [ -n "$input" ] || differs "$input" "$by"; } || wrong="$wrong $name:$mark:$input"
done < <(rows)
verdict "every wrong program of docs/PROMISES.md names an input on which it differs, and is marked where it changes a definition" "$wrong"

# Where the wrong program of the chooser differs is a place in memory, which no program tells; and no program of Rattle asks an archive for C.
wrong=$(comm -3 <(grep -l '^file: src/' crates/*/must-fail/*.edit | sed 's|^crates/\(.*\)/must-fail/\(.*\)\.edit$|\1/\2|' |
    grep -vxE "chooser/empty_part_of_the_second|($(archives | paste -s -d '|'))/.*" | sort) \
    <(sed -n 's|^\([a-z_]*/[a-z0-9_]*\): .*|\1|p' host/wrong.txt | sort -u) | paste -s -d ' ')
verdict "host/wrong.txt has an input for every edit of a program but one and those of the archives for C" "$wrong"

wrong=''
for page in docs/ROWS.md docs/PROMISES.md docs/DEMANDS.md docs/SLIPS.md; do
    for name in $(quoted "$page" | grep -E '^[a-z_]+/[a-z0-9_]+$'); do
        edits | grep -qx "$name" || wrong="$wrong $page:$name"
    done
done
verdict "every edit that docs/ROWS.md, docs/PROMISES.md, docs/DEMANDS.md and docs/SLIPS.md name is there" "$wrong"

# Prints PAGE:NAME for each name that a page cites, but for docs/CHANGES.md, docs/DESIGN-PASS.md and docs/PORT.md, which tell of names that were: its arguments, and
# what stands ahead of `::` or of the point of a method, are left out. A name may be that of a file.
cited() {
    local page
    for page in README.md docs/*.md; do
        [[ $page =~ ^docs/(CHANGES|DESIGN-PASS|PORT)\.md$ ]] || quoted "$page" | sed -E 's/^[a-z_]+\.([a-z_]+\(\))$/\1/; s/\(.*\)$//; s/.*:://' |
            grep -E '^[A-Za-z][A-Za-z0-9_-]*(\.(antt|rt|h|sh|txt))?$' | sed "s|^|$page:|"
    done
}

# Prints those of them that are not among the names of a list, one a line.
unknown() { awk -F : 'NR == FNR { known[$0]; next } !($2 in known)' "$1" - | paste -s -d ' '; }

wrong=$(cited | unknown <(grep -rhoaE --exclude-dir=out '[A-Za-z][A-Za-z0-9_-]*' crates .ci host/*.sh host/include && find crates host crates.txt -name out -prune -o -printf '%f\n'))
verdict "every name that README.md and docs/ cite stands in a crate, in a script or in a header" "$wrong"

# The names of docs/DRILL.md are words of its scripts.
wrong=$(cited | grep -v '^docs/DRILL.md:' | grep -E ':[a-z0-9]+(-[A-Za-z0-9]+)+$' |
    unknown <(grep -rhoE --exclude-dir=out --include='*.antt' '^ *(abbrev |unfoldable )?(pub )?[a-z0-9]+(-[A-Za-z0-9]+)+ :' crates | sed -E 's/ :$//; s/.* //'))
verdict "every theorem that README.md and docs/ cite is stated" "$wrong"

wrong=''
for page in README.md docs/*.md; do
    for link in $(grep -o '](\([^)#]*\))' "$page" | sed 's/](\(.*\))/\1/' | grep -v '^http'); do
        [ -e "$(dirname "$page")/$link" ] || wrong="$wrong $page:$link"
    done
done
verdict "every link of README.md and docs/ leads somewhere" "$wrong"

wrong=''
for file in crates/*/specs/*.antt; do
    case $file in */Lib.antt | */Found.antt) continue ;; esac
    grep -qF "](../$file)" docs/READING.md || wrong="$wrong $file"
done
verdict "docs/READING.md leads to every file of definitions" "$wrong"

# ---- docs/SLIPS.md

# Prints the text of one slip, by its number.
slip() { sed -n "/^## $1\\. /,/^## /p" docs/SLIPS.md | sed '1!{/^## /d}'; }

# Prints LABEL FILE for each link whose label is in backquotes and whose file has the ending of the second word.
named_links() { grep -o "\[\`[^\`]*\`\]([^)]*\.$2)" <<<"$1" | sed 's|\[`\(.*\)`\](\.\./\(.*\))|\1 \2|'; }

# Prints the lines of a text that stand between fences.
fenced() { sed -n '/^```$/,/^```$/p' <<<"$1" | grep -v '^```$'; }

wrong=''
[ "$(grep -c '^## ' docs/SLIPS.md)" -eq 7 ] || wrong=' not seven'
for n in {1..7}; do
    text=$(slip "$n")
    for part in 'In the cab' 'The slip' 'The row' 'The theorem' 'The edit' 'The drill' 'The second implementation'; do
        [ "$(grep -cF "**$part.**" <<<"$text")" -eq 1 ] || wrong="$wrong $n:$part"
    done
    [ -n "$(named_links "$text" antt)" ] || wrong="$wrong $n:theorem"
    [ -n "$(named_links "$text" edit)" ] || wrong="$wrong $n:edit"
    [ -n "$(fenced "$text")" ] || wrong="$wrong $n:excerpt"
    script=$(sed -n 's/^    bin\/drill //p' <<<"$text")
    name=$(sed -n 's/^    bash host\/rehearse\.sh --slip \([^ ]*\)$/\1/p' <<<"$text")
    [[ $script =~ ^samples/[a-z-]+\.drill$ && $name =~ ^[a-z0-9-]+$ ]] || wrong="$wrong $n:$script:$name"
    commands=$(printf '%s\n' "bin/drill $script" "bash host/rehearse.sh --slip $name" "bash host/rehearse.sh --slip $name --play $script")
    [ "$(sed -n 's/^    //p' <<<"$text" | grep -E '^(bin/drill|bash) ')" = "$commands" ] || wrong="$wrong $n:commands"
    anchor=$(head -n 1 <<<"$text" | sed 's/^## //; s/[^A-Za-z0-9 -]//g; s/ /-/g' | tr '[:upper:]' '[:lower:]')
    grep -qF "](#$anchor)" docs/SLIPS.md || wrong="$wrong $n:#$anchor"
done
verdict "docs/SLIPS.md tells seven slips in one form, each with its script in the same three commands, and its table leads to each" "$wrong"

wrong=''
while read -r name file; do
    grep -qE "^ *(abbrev |unfoldable )?pub $name : " "$file" || wrong="$wrong $name:$file"
done < <(named_links "$(cat docs/SLIPS.md)" antt)
while read -r name file; do
    [ "$file" = "crates/${name%/*}/must-fail/${name#*/}.edit" ] && [ -f "$file" ] || wrong="$wrong $name:$file"
done < <(named_links "$(cat docs/SLIPS.md)" edit)
verdict "every theorem and every edit of docs/SLIPS.md stands in the file linked" "$wrong"

wrong=''
for n in {1..7}; do
    text=$(slip "$n")
    mapfile -t files < <(grep -o '](\.\./[^)]*\.antt)' <<<"$text" | sed 's|](\.\./\(.*\))|\1|')
    while read -r line; do
        grep -qhF -- "$line" "${files[@]}" || wrong="$wrong $n:$line"
    done < <(sed -n 's/^    //p' <<<"$text" | grep -vE '^(bin/drill|bash) ')
    script=$(sed -n 's/^    bin\/drill //p' <<<"$text")
    while read -r line; do
        grep -qxF -- "$line" "${script%.drill}.shown" || wrong="$wrong $n:$line"
    done < <(fenced "$text")
done
verdict "every clause that docs/SLIPS.md shows stands in a file linked, and every excerpt in what its script prints" "$wrong"

# ---- the sources

wrong=$(find crates host -name out -prune -o -type f -print | grep -E '\.(rt|antt|c|h|rs|sh)$' | xargs wc -l | awk '$2 != "total" && $1 >= 300 { print $2 }')
verdict "no source file has 300 lines" "$wrong"

# rt fmt writes: so it lays out a copy.
copy=$(mktemp -d) || exit 2
trap 'rm -rf "$copy"' EXIT
cp -R --parents crates.txt crates/*/{src,specs,proofs} "$copy/" 2>/dev/null
for crate in "$copy"/crates/*/; do
    (cd "$crate" && rt fmt) >/dev/null 2>&1 </dev/null || echo "rt fmt failed in ${crate#"$copy/"}" >>"$copy/wrong"
done
wrong=$(cat "$copy/wrong" 2>/dev/null; cd "$copy" && find crates -type f -exec cmp -s {} "$OLDPWD/{}" \; -o -type f -print | head -n 3)
verdict "the sources are in rt fmt's layout" "$wrong"

exit $status
