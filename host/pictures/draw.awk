# The picture of one machine as SVG, from the lines of rows.awk on standard input and the layout, with clear.awk.
# Told by -v: `layout` (places), `title` and `about` (what the picture is called, and is about).
BEGIN {
    FS = "\t"
    size = 13
    leading = 17
    gap = 4
    column = 34
    accent = "#0b5394"
    read_layout()
}

$1 == "state" {
    state_at[++states] = $2
    name_of[$2] = $3
    timers_of[$2] = $4
    if (!(("box", $2) in data)) refuse("no box for the state " $2)
}

$1 == "row" {
    if ($3 != $4 && !(($3, $4) in rows_at)) {
        pair_at[++pairs] = $3 SUBSEP $4
        if (!(("arrow", $3, $4) in data)) refuse("no arrow from " $3 " to " $4 ", where " $2 " leads")
    }
    rows_at[$3, $4]++
    row_of[$3, $4, rows_at[$3, $4]] = $2
    text_of[$3, $4, rows_at[$3, $4]] = $5
}

END {
    if (refused) exit 2
    check_joins()
    check_places()
    draw_head()
    for (i = 1; i <= pairs; i++) draw_arrow(pair_at[i])
    for (i = 1; i <= states; i++) draw_state(state_at[i])
    for (i = 1; i <= pairs; i++) draw_label(pair_at[i])
    draw_end()
}

# Gives up with one line that names the layout and what is wrong with it.
function refuse(what) {
    print command ": " layout ": " what >"/dev/stderr"
    refused = 1
    exit 2
}

# Reads the layout: `size W H`, `box STATE X Y W H`, `arrow FROM TO X,Y X,Y ...`, `label FROM TO X Y W H`, `joins FROM TO FROM TO`.
function read_layout(line, part, key, names, i) {
    while ((getline line <layout) > 0) {
        if (line ~ /^(#|$)/) continue
        split(line, part, " ")
        key = part[1]
        if (key !~ /^(size|box|arrow|label|joins)$/) refuse("cannot read '" line "'")
        names = key == "size" ? 0 : key == "box" ? 1 : 2
        for (i = 1; i <= names; i++) key = key SUBSEP part[i + 1]
        for (i = 0; i <= names; i++) sub(/^[^ ]+ +/, "", line)
        data[key] = line
    }
    close(layout)
}

# How the pair of states of an arrow is named in a refusal.
function named(pair) {
    sub(SUBSEP, " to ", pair)
    return pair
}

# An arrow that runs into another one has no label: both must stand for the same rows.
function check_joins(i, k, other) {
    for (i = 1; i <= pairs; i++) {
        if (!(("joins" SUBSEP pair_at[i]) in data)) {
            if (!(("label" SUBSEP pair_at[i]) in data)) refuse("no label for the arrow " named(pair_at[i]))
            continue
        }
        other = data["joins" SUBSEP pair_at[i]]
        sub(/ +/, SUBSEP, other)
        for (k = 1; k <= rows_at[pair_at[i]] || k <= rows_at[other]; k++)
            if (row_of[pair_at[i], k] text_of[pair_at[i], k] != row_of[other, k] text_of[other, k])
                refuse("the arrows " named(pair_at[i]) " and " named(other) " share a label, but not their rows")
    }
}

# ---- text

# Text as it stands in SVG.
function escaped(text) {
    gsub(/&/, "\\&amp;", text)
    gsub(/</, "\\&lt;", text)
    gsub(/>/, "\\&gt;", text)
    return text
}

# How wide a text is, in units, in a wide sans-serif font.
function width_of(text, i, c, em) {
    for (i = 1; i <= length(text); i++) {
        c = substr(text, i, 1)
        em += c ~ /[CDGHMNOQUWmw]/ ? 0.78 : c ~ /[A-Z]/ ? 0.66 : c ~ /[fijlrt]/ ? 0.36 : c ~ /[a-z0-9]/ ? 0.61 : 0.33
    }
    return em * size
}

# Breaks a text into lines no wider than this: `cut`; answers how many there are. What a row does begins a line, unless all fits in one.
function broken(text, room, at, lines) {
    at = index(text, ": ")
    if (!at || width_of(text) <= room) return broken_on(text, room, 0)
    lines = broken_on(substr(text, 1, at), room, 0)
    return broken_on(substr(text, at + 2), room, lines)
}

# The same, behind so many lines: lines end at a comma, and elsewhere only where what stands between two commas is too wide.
function broken_on(text, room, lines, piece, n, i) {
    n = split(text, piece, ", ")
    for (i = 1; i <= n; i++) {
        if (i < n) piece[i] = piece[i] ","
        if (i > 1 && width_of(cut[lines] " " piece[i]) <= room) cut[lines] = cut[lines] " " piece[i]
        else lines = broken_at_words(piece[i], room, lines)
    }
    return lines
}

# The same, wherever a word ends.
function broken_at_words(text, room, lines, part, n, i) {
    n = split(text, part, " ")
    for (i = 1; i <= n; i++) {
        if (width_of(part[i]) > room) refuse("a place is too narrow for the word '" part[i] "'")
        if (i > 1 && width_of(cut[lines] " " part[i]) <= room) cut[lines] = cut[lines] " " part[i]
        else cut[++lines] = part[i]
    }
    return lines
}

# Draws the rows of a pair of states, a line or more each, from a first base line down; answers the base line behind the last.
function draw_rows(pair, x, y, room, i, k, lines) {
    for (i = 1; i <= rows_at[pair]; i++) {
        lines = broken(text_of[pair, i], room - column)
        printf "<text x=\"%d\" y=\"%d\" class=\"row\">%s</text>\n", x, y, row_of[pair, i]
        for (k = 1; k <= lines; k++) {
            printf "<text x=\"%d\" y=\"%d\">%s</text>\n", x + column, y, escaped(cut[k])
            y += leading
        }
        y += gap
    }
    return y - gap
}

# ---- what is drawn

# Draws the beginning: the size, the words for whoever cannot see it, the styles, the head of an arrow.
function draw_head(part) {
    split(data["size"], part, " ")
    printf "<svg xmlns=\"http://www.w3.org/2000/svg\" width=\"%d\" height=\"%d\" viewBox=\"0 0 %d %d\"", part[1], part[2], part[1], part[2]
    print " role=\"img\" aria-labelledby=\"title about\">"
    print "<title id=\"title\">" escaped(title) "</title>"
    print "<desc id=\"about\">" escaped(about) "</desc>"
    print "<!-- made by host/pictures.sh from the row tables: change those, and make it anew -->"
    print "<style>"
    print "text { font-family: Arial, Helvetica, sans-serif; font-size: " size "px; fill: #000000; }"
    print "text.row { font-weight: bold; fill: " accent "; }"
    print "text.name { font-weight: bold; font-size: " size + 3 "px; }"
    print "rect.state { fill: #f3f7fb; stroke: " accent "; stroke-width: 2; }"
    print "polyline { fill: none; stroke: #000000; stroke-width: 1.5; }"
    print "</style>"
    print "<defs><marker id=\"head\" viewBox=\"0 0 10 10\" refX=\"9\" refY=\"5\" markerWidth=\"8\" markerHeight=\"8\" orient=\"auto\">"
    print "<path d=\"M 0 0 L 10 5 L 0 10 z\"/></marker></defs>"
    printf "<rect x=\"0\" y=\"0\" width=\"%d\" height=\"%d\" fill=\"#ffffff\"/>\n", part[1], part[2]
}

# Draws an arrow: with a head, or with a dot where it runs into another one.
function draw_arrow(pair, points, part, n, last) {
    points = data["arrow" SUBSEP pair]
    n = split(points, part, " ")
    if (!(("joins" SUBSEP pair) in data)) {
        print "<polyline points=\"" points "\" marker-end=\"url(#head)\"/>"
        return
    }
    split(part[n], last, ",")
    print "<polyline points=\"" points "\"/>"
    printf "<circle cx=\"%d\" cy=\"%d\" r=\"4\"/>\n", last[1], last[2]
}

# Which timers run in a state, in words.
function running_in(state) {
    if (timers_of[state] == "") return "no timer runs"
    return timers_of[state] (timers_of[state] ~ / and / ? " run" : " runs")
}

# Draws the box of a state: its name, the timers that run in it, and the rows that stay in it.
function draw_state(state, part, y) {
    split(data["box", state], part, " ")
    printf "<rect class=\"state\" x=\"%d\" y=\"%d\" width=\"%d\" height=\"%d\" rx=\"8\"/>\n", part[1], part[2], part[3], part[4]
    printf "<text x=\"%d\" y=\"%d\" class=\"name\">%s %s</text>\n", part[1] + 12, part[2] + 24, state, escaped(name_of[state])
    printf "<text x=\"%d\" y=\"%d\">%s</text>\n", part[1] + 12, part[2] + 43, running_in(state)
    if (width_of(state " " name_of[state]) * 1.4 > part[3] - 24) refuse("the box of " state " is too narrow for its name")
    y = part[2] + 43
    if (rows_at[state, state]) {
        printf "<text x=\"%d\" y=\"%d\">stays:</text>\n", part[1] + 12, y + leading + 5
        y = draw_rows(state SUBSEP state, part[1] + 12, y + 2 * leading + 5, part[3] - 18) - leading
    }
    if (y + 8 > part[2] + part[4]) refuse("the box of " state " is too low for its rows: " y + 8 - part[2] " would do")
}

# Draws the rows that lead from one state to another, beside their arrow.
function draw_label(pair, part, y) {
    if (("joins" SUBSEP pair) in data) return
    split(data["label" SUBSEP pair], part, " ")
    y = draw_rows(pair, part[1], part[2] + size, part[3]) - leading + 4
    if (y > part[2] + part[4]) refuse("the label of the arrow " named(pair) " is too low for its rows: " y - part[2] " would do")
}

# Draws the end.
function draw_end() { print "</svg>" }
