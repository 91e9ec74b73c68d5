# What docs/MACHINES.md says otherwise than the definitions, a line each. Reads the plain lines of rows.awk and timers.awk for both machines,
# then the page; `command`, told by -v, is who says so.
BEGIN { FS = "\t" }
NR == FNR && $1 == "state" { state_at[++states] = $2 " " $3; called[$2] = $3 }
NR == FNR && $1 == "row" { keep_row($2, $3, $4, $5) }
NR == FNR && $1 == "timer" { timer_at[++timers] = $2; runs_in[$2] = $3; counter_of[$2] = $4 }
NR == FNR && $1 == "limit" { said["has a limit from " $2 " to " $3 " in the settings"] }
NR == FNR && $1 == "cleared" { said["A new record is in " $2 "."] }
NR == FNR && $1 == "starter" { said[$3 " is started by the rule for " $2 ","] }
NR == FNR && $1 == "pair" { opposite[$2] = $3 }
NR == FNR && $1 == "apart" { print command ": " $2 }
NR == FNR { next }

{ page = page $0 "\n" }
/^\| words \|/, /^$/ { if ($0 !~ /^(\| words \||\|-|$)/) read_words($0) }
/^\| [PS][0-9]/ { told_state[++told_states] = substr($0, 3, index(substr($0, 3), " | ") - 1) }
/^\| TF[PG][0-9] \|/ { read_timer($0) }
END {
    for (i = 1; i <= states || i <= told_states; i++)
        if (state_at[i] != told_state[i]) tell("it has the state '" told_state[i] "' for '" state_at[i] "'")
    for (i = 1; i <= timers; i++) hold_timer(timer_at[i])
    if (timers_told != order_of_timers()) tell("its timers are" timers_told ", not" order_of_timers())
    hold_words_told()
    said[counted()]
    for (text in said) if (index(page, text) == 0) tell("it does not say '" text "'")
}

# Tells one thing that is wrong with the page.
function tell(text) { print command ": docs/MACHINES.md: " text }

# The timers in their order.
function order_of_timers(k, out) {
    for (k = 1; k <= timers; k++) out = out " " timer_at[k]
    return out
}

# Keeps a row: what it asks, what it does; and the words in it that have to be told.
function keep_row(row, from, to, text, at, way, part, n, m, i, k) {
    rows++
    row_from[rows] = from
    row_to[rows] = to
    at = index(text, ": ")
    row_asks[rows] = at ? substr(text, 1, at - 1) : text
    row_does[rows] = at ? substr(text, at + 2) : ""
    if (row ~ /^G/ && row_asks[rows] " " row_does[rows] ~ /^user accepts sends /) said["an accept " row_does[rows] " in " from " only"]
    n = split(row_asks[rows], way, " or ")
    for (i = 1; i <= n; i++) {
        m = split(way[i], part, ", ")
        if (match(part[1], /^[a-z]+ [A-Z]/)) needs[substr(part[1], 1, RLENGTH - 2)] = row
        for (k = 2; k <= m; k++) needs[part[k] ~ /^TF.. runs$/ ? "TFP1 runs" : part[k]] = row
    }
    m = split(row_does[rows], part, ", ")
    for (k = 1; k <= m; k++) {
        if (part[k] ~ /^sends .* \(.*\)$/) needs["REJECT (BUSY)"] = row
        if (part[k] ~ /^(sends|stops|starts) /) continue
        sub(/ .*/, "", part[k])
        needs[part[k]] = row
    }
}

# Reads a line of the table of words: those of its first cell.
function read_words(line, cell, part, n, i) {
    cell = substr(line, 3, index(substr(line, 3), " | ") - 1)
    cells[cell]
    n = split(cell, part, ", ")
    for (i = 1; i <= n; i++) told[part[i]]
}

# Each word that has to be told is, and no other; one and its opposite stand in one cell, in this order.
function hold_words_told(text) {
    for (text in needs) if (!(text in told)) tell("it does not tell what '" text "' is, as in " needs[text])
    for (text in told) if (!(text in needs)) tell("it tells what '" text "' is, which no picture has")
    for (text in opposite) if (!((text ", " opposite[text]) in cells)) tell("it does not tell '" text ", " opposite[text] "' side by side")
}

# Reads a line of the table of timers.
function read_timer(line, cell) {
    split(line, cell, / ?[|] ?/)
    timers_told = timers_told " " cell[2]
    told_in[cell[2]] = cell[3]
    told_counter[cell[2]] = cell[4]
    told_wait[cell[2]] = cell[5]
}

# Holds what is told of a timer: the states that it runs in, its counter, and what is waited for.
function hold_timer(t, want) {
    if (!(t in told_in)) return
    if (told_in[t] != runs_in[t]) tell(t ": runs in " runs_in[t] ", not in " told_in[t])
    if (told_counter[t] != counter_of[t]) tell(t ": its counter is " counter_of[t] ", not " told_counter[t])
    want = waited_for(t)
    if (whole ? told_wait[t] != want : index(told_wait[t], want) != 1) tell(t ": what is waited for is " want ", not " told_wait[t])
    if (!whole) hold_names(t, told_wait[t])
}

# What is waited for while a timer runs, by its rows; `whole` says whether no more may be said.
function waited_for(t, again, leaves, ack) {
    again = sent_again(t)
    whole = counter_of[t] != "-"
    if (whole) return is_heard(again " ACK") ? again " ACK" : "a reply to " again
    if (user_accepts(t)) return "the user who "
    if (again != "") return "the next " again
    whole = 1
    return called[runs_in[t]] == "ongoing" ? "the end of the longest " (t ~ /^TFG/ ? "group " : "") "call allowed" : "the end of " runs_in[t]
}

# The message that goes out when a timer expires and the state stays.
function sent_again(t, k, text) {
    for (k = 1; k <= rows; k++)
        if (index(row_asks[k], t " expires") && row_from[k] == row_to[k] && match(row_does[k], /sends [A-Z ]+/)) text = substr(row_does[k], RSTART + 6, RLENGTH - 6)
    return text
}

# Whether a row asks for a message.
function is_heard(message, k) {
    for (k = 1; k <= rows; k++) if (index(row_asks[k], " " message " heard")) return 1
    return 0
}

# Whether the user may accept while a timer runs.
function user_accepts(t, k) {
    for (k = 1; k <= rows; k++)
        if (index(row_asks[k], "user accepts") == 1 && index(runs_in[t], row_from[k]) && (row_asks[k] !~ / runs/ || index(row_asks[k], t " runs"))) return 1
    return 0
}

# Each message that stands in what is told of a timer stands in a row that names the timer, and each state is one that it runs in.
function hold_names(t, text, k, near, name) {
    near = " " runs_in[t]
    for (k = 1; k <= rows; k++) if (index(row_asks[k] row_does[k], t)) near = near "; " row_asks[k] "; " row_does[k]
    while (match(text, /[A-Z][A-Z0-9]+( [A-Z]+)*/)) {
        name = substr(text, RSTART, RLENGTH)
        text = substr(text, RSTART + RLENGTH)
        if (near !~ (" " name "([ ;,]|$)")) tell(t ": has nothing to do with " name)
    }
}

# What is said of the counters.
function counted(k, counters, messages) {
    for (k = 1; k <= timers; k++) {
        if (counter_of[timer_at[k]] == "-") continue
        counters = counters ", " counter_of[timer_at[k]]
        messages = messages ", " sent_again(timer_at[k])
        if (substr(counter_of[timer_at[k]], 4) != substr(timer_at[k], 4)) tell(counter_of[timer_at[k]] " does not have the number of " timer_at[k])
    }
    said["each goes with the timer of its number"]
    return listed(counters) " count how often " listed(messages) " went out without an answer"
}

# A list with 'and' ahead of its last entry.
function listed(text) {
    text = substr(text, 3)
    match(text, /.*, /)
    return substr(text, 1, RLENGTH - 2) " and " substr(text, RLENGTH + 1)
}
