# The rows of one machine as plain lines, with tabs between their fields, with terms.awk, asks.awk, tables.awk and words.awk, which are told the files:
#     state  P2  waiting for response  TFP1 or TFP2
#     row    R1  P0  P2  user starts: stores the call, sends SETUP REQUEST
BEGIN {
    read_machine()
    hold_words()
    for (i = 1; i <= clauses["state_number"]; i++) tell_state(tail_of(clause_of["state_number", i]))
    for (i = 1; i <= rows; i++) tell_row(row_at[i])
}

# Tells a state, with the timers that run in it.
function tell_state(name, said) {
    said = sets[name]
    gsub(/\|/, " or ", said)
    print "state\t" name "\t" called("state", name, running, name) "\t" said
}

# Tells a row once for each state that it is met in, and twice where what it does hangs on confirm.
function tell_row(row, way, n, i, from, order, states, causes, text) {
    n = split(asks_of[row], way, "|")
    for (i = 1; i <= n; i++) {
        text = cause_of(way[i], row)
        if (met_in in causes) text = causes[met_in] " or " text
        else order[++states] = met_in
        causes[met_in] = text
    }
    file = doing
    text = spelled_out(body_at["effect_of", row], row)
    for (i = 1; i <= states; i++) {
        if (text !~ / cond confirm /) tell_effect(row, order[i], causes[order[i]], text)
        else for (n = 1; n >= 0; n--) tell_effect(row, order[i], causes[order[i]] ", confirm " n, decided(text, n, row))
    }
}

# One alternative in words; `met_in` is the state that it asks for.
function cause_of(way, row, part, n, i, kind, name, cause, known, out, besides) {
    n = split(way, part, "&")
    met_in = cause = ""
    for (i = 1; i <= n; i++) {
        kind = name = part[i]
        sub(/:.*/, "", kind)
        sub(/.*:/, "", name)
        if (kind == "in") {
            if (met_in != "" || !(name in state_at)) refuse(asking, row ": cannot read which state it asks for")
            met_in = state_at[name]
        } else if (kind == "cause" || kind == "out") {
            if (cause != "") refuse(asking, row ": asks for two causes at once")
            cause = kind == "cause" ? called("cause", name, asking, row) : toupper(name) " expires"
            out = kind == "out" ? name : ""
        } else if (name == "same") known = called("fact", part[i] ~ /^!/ ? "!same" : "same", asking, row) " "
        else if (kind == "runs") besides = besides (name == out ? "" : ", " toupper(name) " runs")
        else besides = besides ", " called("fact", (kind ~ /^!/ ? "!" : "") name, asking, row)
    }
    if (met_in == "" || cause == "") refuse(asking, row ": cannot read in which state, or by what, it is met")
    return known cause besides
}

# Tells what a row does when it is met in a state.
function tell_effect(row, from, cause, text, value, to, does) {
    read_effect(text, row, value)
    to = value["to"] == "state" ? from : tail_of(value["to"])
    does = listed(called("hold", tail_of(value["hold"]), doing, row)) listed(said_by(value["say"], row))
    does = does listed(timing(row, from, to, timers_of(value["stop"], doing, row), timers_of(value["start"], doing, row)))
    print "row\t" row "\t" from "\t" to "\t" cause (does == "" ? "" : ": " substr(does, 3))
}

# A part of a list, with its comma; nothing for what is not said.
function listed(text) { return text == "" || text == "-" ? "" : ", " text }

# What a row sends, in words.
function said_by(value, row, part, n) {
    if (value == "None") return ""
    n = split(value, part, " ")
    if (n < 1 || n > 2 || part[1] !~ /^Say\./) refuse(doing, row ": cannot read what it says, '" value "'")
    return "sends " called("say", tail_of(part[1]), doing, row) (n == 2 ? " (" called("reason", tail_of(part[2]), doing, row) ")" : "")
}

# What a row does to timers, in words: nothing where it enters a state in which just these timers run, and no others ever do.
function timing(row, from, to, stop, start) {
    if (from == to) {
        if (stop == start) return start == "" ? "" : "restarts " start
        return (stop == "" ? "" : "stops " stop (start == "" ? "" : ", ")) (start == "" ? "" : "starts " start)
    }
    if (start == "" && to in starter) start = starter[to]
    if (index("|" sets[to] "|", "|" start "|") == 0) refuse(doing, row ": enters " to " with timers that do not run there: '" start "'")
    return start == sets[to] ? "" : "starts " start
}
