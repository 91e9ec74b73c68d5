# The rows of one machine as a table, each with all that it does, with terms.awk, asks.awk and tables.awk, which is told the files.
# Told by -v besides: `rules` (files that quote the definitions on which the words, and what is computed, rely: each must stand as quoted,
# and whole) and `relied` (more files that have such definitions). What a row leaves to the general rules is italic.
# A case is a phase in which a row is met, with the event that it is met by. What a row does to timers is computed in each case.
BEGIN {
    read_machine()
    n = split(relied, path, " ")
    for (i = 1; i <= n; i++) load(path[i], "text")
    n = split(rules, path, " ")
    for (i = 1; i <= n; i++) load(path[i], "quote")
    compare_quotes()
    check_numbers()
    read_timers()
    read_counters()
    print "| row | in | when | stops | starts | run on |" (counters ? " counters |" : "") " stores | sends | next |"
    print "|---|---|---|---|---|---|" (counters ? "---|" : "") "---|---|---|"
    for (i = 1; i <= rows; i++) tell_row(row_at[i])
}

# Each quoted clause must stand in a definition, and a definition that is quoted must have no other clause.
function compare_quotes(i, often) {
    for (i = 1; i <= quotes; i++) {
        if (!(quote_at[i] in is_clause)) refuse(quote_in[i], "no definition reads '" quote_at[i] "'")
        often[quote_of[i]]++
    }
    for (i = 1; i <= quotes; i++)
        if (often[quote_of[i]] != defined[quote_of[i]]) refuse(quote_in[i], quote_of[i] ": is not quoted whole")
}

# The numbers that tell causes and states apart must differ, and a row must have its own.
function check_numbers(clause, part, seen, n) {
    for (clause in is_clause) {
        n = split(clause, part, " ")
        if (part[1] ~ /^(cause|state)_number$/ && seen[part[1], part[n]]++)
            refuse(part[1] == "cause_number" ? causing : running, part[1] ": gives " part[n] " twice")
        if (part[1] == "row_number" && substr(part[2], 2) != part[n] && part[2] " " part[n] != "None 0")
            refuse(asking, "row_number: gives " part[n] " to " part[2])
    }
}

# Reads the timers, in their order: `timer_at`. The set with the name of a timer must have that timer alone.
function read_timers(t, n, i) {
    n = split(body["no_timer"], t, " ")
    for (i = 3; i <= n; i++) {
        if (t[i] != "false") continue
        timer_at[++timers] = toupper(t[i - 2])
        if (timers_of(t[i - 2], running, "no_timer") != timer_at[timers]) refuse(running, t[i - 2] ": has not this timer alone")
    }
}

# Reads which counter goes with which timer, where the machine has any: `counter_of`, by the timer.
function read_counters(part, n, i, t) {
    if (!("counters_after" in clauses)) return
    check_parameters(carrying, "counters_after", "running started again limits counters")
    n = split(substr(body["counters_after"], 10, length(body["counters_after"]) - 13), part, / [}] \)( ; |$)/)
    for (i = 1; i < n; i++) {
        split(part[i], t, " ")
        if (part[i] != t[1] " = counter_after ( record { runs = ( running " t[11] " ) ; started = ( started " t[11] " ) ; again = again ; limit = ( limits ." t[1] " ) ; was = ( counters ." t[1] " )")
            refuse(carrying, "counters_after: cannot read '" part[i] " } )'")
        counter_of[toupper(substr(t[11], 2))] = toupper(t[1])
        counters++
    }
}

# Tells a row: what it asks, then what it does, in two ways where that hangs on confirm.
function tell_row(row, text, cell, ways, i, line) {
    read_ways(row)
    file = doing
    text = spelled_out(body_at["effect_of", row], row)
    ways = text ~ / cond confirm / ? 2 : 1
    for (i = 1; i <= ways; i++) read_cells(row, ways == 1 ? text : decided(text, 2 - i, row), cell, i)
    line = "| " row " | " listed_up(state_in, states, ", ") " | " listed_up(event_in, events, ", or ")
    if (("but", row) in word) line = line "; " word["but", row]
    for (i = 1; i <= 7; i++) if (i != 4 || counters) line = line " | " by_confirm(cell[1, i], cell[ways, i])
    print line " |"
}

# A cell, from what it has with confirm 1 and what it has with confirm 0.
function by_confirm(one, none) {
    if (one == none) return one == "" ? "-" : one
    if (none == "") return one " if confirm 1"
    return one == "" ? none " if confirm 0" : one " if confirm 1, else " none
}

# The first so many entries, with this between two of them.
function listed_up(entry, n, between, i, out) {
    for (i = 1; i <= n; i++) out = out (i > 1 ? between : "") entry[i]
    return out
}

# The place of an entry among the first so many, 0 where it is none of them.
function place_of(entry, n, text) {
    while (n && entry[n] != text) n--
    return n
}

# ---- what a row asks

# Reads the ways in which a row is met: its states, its events and its cases. Each of its events must be one in each of its states.
function read_ways(row, way, n, i) {
    cases = states = events = 0
    split("", met_by)
    n = split(asks_of[row], way, "|")
    for (i = 1; i <= n; i++) read_way(row, way[i])
    if (n != states * events) refuse(asking, row ": cannot say it in one line, since it is not met by the same events in each of its states")
}

# Reads one way: the state, what happens, whether that is the same, the timers that have to run, and what has to hold besides.
function read_way(row, way, part, n, i, kind, name, state, cause, happens, out, same, needed, besides) {
    n = split(way, part, "&")
    for (i = 1; i <= n; i++) {
        kind = name = part[i]
        sub(/:.*/, "", kind)
        sub(/.*:/, "", name)
        if (kind == "in") state = state_at[name]
        else if (kind == "runs") needed = needed " " toupper(name)
        else if (kind == "out" || kind == "cause") {
            if (happens != "") refuse(asking, row ": asks for two causes at once")
            cause = name
            out = kind == "out" ? toupper(name) : ""
            happens = kind == "out" ? out " expires" : called("cause", name, asking, row)
        } else if (name == "same") same = " " called("fact", part[i] ~ /^!/ ? "!same" : "same", asking, row)
        else besides = besides ", " called("fact", (kind ~ /^!/ ? "!" : "") name, asking, row)
    }
    if (state == "" || happens == "") refuse(asking, row ": cannot read in which state, or by what, it is met")
    if (!place_of(state_in, states, state)) state_in[++states] = state
    read_event(row, state, cause, happens, out, same (needed == "" || needed == " " out ? "" : "," needed " running") besides, substr(needed, 2))
}

# Keeps the event of a way in words, and a case for each phase of the state in which the timer runs that has to.
function read_event(row, state, cause, happens, out, besides, needed, key, i, event, counted) {
    event = happens besides
    counted = "-"
    for (i = 1; i <= phases; i++) {
        key = phase_at[i]
        if (state_of[key] != state || (needed != "" && !has_timer(set_of[key], needed))) continue
        case_phase[++cases] = key
        case_cause[cases] = cause
        case_happens[cases] = happens
        case_out[cases] = out
        counted = counted == "-" || counted == body_at["count_of", key] ? body_at["count_of", key] : ""
    }
    if (counted == "-") refuse(asking, row ": is met in no phase of " state)
    if (event ~ /COUNTER/ && counted !~ /^c \.cfp[0-9]$/) refuse(asking, row ": cannot say which counter it looks at in " state)
    gsub(/COUNTER/, toupper(tail_of(counted)), event)
    if ((state, event) in met_by) refuse(asking, row ": is met in " state " by the same in two ways")
    met_by[state, event] = 1
    if (!place_of(event_in, events, event)) event_in[++events] = event
}

# Whether a timer is in a set in words, `TFG2 and TFG6`.
function has_timer(set, timer) { return index(" " set " ", " " timer " ") > 0 }

# ---- what a row does

# Reads what a row does into the cells of a way: stopped, started, running on, counters, stored, sent, next.
function read_cells(row, text, cell, way, value, c, stop, start, on, count) {
    read_effect(text, row, value)
    split("", count)
    for (c = 1; c <= cases; c++) read_timing(row, c, value, stop, start, on, count)
    cell[way, 1] = told_by_case(row, stop)
    cell[way, 2] = told_by_case(row, start)
    cell[way, 3] = told_by_case(row, on)
    if (counters && value["again"] !~ /^(true|false)$/) refuse(doing, row ": cannot read whether its counter gets one more, '" value["again"] "'")
    cell[way, 4] = counts_told(row, value["again"], count)
    cell[way, 5] = stored_by(row, tail_of(value["hold"]))
    cell[way, 6] = sent_by(row, value["say"])
    cell[way, 7] = value["to"] != "state" ? tail_of(value["to"]) : states == 1 ? "stays in " state_in[1] : "stays"
}

# What becomes of each timer in a case: stopped, started, running on; and of each counter: `started`, or `rests:` with the state.
function read_timing(row, c, value, stop, start, on, count, from, to, was, to_stop, to_start, ruled, i, t, runs, begins, stops, after) {
    from = state_of[case_phase[c]]
    to = value["to"] == "state" ? from : tail_of(value["to"])
    was = set_of[case_phase[c]]
    to_stop = timers_of(value["stop"], doing, row)
    to_start = timers_of(value["start"], doing, row)
    ruled = from != to && to in starter ? starter[to] : ""
    stop[c] = start[c] = on[c] = after = ""
    for (i = 1; i <= timers; i++) {
        t = timer_at[i]
        runs = has_timer(was, t)
        begins = has_timer(to_start, t) || ruled == t
        stops = runs && t != case_out[c] && (has_timer(to_stop, t) || (from != to && !begins))
        if (stops) stop[c] = with(stop[c], has_timer(to_stop, t) ? t : "*" t "*")
        if (begins) start[c] = with(start[c], (has_timer(to_start, t) ? t : "*" t "*") (runs && !stops && t != case_out[c] ? " anew" : ""))
        else if (runs && !stops && t != case_out[c]) on[c] = with(on[c], t)
        if (begins || (runs && !stops && t != case_out[c])) after = with(after, t)
        else if (runs && t in counter_of && index(count[t] " ", " rests:" from " ") == 0) count[t] = count[t] " rests:" from
        if (begins && t in counter_of) count[t] = count[t] " started"
    }
    if (index("|" sets[to] "|", "|" after "|") == 0) refuse(doing, row ": leads to " to " with timers that do not run there: '" after "'")
}

# A list with one more.
function with(list, more) { return list == "" ? more : list " and " more }

# What was computed in each case, in one line: by the state where that differs, or by what happens.
function told_by_case(row, said, at, c, s, e, key, seen, here, by_event, by_state, out) {
    for (c = 1; c <= cases; c++) {
        s = state_of[case_phase[c]]
        e = case_happens[c]
        if ((s, e, said[c]) in seen) continue
        seen[s, e, said[c]] = 1
        at[s, e] = (s, e) in here ? or_none(at[s, e]) " or " or_none(said[c]) : said[c]
        here[s, e] = 1
    }
    for (c = 1; c <= cases; c++) {
        s = state_of[case_phase[c]]
        e = case_happens[c]
        if (at[s, e] != at[s, case_happens[1]]) by_event = 1
        if (at[s, e] != at[state_of[case_phase[1]], e]) by_state = 1
    }
    if (by_event && by_state) refuse(doing, row ": cannot say in one line which timers it stops and starts")
    if (!by_event && !by_state) return said_in_case(at, 1)
    split("", seen)
    for (c = 1; c <= cases; c++) {
        key = by_state ? " in " state_of[case_phase[c]] : " (" case_happens[c] ")"
        if (key in seen || said_in_case(at, c) == "") continue
        seen[key] = 1
        out = out ", " said_in_case(at, c) key
    }
    return substr(out, 3)
}

# A list, or a word where it is empty.
function or_none(list) { return list == "" ? "none" : list }

# What is said in the state and by the event of a case.
function said_in_case(at, c) { return at[state_of[case_phase[c]], case_happens[c]] }

# What becomes of the counters, in words; one whose timer no longer runs is 0 by a general rule.
function counts_told(row, again, count, i, t, out) {
    for (i = 1; i <= timers; i++) {
        t = timer_at[i]
        if (!(t in count)) continue
        if (count[t] ~ /started/ && count[t] ~ /rests/) refuse(doing, row ": cannot say in one line what becomes of " counter_of[t])
        if (count[t] ~ /rests/) out = out ", *" counter_of[t] " 0*" (states > 1 ? rested_in(count[t]) : "")
        else out = ", " counter_of[t] (again == "true" ? " one more" : " 1") out
    }
    return substr(out, 3)
}

# The states in which a counter comes to rest, out of several.
function rested_in(text) {
    gsub(/ rests:/, " and ", text)
    return " in" substr(text, 5)
}

# What a row stores, in words: what that is may hang on what happens.
function stored_by(row, hold, c, said, out) {
    for (c = 1; c <= cases; c++) {
        said = ("hold", hold) in word ? word["hold", hold] : called("hold", hold "-" case_cause[c], doing, row)
        if (out != "" && said != out) refuse(doing, row ": cannot say in one line what it stores")
        out = said
    }
    return out == "-" ? "" : out
}

# What a row sends, in words.
function sent_by(row, say, part, n) {
    if (say == "None") return ""
    n = split(say, part, " ")
    if (n < 1 || n > 2 || part[1] !~ /^Say\./) refuse(doing, row ": cannot read what it says, '" say "'")
    return called("say", tail_of(part[1]), doing, row) (n == 2 ? ", " called("reason", tail_of(part[2]), doing, row) : "")
}
