# The tables of one machine, read from its definitions, with terms.awk and asks.awk.
# Told by -v: `causing`, `wording`, `asking`, `doing`, `running`, `carrying` (the files of definitions: what happens, the words in which rows
# ask, what each asks, what each does, what runs in a state, what holds for all rows) and `words` (what each thing is called).

# Reads all of them.
function read_machine() {
    read_words()
    load(causing, "text")
    load(wording)
    load(asking)
    check_plain(causing, "same_cause", "same_cause c d = eqb ( cause_number c ) ( cause_number d )")
    check_plain(wording, "in_state", "in_state n f = eqb ( state_number ( state_of f ) ) n", "in_state n state = eqb ( state_number state ) n")
    check_plain(wording, "runs", "runs t f = has ( running_of f ) t", "runs t state = has ( running_of state ) t")
    load(doing)
    load(running)
    load(carrying)
    read_states()
    read_starter()
    read_asks()
    compare_tables()
}

# A name that asked() reads as it stands must mean what it is read as: its clause is one of these.
function check_plain(path, name, one, other) {
    as_it_stands[name] = 1
    if (!(one in is_clause) && !(other in is_clause)) refuse(path, name ": cannot read it, since it is defined in another way")
}

# Reads what each cause, fact, message, reason, store and state is called, and in which order that is listed.
function read_words(line, part) {
    while ((getline line <words) > 0) {
        if (line ~ /^(#|$)/) continue
        split(line, part, " ")
        sub(/^[^ ]+ +[^ ]+ +/, "", line)
        word[part[1], part[2]] = line
        word_kind[++words_listed] = part[1]
        word_name[words_listed] = part[2]
    }
    close(words)
}

# What a thing is called; a thing without a word cannot be drawn.
function called(kind, name, path, row) {
    if (!((kind, name) in word)) refuse(path, row ": " words " has no word for the " kind " " name)
    return word[kind, name]
}

# A set of timers in words, from the definition of its name: `TFG2 and TFG6`; empty for no timer.
function timers_of(name, path, row, t, n, i, out) {
    if (body[name] !~ /^record \{ (tf[pg][0-9]+ = (true|false) ;? ?)+\}$/) refuse(path, row ": no set of timers is called '" name "'")
    n = split(body[name], t, " ")
    for (i = 3; i <= n; i++) if (t[i] == "true") out = out " and " toupper(t[i - 2])
    return substr(out, 6)
}

# Reads the states by their numbers, and the sets of timers that may run in each.
function read_states(i, name) {
    for (i = 1; i <= clauses["state_number"]; i++) {
        name = tail_of(clause_of["state_number", i])
        state_at[body_at["state_number", "State." name]] = name
    }
    for (i = 1; i <= clauses["running_of"]; i++) read_running(clause_of["running_of", i])
    for (i = 1; i <= clauses["state_number"]; i++) {
        name = tail_of(clause_of["state_number", i])
        if (!(name in sets)) refuse(running, name ": no clause of running_of says what runs in it")
    }
}

# Reads what runs in a state, or in a phase of it: a clause of the table of running timers. A state with one such clause is a phase too.
function read_running(key, name, set) {
    name = key ~ /^Phase\./ ? tail_of(body_at["state_of", key]) : tail_of(key)
    if (!(("state_number", "State." name) in body_at)) refuse(running, key ": is of no state")
    set = timers_of(body_at["running_of", key], running, key)
    phase_at[++phases] = key
    state_of[key] = name
    set_of[key] = set
    if (name in sets) set = sets[name] "|" set
    sets[name] = set
}

# The parameters of a definition that is read by their names must be these.
function check_parameters(path, name, wanted, i, found) {
    for (i = 1; i <= arity[name]; i++) found = found " " parameter[name, i]
    if (found != " " wanted) refuse(path, name ": its parameters are not '" wanted "'")
}

# Reads which timer starts whenever a state is entered, where the definitions have such a rule; any other starts where the row says so.
function read_starter(field, n, i, t, by_row) {
    if (!("started_of" in clauses)) return
    check_parameters(carrying, "started_of", "state to start")
    n = split(substr(body["started_of"], 10, length(body["started_of"]) - 11), field, / ; ?/)
    for (i = 1; i <= n; i++) {
        if (field[i] == "") continue
        split(field[i], t, " ")
        by_row = t[1] " = ( start ." t[1] " )"
        if (field[i] == by_row) continue
        if (index(field[i], by_row " || ( changes state to && eqb ( state_number to ) ") != 1 || field[i] !~ / [0-9] \)$/)
            refuse(carrying, "started_of: cannot read '" field[i] "'")
        starter[state_at[substr(field[i], length(field[i]) - 2, 1)]] = toupper(t[1])
    }
}

# Reads the list of the rows, each with the alternatives that it asks for.
function read_asks(t, n, i, row, pair) {
    file = asking
    n = split(body["rows_ask"], t, " ")
    for (i = 1; i <= n && t[i] != "[]"; i++) {
        pair = argument(t, n, i)
        i += taken
        if (pair !~ /^\( [RG][0-9]+ , .+ \)$/) refuse(file, "rows_ask: cannot read '" pair "'")
        split(pair, row, " ")
        if (row[2] in asks_of) refuse(file, row[2] ": stands in rows_ask twice")
        row_at[++rows] = row[2]
        sub(/^\( [RG][0-9]+ , /, "", pair)
        sub(/ \)$/, "", pair)
        asks_of[row[2]] = alternatives(spelled_out(pair, row[2]), row[2])
    }
    if (!rows) refuse(file, "rows_ask has no row")
}

# Each row that is asked about has one clause that says what it does, and the other way round.
function compare_tables(i, row, seen) {
    for (i = 1; i <= clauses["effect_of"]; i++) {
        row = clause_of["effect_of", i]
        if (row in seen) refuse(doing, row ": effect_of has two clauses for it")
        seen[row] = 1
        if (row != "None" && !(row in asks_of)) refuse(asking, row ": is not in rows_ask, but " doing " has a clause for it")
    }
    for (i = 1; i <= rows; i++)
        if (!(row_at[i] in seen)) refuse(doing, row_at[i] ": effect_of has no clause for it, but it is in rows_ask of " asking)
}

# A term in which every choice by confirm is made.
function decided(text, confirm, row, t, n, i, yes, no, behind, out) {
    n = split(text, t, " ")
    for (i = 1; i <= n; i++) {
        if (t[i] != "cond") {
            out = out " " t[i]
            continue
        }
        yes = argument(t, n, i + 2)
        behind = i + 2 + taken
        no = argument(t, n, behind)
        if (t[i + 1] != "confirm" || yes == "" || no == "") refuse(doing, row ": cannot read its 'cond'")
        out = out " " (confirm ? yes : no)
        i = behind + taken - 1
    }
    return substr(out, 2)
}

# Reads what a row does, spelled out and decided: the fields of its effect by their names.
function read_effect(text, row, value, field, part, n, i) {
    text = bare(text)
    if (text !~ /^record \{ .* \}$/) refuse(doing, row ": cannot read '" text "'")
    n = split(substr(text, 10, length(text) - 11), field, " ; ")
    for (i = 1; i <= n; i++) {
        split(field[i], part, " ")
        if (part[1] !~ /^(to|stop|start|again|hold|say)$/ || part[2] != "=") refuse(doing, row ": cannot read '" field[i] "'")
        value[part[1]] = bare(substr(field[i], length(part[1]) + 4))
        if (sub(/^Some /, "", value[part[1]])) value[part[1]] = bare(value[part[1]])
    }
    if (value["to"] != "state" && !(tail_of(value["to"]) in sets)) refuse(doing, row ": enters '" value["to"] "', which is no state of " running)
}
