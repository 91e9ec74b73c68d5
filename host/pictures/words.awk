# Whether each word of a picture says what its definition means, as far as a word can be held to it, with terms.awk, asks.awk and tables.awk.
# Told by -v besides: `naming` (the source in which the states have names), `reasoning` (the definitions in which the reasons have names),
# `requesting` (those of the setup request) and `meanings` (words that no definition has for a name, each with the definition that it means).

# Holds every word to its definition.
function hold_words(i, kind, name) {
    load(requesting, "text")
    read_state_names()
    read_reason_names()
    read_causes_and_messages()
    read_meanings()
    for (i = 1; i <= words_listed; i++) {
        kind = word_kind[i]
        name = word_name[i]
        if (!((kind, name) in meant)) refuse(words, kind " " name ": no definition has it")
        if (word[kind, name] != meant[kind, name])
            refuse(words, kind " " name ": is called '" word[kind, name] "', but means '" meant[kind, name] "'")
    }
}

# A name of several words, SetupRequest, in capitals: SETUP REQUEST.
function in_capitals(name) {
    gsub(/[A-Z]/, " &", name)
    return toupper(substr(name, 2))
}

# Keeps the one word that a thing may have.
function means(kind, name, text, path) {
    if ((kind, name) in meant && meant[kind, name] != text) refuse(path, kind " " name ": means '" meant[kind, name] "' and '" text "'")
    meant[kind, name] = text
}

# Reads the names of the states: they stand ahead of the type of states, in its order. Of two that ask the user one confirms. A state has the
# number that stands in its name.
function read_state_names(line, name, n, before, i) {
    while ((getline line <naming) > 0 && line != "pub enum State {") if (line !~ /^#/) before = line
    if (before !~ /^\/\/ The states: .*\.$/) refuse(naming, "has no names of the states ahead of them")
    sub(/, and two in which the user is asked, S4 without confirm and S5 with it\.$/, ", user is asked/ without confirm, user is asked/ with confirm.", before)
    split(substr(before, 16, length(before) - 16), name, ", ")
    while ((getline line <naming) > 0 && line != "}") {
        gsub(/[ ,]/, "", line)
        sub(/\//, ",", name[++n])
        means("state", line, name[n], naming)
    }
    close(naming)
    for (i = 1; i <= clauses["state_number"]; i++) {
        before = tail_of(clause_of["state_number", i])
        if (body_at["state_number", "State." before] != substr(before, 2)) refuse(running, "state_number: gives " body_at["state_number", "State." before] " to " before)
    }
    if (meant["state", "S5"] ~ /, with confirm$/ && !("waits confirm = cond confirm State.S5 State.S4" in is_clause))
        refuse(doing, "waits: cannot read it, since it is defined in another way")
}

# Reads the names of the reasons, which stand by their numbers ahead of the range of a reason.
function read_reason_names(line, part, n, i, at) {
    while ((getline line <reasoning) > 0 && line !~ /^-- a reason: 0 /);
    close(reasoning)
    n = split(substr(line, 14), part, ", ")
    for (i = 1; i <= n; i++) at[part[i] + 0] = substr(part[i], 3)
    for (i = 1; i <= clauses["reason_number"]; i++)
        means("reason", tail_of(clause_of["reason_number", i]), at[body_at["reason_number", clause_of["reason_number", i]]], reasoning)
}

# Reads what makes each cause, and which message each saying sends: a message has the name of its kind, and the user does what an action is.
function read_causes_and_messages(clause, t, value) {
    for (clause in is_clause) {
        split(clause, t, " ")
        value = substr(clause, index(clause, " = ") + 3)
        if (t[1] ~ /^(private|group)_action_cause$/) means("cause", tail_of(value), "user " tolower(tail_of(t[2] == "(" ? t[3] : t[2])) "s", causing)
        if (t[1] == "message_cause" && (value = cause_named(value)) != "Other") means("cause", value, in_capitals(t[4]) " heard", causing)
        if (t[1] == "sent_of" && value != "None") means("say", tail_of(t[4] == "Some" ? t[6] : t[3]), message_in(value), carrying)
    }
}

# The cause of a message: named at once, or by a definition that leaves some messages out.
function cause_named(value, clause, t) {
    if (value ~ /^Cause\.[A-Za-z]+$/) return tail_of(value)
    split(value, t, " ")
    for (clause in is_clause)
        if (index(clause, t[1] " ") == 1 && clause ~ / = cond .* Cause\.[A-Za-z]+ Cause\.Other$/) {
            sub(/ Cause\.Other$/, "", clause)
            return tail_of(clause)
        }
    refuse(causing, "message_cause: cannot read '" value "'")
}

# The name of the message that is sent, with its reason where that is always the same one.
function message_in(value, t, clause, reason) {
    split(value, t, " ")
    if (t[3] == "as_message")
        for (clause in is_clause) if (index(clause, "as_message r = ") == 1) split("- - " substr(clause, 15), t, " ")
    if (!match(value, / Reason\.[A-Za-z]+ /)) return in_capitals(t[3])
    reason = tail_of(substr(value, RSTART + 1, RLENGTH - 2))
    return in_capitals(t[3]) " (" meant["reason", reason] ")"
}

# Reads the words that have a meaning: it must stand in the definitions as it is quoted.
function read_meanings(line, part, pair, name, facts, field, n, i) {
    for (line in is_clause) if (index(line, "facts_of ") == 1) facts = substr(line, index(line, "record { ") + 9)
    n = split(facts, field, / ; }?/)
    for (i = 1; i <= n; i++) is_field[field[i]] = 1
    while ((getline line <meanings) > 0) {
        if (line ~ /^(#|$)/) continue
        split(line, part, " [|] ")
        part[3] = bracketed(spaced(part[3]))
        if (!(part[3] in is_clause) && !(part[3] in is_field)) refuse(meanings, "no definition reads '" part[3] "'")
        name = part[3]
        sub(/ .*/, "", name)
        split(part[1], pair, ", ")
        if (name == "held_of") {
            split(part[3], field, " ")
            means("hold", tail_of(field[2]), pair[1], meanings)
            table_word["hold", tail_of(field[2])] = part[2]
        } else keep_fact(name, pair, part[2])
    }
    close(meanings)
}

# Keeps the word of a fact and that of its opposite, and what the rows' table calls both.
function keep_fact(name, pair, told, in_table) {
    split(told, in_table, ", ")
    means("fact", name, pair[1], meanings)
    table_word["fact", name] = in_table[1]
    if (pair[2] == "") return
    means("fact", "!" name, pair[2], meanings)
    table_word["fact", "!" name] = in_table[2]
}
