# More plain lines of one machine, for what docs/MACHINES.md says of it, with tabs between their fields; behind rows.awk, which is told the
# files. Told by -v besides: `forming` (the definitions of a cleared record), `setting` (those of the limits), `framing` (those of the kinds)
# and `table` (the words of docs/ROWS.md).
#     timer    TFP1  P2  CFP1                a timer, the states that it runs in, its counter
#     limit    1  16                         what a counter's limit may be
#     cleared  P0                            the state of a new record
#     starter  P1  TFP7                      a timer that starts whenever its state is entered
#     pair     known  new                    a fact and its opposite
#     apart    a word of docs/ROWS.md that says something else than that of the picture
BEGIN {
    load(forming, "text")
    load(setting, "text")
    load(framing, "text")
    tell_timers()
    for (clause in is_clause) {
        if (clause ~ /^limit_good limit = within [0-9]+ limit [0-9]+$/) {
            split(clause, t, " ")
            print "limit\t" t[5] "\t" t[7]
        }
        if (match(clause, /^cleared_record = record \{ state = State\.[A-Z0-9]+ /)) print "cleared\t" tail_of(substr(clause, 1, RLENGTH - 1))
    }
    for (name in starter) print "starter\t" name "\t" starter[name]
    for (i = 1; i <= words_listed; i++) if (word_kind[i] == "fact" && ("fact", "!" word_name[i]) in word)
        print "pair\t" word["fact", word_name[i]] "\t" word["fact", "!" word_name[i]]
    compare_lists()
}

# Tells each timer, in the order of the set of them.
function tell_timers(t, n, i, k, timer, states, counter) {
    n = split(body["no_timer"], t, " ")
    for (i = 3; i <= n; i++) {
        if (t[i] != "false") continue
        timer = toupper(t[i - 2])
        states = counter = ""
        for (k = 1; k <= phases; k++) {
            if (index(" " set_of[phase_at[k]] " ", " " timer " ") == 0) continue
            states = states ", " state_of[phase_at[k]]
            if (body_at["count_of", phase_at[k]] ~ /^c \.cfp[0-9]$/) counter = toupper(tail_of(body_at["count_of", phase_at[k]]))
        }
        print "timer\t" timer "\t" substr(states, 3) "\t" (counter == "" ? "-" : counter)
    }
}

# The words of docs/ROWS.md must name the same things.
function compare_lists(line, part, kind, name, own) {
    while ((getline line <table) > 0) {
        split(line, part, " ")
        kind = part[1]
        name = part[2]
        sub(/^[^ ]+ +[^ ]+ +/, "", line)
        if (kind ~ /^(cause|say|reason)$/) own = said_in_table(kind, name, line)
        else if (kind == "fact" || (kind, name) in table_word) own = table_word[kind, name]
        else continue
        if (own != line) print "apart\t" table ": " kind " " name ": is called '" line "', but means '" own "'"
    }
    close(table)
}

# What docs/ROWS.md calls a cause, a message or a reason: a message has its kind ahead of it, and more may be said behind.
function said_in_table(kind, name, line, own, clause, t, n) {
    own = meant[kind, name]
    sub(/ heard$/, "", own)
    sub(/ \(BUSY\)$/, ", BUSY", own)
    for (clause in is_clause) {
        n = split(clause, t, " ")
        if (t[1] == "kind_of" && kind != "reason" && index(own ",", in_capitals(t[3]) ",") == 1) own = sprintf("%02d %s", t[n], own)
    }
    return index(line, own) == 1 && substr(line, length(own) + 1) ~ /^($|[ ,][^A-Z]|\/F)/ ? line : own
}
