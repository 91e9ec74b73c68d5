# What a row asks, read as alternatives: each a list of what has to hold at once. Alternatives stand apart by `|`, what has to hold by `&`:
# `in:2`, `cause:UserEnds`, `out:Tfp1` (this timer expires), `runs:Tfp1`, `fact:media`; with `!` ahead where it must not hold.

# Reads a term, spelled out, as alternatives.
function alternatives(text, row, found) {
    tokens = split(text, token, " ")
    place = 1
    found = joined(row)
    if (place <= tokens) refuse(file, row ": cannot read '" token[place] "'")
    return found
}

# Reads operands with one operator between them, up to a closing bracket or the end.
function joined(row, found, more, operator) {
    found = operand(row)
    while (place <= tokens && token[place] != ")") {
        if (token[place] != "&&" && token[place] != "||") refuse(file, row ": cannot read '" token[place] "'")
        if (operator != "" && operator != token[place]) refuse(file, row ": && and || stand side by side without brackets")
        operator = token[place++]
        more = operand(row)
        found = operator == "||" ? found "|" more : crossed(found, more)
    }
    return found
}

# Each alternative of the one with each of the other.
function crossed(one, other, a, b, n, m, i, k, out) {
    n = split(one, a, "|")
    m = split(other, b, "|")
    for (i = 1; i <= n; i++) for (k = 1; k <= m; k++) out = out "|" a[i] "&" b[k]
    return substr(out, 2)
}

# Reads one operand: a term in brackets, a `not` with what it denies, or one thing that has to hold.
function operand(row, found) {
    if (token[place] == "(") {
        place++
        found = joined(row)
        if (token[place++] != ")") refuse(file, row ": a bracket is not closed")
        return found
    }
    if (token[place] != "not") return asked(row)
    place++
    found = operand(row)
    if (found !~ /^fact:[a-z_]+$/) refuse(file, row ": cannot read a 'not' of anything but a fact")
    return "!" found
}

# Reads one thing that has to hold.
function asked(row, head, what) {
    head = token[place++]
    if (head == "x" && token[place] ~ /^\.[a-z_]+$/) return "fact:" substr(token[place++], 2)
    if (head == "in_state" && token[place] ~ /^[0-9]$/ && token[place + 1] == "f") {
        place += 2
        return "in:" token[place - 2]
    }
    if (head == "runs" && token[place + 1] == "f") {
        place += 2
        return "runs:" tail_of(token[place - 2])
    }
    if (head == "same_cause" && token[place] == "c") {
        what = argument(token, tokens, place + 1)
        place += taken + 1
        what = bare(what)
        if (what ~ /^Cause\.[A-Za-z0-9]+$/) return "cause:" tail_of(what)
        if (what ~ /^(private|group)_timer_cause [A-Za-z]+\.Tf[pg][0-9]+$/) return "out:" tail_of(what)
    }
    refuse(file, row ": cannot read '" head " " token[place] "'")
}

# What stands behind the last dot.
function tail_of(name) {
    sub(/.*\./, "", name)
    return name
}
