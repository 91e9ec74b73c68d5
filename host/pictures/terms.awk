# The definitions of a file *.antt, and what a term is once the definitions in it are filled in.
# A clause `name a b = body` may go on in indented lines. Tokens are words, brackets, `;` and `,`, with a blank between two of them; a field of
# a value, x.timers.tfp1, is three, and they stand in brackets: ( x .timers .tfp1 ).

# Gives up with one line that names the file and what is wrong with it; `command`, told by -v, is who says so.
function refuse(file, what, field) {
    while (match(what, /\( [a-z_][a-z0-9_]*( \.[a-z0-9_]+)+ \)/)) {
        field = substr(what, RSTART + 2, RLENGTH - 4)
        gsub(/ /, "", field)
        what = substr(what, 1, RSTART - 1) field substr(what, RSTART + RLENGTH)
    }
    print command ": " file ": " what >"/dev/stderr"
    exit 2
}

# A line as tokens, without its comment: a dot with what is behind it is one where that is a field, and a name behind its type's is none.
function spaced(line) {
    sub(/--.*/, "", line)
    gsub(/[«»]+/, "", line)
    gsub(/[(){};,]/, " & ", line)
    gsub(/\.[a-z0-9]/, " &", line)
    gsub(/[ \t]+/, " ", line)
    sub(/^ /, "", line)
    sub(/ $/, "", line)
    return line
}

# Tokens with each field in brackets, together with the value that it is of.
function bracketed(text, t, n, i, out, o, from, opened, depth) {
    n = split(text, t, " ")
    for (i = 1; i <= n; i++) {
        if (t[i] ~ /^\.[a-z0-9]/ && from) {
            out[from] = "( " out[from]
            out[++o] = t[i]
            while (i < n && t[i + 1] ~ /^\.[a-z0-9]/) out[o] = out[o] " " t[++i]
            out[o] = out[o] " )"
            continue
        }
        out[++o] = t[i]
        from = t[i] == ")" ? opened[depth--] : o
        if (t[i] == "(") opened[++depth] = o
    }
    text = out[1]
    for (i = 2; i <= o; i++) text = text " " out[i]
    return text
}

# Tokens in which a case that may be missing is read as the case itself: ( Some G1 ) is G1, and None stays.
function unwrapped(text) {
    while (match(text, /\( Some [A-Z][A-Za-z0-9]*(\.[A-Za-z0-9]+)? \)/))
        text = substr(text, 1, RSTART - 1) substr(text, RSTART + 7, RLENGTH - 9) substr(text, RSTART + RLENGTH)
    return text
}

# Reads the clauses of a file: see `keep_clause`.
function load(path, kept, line, whole, got) {
    while ((got = (getline line <path)) > 0) {
        if (line ~ /^[ \t]+[^ \t]/) {
            whole = whole " " spaced(line)
            continue
        }
        keep_clause(path, whole, kept)
        whole = (line ~ /^(use|abbrev|unfoldable) /) ? "" : spaced(line)
    }
    if (got < 0) refuse(path, "may not be read")
    keep_clause(path, whole, kept)
    close(path)
}

# Keeps one clause: its text; by its name how often there is one, its parameters and its body; and by name and first parameter the body too.
# Where `kept` is "text", that and how often there is one are all, and the name does not stand for its definition in a term; where it is
# "quote", the file does not define the clause but quotes it, and this is all that is kept.
function keep_clause(path, whole, kept, at, left, n, i) {
    whole = unwrapped(bracketed(whole))
    if (!(at = index(whole, " = "))) return
    n = split(substr(whole, 1, at - 1), left, " ")
    if (kept == "quote") {
        quote_at[++quotes] = whole
        quote_of[quotes] = left[1]
        quote_in[quotes] = path
        return
    }
    is_clause[whole] = 1
    defined[left[1]]++
    if (kept == "text") return
    clauses[left[1]]++
    arity[left[1]] = n - 1
    for (i = 2; i <= n; i++) parameter[left[1], i - 1] = left[i]
    body[left[1]] = bare(substr(whole, at + 3))
    clause_of[left[1], clauses[left[1]]] = left[2]
    body_at[left[1], left[2]] = body[left[1]]
}

# Whether a name stands for its definition: one clause, with parameters, and no name that is read as it stands.
function is_short(name) { return clauses[name] == 1 && arity[name] > 0 && !(name in as_it_stands) }

# The argument that begins at a token, without its brackets; `taken` is how many tokens it has, 0 where there is none.
function argument(t, n, from, depth, i, text) {
    taken = 0
    if (from > n || t[from] == ")") return ""
    for (i = from; i <= n; i++) {
        if (t[i] == "(") depth++
        if (t[i] == ")") depth--
        text = text (i > from ? " " : "") t[i]
        if (!depth) break
    }
    taken = i - from + 1
    return text
}

# The body of a name with arguments in the place of its parameters; a token ahead of `=` is a field, and stays.
function filled(name, given, t, n, i, k, out) {
    n = split(body[name], t, " ")
    for (i = 1; i <= n; i++) {
        for (k = arity[name]; k > 0 && (t[i] != parameter[name, k] || t[i + 1] == "="); k--);
        out = out " " (k ? given[k] : t[i])
    }
    return substr(out, 2)
}

# A term with each short name in it replaced once by its filled definition, in brackets; `replaced` says whether there was any.
function replaced_once(text, where, t, n, i, k, name, given, out) {
    n = split(text, t, " ")
    replaced = 0
    for (i = 1; i <= n; i++) {
        name = t[i]
        if (!is_short(name) || t[i + 1] == "=") {
            out = out " " name
            continue
        }
        for (k = 1; k <= arity[name]; k++) {
            given[k] = argument(t, n, i + 1)
            if (!taken) refuse(file, where ": " name " has too few words behind it")
            i += taken
        }
        out = out " ( " filled(name, given) " )"
        replaced = 1
    }
    return substr(out, 2)
}

# A term with all its short names replaced.
function spelled_out(text, where, rounds) {
    for (rounds = 1; rounds <= 20; rounds++) {
        text = replaced_once(text, where)
        if (!replaced) return text
    }
    refuse(file, where ": its definitions lead round in a circle")
}

# A term without the brackets around the whole of it.
function bare(text, t, n) {
    for (;;) {
        n = split(text, t, " ")
        argument(t, n, 1)
        if (t[1] != "(" || taken != n) return text
        text = substr(text, 3, length(text) - 4)
    }
}
