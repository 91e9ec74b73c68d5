# The times that host/speed.sh prints, held against each other: says in a line each ratio that is not the quotient of the two times that it
# belongs to, and each rate that does not go with its time, as far as the figures tell; and where there is nothing to hold.
BEGIN { FS = " *[|] *" }

# What a figure may be off by, as it is rounded.
function slack(figure) { return (figure ~ /\./ ? 10 ^ -(length(figure) - index(figure, ".")) : 1) / 2 }

# Says it where a figure is further from a value than it may be.
function near(figure, value, by) {
    held++
    if (figure - value > by * 1.001 || value - figure > by * 1.001) print $2 ": " figure " and not " value
}

# A rate against the value that another figure leaves for it.
function rate(figure, value, other) { near(figure, value, slack(figure) + value * slack(other) / other) }

# How many bytes a line has is the same for all: by the rates of this row, and by those of the first.
function bytes(all, lines, first, first_lines, off) {
    off = slack(all) / all + slack(lines) / lines + slack(first) / first + slack(first_lines) / first_lines
    near(all / lines, first / first_lines, off * all / lines)
}

/^\|  \|/ { table = $3; next }
!/^\| / { next }
table == "line check (a line), ns" {
    for (i = 3; i <= 7; i += 2) {
        if ($2 == "Rattle") first[i] = $i
        near($(i + 1), first[i] / $i, slack($(i + 1)))
    }
    checking[$2] = $3
    answering[$2] = $7
}
table == "Rattle, ns" { near($5, $3 / $4, slack($5)) }
table == "lines checked" && $2 in checking {
    rate($3, 1000 / checking[$2], checking[$2])
    rate($5, 1000 / answering[$2], answering[$2])
    for (i = 3; i <= 6; i++) if ($2 == "Rattle") of[i] = $i
    bytes($4, $3, of[4], of[3])
    bytes($6, $5, of[6], of[5])
}
END {
    # Seven of each implementation, of which an earlier state is one more, and those of the steps.
    due = 7 * ("Rattle before" in checking ? 9 : 8) + 4
    if (held != due) print held + 0 " figures held against others, and not " due
}
