# Three tables, of how many thousand instructions more each C does for each of the three questions, of its figures without them, and of its
# figures with them: says in a line each figure that did not rise as it should. Here `cost` is what a thousand cost, where it is known, and
# else what they cost in the middle; `by` is how far off a rise may be, in parts of it, and `still` how far off where there is none to be, in
# thousands. A question has `wide` columns.
BEGIN { FS = " *[|] *" }
FNR == 1 { file++ }
{
    for (i = 0; i < 3; i++) at[file, $2, i] = $(3 + i * (file == 1 ? 1 : wide))
    if (file == 3) name[++rows] = $2
}

# What a thousand cost where the figure rises by some.
function paid(row, i) { return (at[3, name[row], i] - at[2, name[row], i]) / at[1, name[row], i] }

END {
    for (row = 1; row <= rows; row++) for (i = 0; i < 3; i++) if (at[1, name[row], i] > 0) {
        # Each goes to its place among those that are there.
        for (j = ++slowed; j > 1 && costs[j - 1] > paid(row, i); j--) costs[j] = costs[j - 1]
        costs[j] = paid(row, i)
    }
    if (cost == "") cost = costs[int((slowed + 1) / 2)]
    # Nothing does a thousand instructions in ten nanoseconds.
    if (cost < 10) print "a thousand cost " cost
    for (row = 1; row <= rows; row++) for (i = 0; i < 3; i++) {
        more = at[1, name[row], i]
        off = at[3, name[row], i] - at[2, name[row], i] - more * cost
        slack = (more > 0 ? more * by : still) * cost
        if (off <= slack && -off <= slack) continue
        print name[row] ", question " i + 1 ": " at[2, name[row], i] " and then " at[3, name[row], i] ", a thousand cost " cost
    }
    if (rows != 8 || slowed != 10) print rows + 0 " rows, " slowed + 0 " figures that rise"
}
