# Whether the places of a layout keep clear of each other: no text under a line or another text, no line through a box. A place is a
# rectangle `X Y W H`.

# Gives up where a label that is drawn touches a box, another label or the line of an arrow, or where a line runs through a box.
function check_places(i, k, label) {
    for (i = 1; i <= pairs; i++) {
        for (k = 1; k <= states; k++) check_line(pair_at[i], data["box", state_at[k]], "the box of " state_at[k])
        if (("joins" SUBSEP pair_at[i]) in data) continue
        label = data["label" SUBSEP pair_at[i]]
        for (k = 1; k <= states; k++)
            if (touch(label, data["box", state_at[k]]))
                refuse("the label of the arrow " named(pair_at[i]) " lies on the box of " state_at[k])
        for (k = 1; k <= pairs; k++) {
            check_line(pair_at[k], label, "the label of the arrow " named(pair_at[i]))
            if (k != i && ("label" SUBSEP pair_at[k]) in data && touch(label, data["label" SUBSEP pair_at[k]]))
                refuse("the labels of the arrows " named(pair_at[i]) " and " named(pair_at[k]) " lie on each other")
        }
    }
}

# Gives up where the line of an arrow runs through a place; its ends may lie on the place's edge.
function check_line(pair, place, what, point, n, i, a, b) {
    n = split(data["arrow" SUBSEP pair], point, " ")
    for (i = 1; i < n; i++) {
        split(point[i], a, ",")
        split(point[i + 1], b, ",")
        if (a[1] != b[1] && a[2] != b[2]) refuse("the arrow " named(pair) " is not drawn straight up, down, left or right")
        if (touch(place, least(a[1], b[1]) " " least(a[2], b[2]) " " size_of(a[1], b[1]) " " size_of(a[2], b[2])))
            refuse("the arrow " named(pair) " runs through " what)
    }
}

# The lesser of two numbers.
function least(a, b) { return a + 0 < b + 0 ? a : b }

# How far apart two numbers are.
function size_of(a, b) { return a + 0 < b + 0 ? b - a : a - b }

# Whether two places have more than an edge in common.
function touch(one, other, a, b) {
    split(one, a, " ")
    split(other, b, " ")
    return a[1] < b[1] + b[3] && b[1] < a[1] + a[3] && a[2] < b[2] + b[4] && b[2] < a[2] + a[4]
}
