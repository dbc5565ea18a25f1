# Draws the crates of crates.txt in their layers, the program first: each crate with those that it stands on
# directly, that is, with those through which it reaches all others.
#
# usage: awk -f docs/layers.awk crates.txt

/^#/ || !/:/ { next }

{
    split($0, halves, ":")
    split(halves[1], left)
    crates[++count] = left[1]
    uses[left[1]] = halves[2]
}

# The layer of a crate: one above the highest of those that it uses.
function layer_of(crate,    names, total, i, highest, below) {
    if (crate in layer) return layer[crate]
    highest = 0
    total = split(uses[crate], names)
    for (i = 1; i <= total; i++)
        if (names[i] in uses) {
            below = layer_of(names[i])
            if (below > highest) highest = below
        }
    return layer[crate] = highest + 1
}

# Whether the crate uses the other one, itself or through others.
function reaches(crate, other,    names, total, i) {
    if ((crate, other) in known) return known[crate, other]
    known[crate, other] = 0
    total = split(uses[crate], names)
    for (i = 1; i <= total; i++)
        if (names[i] == other || (names[i] in uses) && reaches(names[i], other)) known[crate, other] = 1
    return known[crate, other]
}

# The crates that it uses, without those that one of the others reaches.
function direct(crate,    names, total, i, j, is_reached, text) {
    text = ""
    total = split(uses[crate], names)
    for (i = 1; i <= total; i++) {
        if (!(names[i] in uses)) continue
        is_reached = 0
        for (j = 1; j <= total; j++)
            if ((names[j] in uses) && reaches(names[j], names[i])) is_reached = 1
        if (!is_reached) text = text " " names[i]
    }
    return text
}

END {
    for (i = 1; i <= count; i++)
        if (layer_of(crates[i]) > top) top = layer_of(crates[i])
    for (level = top; level >= 1; level--) {
        shown = sprintf("%2d ", level)
        for (i = 1; i <= count; i++)
            if (layer[crates[i]] == level) {
                below = direct(crates[i])
                printf "%s %-17s%s\n", shown, crates[i], (below == "" ? "" : " on" below)
                shown = "   "
            }
    }
}
