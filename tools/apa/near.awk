# Which word of a list was meant. causes.awk calls near; by itself it writes the one of `words` that is near `given`.
#
#     LC_ALL=C awk -v given=WORD -v words='WORD ..' -f near.awk

BEGIN {
    if (given != "") {
        print near(given, words)
        exit
    }
}

# The word of a list that differs from this one the least, if that is by little.
function near(given, list,    words, count, at, best, least, far) {
    count = split(list, words, " ")
    least = 3
    for (at = 1; at <= count; at++) {
        far = distance(given, words[at])
        if (far < least && far < length(given)) { least = far; best = words[at] }
    }
    return best
}

# How many bytes have to be put in, taken out, changed or swapped with the next one.
function distance(a, b,    i, j, cost, d) {
    for (i = 0; i <= length(a); i++) d[i, 0] = i
    for (j = 0; j <= length(b); j++) d[0, j] = j
    for (i = 1; i <= length(a); i++) for (j = 1; j <= length(b); j++) {
        cost = substr(a, i, 1) != substr(b, j, 1)
        d[i, j] = least_of(d[i - 1, j] + 1, d[i, j - 1] + 1, d[i - 1, j - 1] + cost)
        if (i > 1 && j > 1 && substr(a, i, 1) == substr(b, j - 1, 1) && substr(a, i - 1, 1) == substr(b, j, 1))
            d[i, j] = least_of(d[i, j], d[i - 2, j - 2] + 1, d[i, j])
    }
    return d[length(a), length(b)]
}

function least_of(a, b, c) { return a < b ? (a < c ? a : c) : (b < c ? b : c) }
