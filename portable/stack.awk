# The most stack of a call, from the call graph that gcc writes (-fcallgraph-info=su): each function's own bytes and the deepest of what it
# calls. memcpy, memset and the compiler's arithmetic count nothing. No function calls itself: the translator refuses it. The status is 1 where
# a call goes to what is not known, or where there is no function.
function deepest(name, callee, most, below, parts, count, i) {
    if (name in known) return known[name]
    most = 0
    count = split(called[name], parts, "\t")
    for (i = 1; i <= count; i++) {
        below = parts[i] in own ? deepest(parts[i]) : 0
        if (below > most) most = below
    }
    known[name] = own[name] + most
    return known[name]
}

/^node: / && match($0, /[0-9]+ bytes \([a-z,]+\)/) {
    split($0, quoted, "\"")
    own[quoted[2]] = substr($0, RSTART, RLENGTH) + 0
}

/__indirect_call/ { unknown = 1 }

/^edge: / {
    split($0, quoted, "\"")
    called[quoted[2]] = called[quoted[2]] (called[quoted[2]] == "" ? "" : "\t") quoted[4]
}

END {
    for (name in own) if (deepest(name) > most) { most = deepest(name); which = name }
    printf "%d (%s)\n", most, which
    exit unknown || most == 0
}
