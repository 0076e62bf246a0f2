# Every vector once for each word of its result, with that word's last digit changed: c/replay.c has to find each of them wrong. What a
# refused trace would have reported is left out: it is no answer, and zeros in the vectors.
$1 == "list" { next }

{
    for (at = 1; at < NF && $at != "="; at++) {}
    first = at + 1
    for (word = first; word <= NF; word++) {
        if ($1 == "trace" && $first != "0" && word > first && word < NF) continue
        spoiled = ""
        for (i = 1; i <= NF; i++) spoiled = spoiled (i == 1 ? "" : " ") (i == word ? other($i) : $i)
        print spoiled
    }
}

function other(text) {
    if (text == "-") return "00"
    return substr(text, 1, length(text) - 1) (text ~ /0$/ ? "1" : "0")
}
