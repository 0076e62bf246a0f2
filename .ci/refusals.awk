# Reads include/refusals.txt, then a file, and prints the file with what stands between its marks written from the list. A mark is a
# comment '.ci/refusals writes from here: PART', and one '.ci/refusals writes to here'. With -v lists=constants or -v lists=calls it
# prints what the list says of these instead. The status is 1 where the list or the marks are wrong.

# The most characters of a line, as rust/rustfmt.toml has it.
BEGIN { widest = 112; last = -1 }

function fault(what) {
    print FILENAME ":" FNR ": " what >"/dev/stderr"
    faulty = 1
}

# ---- the list

FNR == NR && /^(#.*)?$/ { next }

FNR == NR && /^[0-9]+ [A-Z_]+( [A-Z_]+)?$/ {
    number = ++last
    if ($1 != last) fault("the numbers do not rise by 1 from 0")
    if ((NF == 3) != (last > 0)) fault("every number but 0 has a constant")
    name[last] = $2
    constant[last] = $3
    next
}

FNR == NR && /^other$/ { number = "other"; next }

FNR == NR && /^    (part|ground|text|word): ./ {
    key = substr($1, 1, length($1) - 1)
    if ((number, key) in said) fault(key " is there already")
    value = substr($0, length("    " key ": ") + 1)
    if (value !~ /^[ -~]+$/ || value ~ /["\\]/ || value ~ /[ .]$/) fault("no plain ASCII, or a full stop")
    said[number, key] = value
    next
}

FNR == NR && /^call [a-z0-9-]+ ttpa_[a-z0-9_]+( [0-9]+)+$/ {
    kind[++calls] = $2
    called[calls] = $3
    for (i = 4; i <= NF; i++) {
        checked[calls] = checked[calls] (i > 4 ? ", " : "") $i
        refuses[$i] = 1
    }
    next
}

FNR == NR { fault("neither a number, nor what is said of one, nor a call"); next }

# Every number has its text and word, and every ground is documented.
function hold(of) {
    if (!((of, "text") in said) || index(said[of, "text"], said[of, "word"]) == 0 || said[of, "word"] == "")
        fault("the list: " of " has no text with its word")
    if ((of != "other" && of > 0) != ((of, "ground") in said)) fault("the list: " of ", a ground or none")
}

FNR == 1 {
    for (of = 0; of <= last; of++) hold(of)
    hold("other")
    for (of = 1; of <= last; of++) if (!(of in refuses)) fault("the list: no call refuses by " of)
    for (of in refuses) if (of + 0 < 1 || of + 0 > last) fault("the list: a call refuses by " of ", which is no number here")
    if (last < 1 || calls < 1) fault("the list is empty")
}

# ---- what is written

function c_name(of) { return "TTPA_" (of > 0 ? "REFUSED_" : "") name[of] }

function variant(of, words, count, i, made) {
    if (of == "other") return "Other(_)"
    count = split(name[of], words, "_")
    for (i = 1; i <= count; i++) made = made substr(words[i], 1, 1) tolower(substr(words[i], 2))
    return made
}

function quoted(of, key) { return "\"" said[of, key] "\"" }

function write_enum(of) {
    for (of = 0; of <= last; of++) {
        if ((of, "part") in said) print "    /* " said[of, "part"] " */"
        print "    " c_name(of) " = " of (of < last ? "," : "")
    }
}

function write_cases(of) {
    for (of = 0; of <= last; of++) print "    case " c_name(of) ":\n        return " quoted(of, "text") ";"
    print "    default:\n        return " quoted("other", "text") ";"
}

function write_values(of) { for (of = 0; of <= last; of++) print "VALUE(" c_name(of) ", " of ");" }

function write_words(of) { for (of = 0; of <= last; of++) print "    {" c_name(of) ", " quoted(of, "word") "}," }

function write_variants(of) {
    for (of = 1; of <= last; of++) print "    /// " of ": " said[of, "ground"] ".\n    " variant(of) ","
}

function write_numbered(of) {
    print "const NUMBERED: [TtpaError; " last "] = ["
    for (of = 1; of <= last; of++) print "    TtpaError::" variant(of) ","
    print "];"
}

function write_arm(of, arm, whole) {
    arm = "            TtpaError::" variant(of) " => "
    whole = arm quoted(of, "text") ","
    print length(whole) <= widest ? whole : arm "{\n                " quoted(of, "text") "\n            }"
}

function write_arms(of) {
    for (of = 1; of <= last; of++) write_arm(of)
    write_arm("other")
}

function write_asserts(of) {
    for (of = 1; of <= last; of++) print "        assert_eq!(TtpaError::" variant(of) ".number(), " of ");"
    print "        assert_eq!(TtpaError::Other(" last + 1 ").number(), " last + 1 ");"
}

function write_grounds(of) {
    print "const GROUNDS: [(TtpaError, u8, &str); " last + 1 "] = ["
    for (of = 1; of <= last; of++) print "    (TtpaError::" variant(of) ", " of ", " quoted(of, "word") "),"
    print "    (TtpaError::Other(" last + 1 "), " last + 1 ", " quoted("other", "word") "),\n];"
}

function write_calls(i, made) {
    for (i = 1; i <= calls; i++) {
        made = toupper(kind[i])
        gsub(/-/, "_", made)
        print "const " made "_NUMBERS: &[u8] = &[" checked[i] "];"
    }
}

function write_part(part) {
    if (part == "enum") write_enum()
    else if (part == "cases") write_cases()
    else if (part == "values") write_values()
    else if (part == "words") write_words()
    else if (part == "variants") write_variants()
    else if (part == "numbered") write_numbered()
    else if (part == "arms") write_arms()
    else if (part == "asserts") write_asserts()
    else if (part == "grounds") write_grounds()
    else if (part == "calls") write_calls()
    else fault("no such part: " part)
}

# ---- the file

lists != "" { exit }
/\.ci\/refusals writes to here/ {
    if (!inside) fault("a mark that ends nothing")
    inside = 0
}
inside { next }
{ print }
/\.ci\/refusals writes from here: / {
    part = $0
    sub(/.* from here: /, "", part)
    sub(/ .*/, "", part)
    write_part(part)
    inside = 1
}

END {
    if (inside) fault("nothing ends the part " part)
    if (lists == "constants") for (of = 1; of <= last; of++) print constant[of], of
    if (lists == "calls") for (i = 1; i <= calls; i++) print called[i], checked[i]
    exit faulty
}
