#!/usr/bin/env python3
"""Brings the repository's own names of specs/ and proofs/ to today's spelling: words in snake case, a dash only between two names.

usage: respell.py names ROOT     lists the names that change, old, a tab, new
       respell.py turn ROOT      rewrites crates/ of ROOT by that list: every .antt file, and of .rt files and edits whole words alone
       respell.py rest ROOT      then the words that are left with a capital inside: fields whose type begins on the next line, names that an
                                 import gives, bound variables; it prints them as `names` does
       respell.py both ROOT      turn, then rest

It runs once, on what the toolchain's own script left. A name is one that a file of specs/ or proofs/ declares: a definition, a lemma, a constructor, a field.
The files Proof.antt of single functions declare goals, whose names the prover makes: what they declare is left, what they cite turns.
- A capital inside a word becomes a low line and a small letter: `checkOf` becomes `check_of`. A part that begins with a capital is a type's or a fact's name and stays.
- A dash stays between two names (a definition of specs/, a function of src/, a word of the library), as in `account_after-append`; before or behind
  a plain word it becomes a low line, as in `above_is_refused`.
- Where the new name is a word that the repository has already, other than a function's of src/ that is only called, the dash stays, and where there is
  none the name gets `_lem` behind it.
"""

import os
import re
import sys

DECLARED = re.compile(r"^[ ]*(?:(?:abbrev|unfoldable|pub)[ ]+)*(?!let )([^\s(){}.;,@\"«»:=\\λ]+(?:[ ]+[^\s(){}.;,@\"«»:=→\\λ]+)*)[ ]*:[ ]", re.M)
WORD = re.compile(r"[^\s(){}.;,@\"«»]+")
PLAIN = re.compile(r"[A-Za-z_][\w'-]*")
FUNCTION = re.compile(r"\bfn[ ]+(\w+)")
OTHER = re.compile(r"(?<!\w)(\w+)(?!\w)")
# a word of Rust's text that is defined as a function, called, or part of a list or path of imports
CALLED = re.compile(r"^(?:.*fn )\w+|\w+\($|::\w+[;,]$|[{,]\s+\w+[,}]$|\{\w+[,}]$", re.S)
# words of the library that stand in names of lemmas
LIBRARY = set("length append take drop map reverse replicate get_or set eqb ltb leb cond not sum concat div mod add mul".split())
# what antt or the prover gives a meaning
KEPT = set("tt refl sym ap subst cong returns statement not-false".split())


def files(root, endings):
    for folder, dirs, names in os.walk(os.path.join(root, "crates")):
        dirs[:] = sorted(d for d in dirs if d != "out")
        for name in sorted(names):
            if name.endswith(endings):
                yield os.path.join(folder, name)


def text_of(path):
    with open(path, encoding="utf-8") as f:
        return f.read()


def bare(text):
    """The text without comments."""
    return re.sub(r"(?m)(?:^|(?<=\s))--[^\n]*", "", text)


def snake(part):
    if not part[:1].islower():
        return part
    return re.sub(r"(?<=[a-z0-9])([A-Z])", lambda m: "_" + m[1].lower(), part)


def table(root):
    declared, definitions, words = {}, set(), set()
    functions = set()
    sources = [re.sub(r"//[^\n]*", "", text_of(path)) for path in files(root, (".rt",))]
    for text in sources:
        functions.update(FUNCTION.findall(text))
    for text in sources:
        words.update(m[1] for m in OTHER.finditer(text) if m[1] not in functions or not CALLED.search(text[max(0, m.start() - 4) : m.end() + 1]))
    for path in files(root, (".antt",)):
        text = bare(text_of(path))
        # a part of a path is a module's or a field's name
        words.update(m[0] for m in WORD.finditer(text) if text[m.start() - 1 : m.start()] != ".")
        if os.path.basename(path) == "Proof.antt":
            continue
        for name in " ".join(DECLARED.findall(text)).split():
            if PLAIN.fullmatch(name) and name not in KEPT:
                declared[name] = path
                if "/specs/" in path:
                    definitions.add(name)
    names = {snake(d) for d in definitions} | functions | LIBRARY
    rows, taken = {}, set(words)
    for old in sorted(declared, key=lambda d: (d not in definitions, d)):
        parts = [snake(p) for p in old.replace("′", "'").split("-")]
        new = parts[0]
        for before, after in zip(parts, parts[1:]):
            both = before in names and after in names
            new += ("-" if both or before[:1].isupper() and after in names else "_") + after
        if new == old:
            continue
        if new in taken:
            new = "-".join(parts)
        if new == old:
            continue
        if new in taken:
            new += "_lem"
        assert new not in taken, (old, new)
        taken.add(new)
        rows[old] = new
    return rows


def turned(text, rows):
    return WORD.sub(lambda m: rows.get(m[0], m[0]), text)


def turned_line(text, rows):
    """For Rust's text, edits and comments: whole words alone, whatever stands beside them."""
    return re.sub(r"(?<![\w'-])[A-Za-z_][\w'-]*", lambda m: rows.get(m[0], m[0]), text)


def turn(root):
    rows = table(root)
    # in Rust's text a dash is a sign of prose or a subtraction: only names without one turn there, and names that stand between grave accents
    low = {old: new for old, new in rows.items() if "-" not in old}
    for path in files(root, (".antt", ".rt", ".edit")):
        text = text_of(path)
        if path.endswith(".antt"):
            out = []
            for line in text.split("\n"):
                code, mark, comment = line, "", ""
                m = re.search(r"(?:^|(?<=\s))--.*$", line)
                if m:
                    code, comment = line[: m.start()], m[0]
                    comment = re.sub(r"`[^`]*`", lambda s: turned_line(s[0], rows), turned_line(comment, low))
                out.append(turned(code, rows) + mark + comment)
            new = "\n".join(out)
        else:
            new = turned_line(text, low)
        if new != text:
            with open(path, "w", encoding="utf-8") as f:
                f.write(new)


def rest_table(root):
    """The words of .antt files with a capital inside a part that begins small. None of what they become is a word of the repository's."""
    words, rows = set(), {}
    for path in files(root, (".antt", ".rt")):
        words.update(WORD.findall(text_of(path)))
    for path in files(root, (".antt",)):
        text = re.sub(r'"[^"\n]*"', "", bare(text_of(path)))
        for old in WORD.findall(text):
            if not PLAIN.fullmatch(old) or old in rows:
                continue
            # the bytes PB2 and PB3 of a frame are one part of a name
            new = "-".join(snake(re.sub(r"(?<=_)pB(?=[23])", "pb", part)) for part in old.split("-"))
            if new == old:
                continue
            if new in words:
                new += "_lem"
            assert new not in words, (old, new)
            rows[old] = new
    return rows


def rest(root):
    rows = rest_table(root)
    for path in files(root, (".antt", ".rt", ".edit")):
        text = text_of(path)
        new = turned_line(text, rows)
        if new != text:
            with open(path, "w", encoding="utf-8") as f:
                f.write(new)
    for old, new in rows.items():
        print(old + "\t" + new)


def main(argv):
    if len(argv) == 2 and argv[0] == "names":
        for old, new in table(argv[1]).items():
            print(old + "\t" + new)
        return 0
    if len(argv) == 2 and argv[0] in ("turn", "rest", "both"):
        if argv[0] != "rest":
            turn(argv[1])
        if argv[0] != "turn":
            rest(argv[1])
        return 0
    print(__doc__, file=sys.stderr)
    return 2


if __name__ == "__main__":
    raise SystemExit(main(sys.argv[1:]))
