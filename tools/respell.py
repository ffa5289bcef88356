"""Brings the names of this repository's definitions, fields and lemmas to the spelling of today's Rattle: words in snake case, ' for the prime.

    python3 tools/respell.py [--list]

It was run once, right after the kit's port.py, over crates/, docs/ and README.md; --list prints each old and new name and writes nothing.
A name is one that specs/ or proofs/ declare, and each part between dashes is respelled by itself: a dash still joins the names that a lemma
is about, as in Rattle's own `length-drop`; a field of specs/ has none. Types, modules, and names that Rattle generates from src/ stay.
"""

import glob
import os
import re
import sys

LETTER = r"[\w'′₀-₉·-]"
# words of Rattle's library that port.py respelled alone, but not inside of a name
PARTS = {"getD": "get_or"}
# definitions whose name would be that of a parameter beside which a clause reads them
APART = {"rimEdges": "rim_edges_of", "rimLength": "rim_length_of", "rimVertices": "rim_vertices_of"}
# lemmas that port.py gave the name that a definition gets here: they get their dash back, in these files
DASHED = {
    "cells_at": ("promises/proofs/SheetTrue", "promises/proofs/Sheets"),
    "count_word": ("rules/proofs/TrueBook", "rules/proofs/TrueDrop"),
    "given_back": ("settle/proofs/Lowering", "settle/proofs/give_back/Proof", "making/proofs/Reached", "making/proofs/ask_for/Proof"),
    "key_right": ("rules/proofs/RightMake", "rules/proofs/TrueRight"),
    "lies_in": ("promises/proofs/BoxOver", "promises/proofs/Boxes"),
    "frame_right": ("promises/proofs/Kept", "rules/proofs/TrueRight"),
    "rows_right": ("promises/proofs/Kept", "rules/proofs/TrueRight"),
}
HEAD = re.compile(r"^(?:(?:unfoldable|abbrev|pub|record|data) )*([^\s(){}.;:,?]+)\s*(?:\{ℓ\} )?:(?!:)")
INNER = re.compile(r"^\s+(?:(?:unfoldable|abbrev) )?pub ([^\s(){}.;:,?]+)\s*(?:\{ℓ\} )?:(?!:)")
FIELD = re.compile(r"^\s+(?:pub )?([^\s(){}.;:,?]+)\s*:(?!:)")


def part(word):
    word = PARTS.get(word, word)
    word = word.replace("′", "'")
    if not re.match(r"[a-z]", word) or not re.search(r"[A-Z]", word):
        return word
    return re.sub(r"(?<=[a-z0-9])([A-Z])", r"_\1", word).lower()


def respelled(name, field):
    if name in APART or re.match(r"[A-Z]", name):
        return APART.get(name, name)
    new = "-".join(part(word) for word in name.split("-"))
    return new.replace("-", "_") if field else new


def declared():
    names = {}
    for path in sorted(glob.glob("crates/*/specs/**/*.antt", recursive=True) + glob.glob("crates/*/proofs/**/*.antt", recursive=True)):
        if "/proofs/" in path and os.path.basename(path) in ("Answers.antt", "Invariants.antt"):
            continue
        specs = "/specs/" in path
        in_record = in_data = False
        for line in open(path):
            found = HEAD.match(line)
            if line[:1] not in (" ", "\n", "-"):
                in_record = bool(re.match(r"(?:pub )?record ", line))
                in_data = bool(re.match(r"(?:pub )?data ", line))
            field = FIELD.match(line) if in_record else None
            found = field or found or (FIELD.match(line) if in_data else None)
            if not found:
                found = INNER.match(line)
            if found:
                name = found.group(1)
                new = respelled(name, field and specs)
                if new != name:
                    names[name] = new
    return names


def token(names):
    return re.compile(r"(?<!%s)(?:%s)(?!%s)" % (LETTER, "|".join(re.escape(n) for n in sorted(names, key=len, reverse=True)), LETTER))


def main():
    names = declared()
    texts = {}
    for pattern in ("crates/*/src/**/*.rt", "crates/*/specs/**/*.antt", "crates/*/proofs/**/*.antt", "crates/*/m*-*/*.edit", "docs/*.md", "README.md", "crates.txt"):
        for path in sorted(glob.glob(pattern, recursive=True)):
            texts[path] = open(path).read()
    words = set()
    for text in texts.values():
        words.update(re.findall(LETTER + "+", text))
    if len(set(names.values())) < len(names):
        sys.exit("two names fall together")
    if "--list" in sys.argv:
        for old in sorted(names):
            print("%s → %s%s" % (old, names[old], "   (stands already)" if names[old] in words else ""))
        return
    changed = 0
    if not names:
        sys.exit("nothing to respell")
    for path, text in texts.items():
        new = text
        for name, files in DASHED.items():
            if name in names.values() and path in ["crates/%s.antt" % f for f in files]:
                new = token([name]).sub(name.replace("_", "-"), new)
        new = token(names).sub(lambda m: names[m.group(0)], new)
        if new != text:
            open(path, "w").write(new)
            changed += 1
    print("%d names, %d files" % (len(names), changed))


main()
