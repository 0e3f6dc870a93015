#!/usr/bin/env python3
"""Respells this repository's own definitions and lemmas as today's Rattle spells them: words in snake case, the words that a
dash joins each by itself, and the constructors of a `data` type too. Run once at the top, after Rattle's own port.py.

Types, modules, what src/ declares and what stands in quotes keep their names."""
import os
import re
import sys

# definitions that are no types and yet had capitals: the clauses of the order, the rows of the picture, the nine events
CLAUSES = [f"O{k}" for k in range(1, 8)]
ROWS = ["HD", "EN", "BP", "LG", "ED"]
EVENTS = ["Linking", "Creating", "Unlinking", "Advancing", "Delivering", "Cutting", "Crashing", "Recovering", "Opening"]
CAPITALS = {w: w.lower() for w in CLAUSES + ROWS + EVENTS} | {"getD": "get_or"}

# names that would fall together with one that is respelled: in which files, the old word, the new one
FALLING = [
    ("order/proofs/", "place_at", "at_place"),
    ("loading/proofs/", "load_read", "loads_read"),
    ("rehearsal/specs/Rehearsal.antt", "opening", "opening_response"),
    ("sessions/proofs/", "opening", "opening_response"),
    *(("proofs/", f"o{k}", f"o{k}-holds") for k in range(1, 8)),
]

CAMEL = re.compile(r"[a-z][a-z0-9]*(?:[A-Z][a-z0-9]*)+")
# a name, up to what ends it in antt
NAME = re.compile(r"[^\s(){}\[\];,.λ«»⌜⌝\"`:/\\|]+")
QUOTED = re.compile(r'("(?:[^"\\\n]|\\.)*")')
COMMENT = re.compile(r"(?m)((?:^|(?<=\s))(?:--|//)(?: .*|$))")
DECLARED = re.compile(r"(?m)^\s*(?:(?:abbrev|unfoldable|pub|record|data|ruleset) )*([^\s(){}\[\];,.]+(?: [^\s(){}\[\];,.]+)*) [:=](?= |$)")


def snake(word):
    return re.sub(r"[A-Z]", lambda m: "_" + m.group(0).lower(), word) if CAMEL.fullmatch(word) else word


def component(word, capitals):
    bare = word.rstrip("'₀₁₂₃₄₅₆₇₈₉")
    return capitals.get(bare, snake(bare)) + word[len(bare) :]


def name(word, words, capitals):
    return words.get(word) or "-".join(component(c, capitals) for c in word.split("-"))


def turned(text, words, capitals, only):
    def turn(m):
        word = m.group(0)
        # a module's name stays: one that is declared, or that a path goes through
        is_module = text[: m.start()].endswith("mod ") or text[m.end() : m.end() + 1] == "."
        if only is not None and word not in only or is_module and word in EVENTS:
            return word
        return name(word, words, capitals)

    return NAME.sub(turn, text)


def respelled(text, words, capitals, only):
    parts = QUOTED.split(text)
    for i in range(0, len(parts), 2):
        pieces = COMMENT.split(parts[i])
        for j, piece in enumerate(pieces):
            # a comment has the document's own O5 and HD
            pieces[j] = turned(piece, words, {} if j % 2 else capitals, only)
        parts[i] = "".join(pieces)
    return "".join(parts)


def files(root, *endings):
    for folder, dirs, names in os.walk(root):
        dirs[:] = sorted(d for d in dirs if d not in ("out", "target", ".git"))
        yield from (os.path.join(folder, n) for n in sorted(names) if n.endswith(endings))


def main():
    declared = set()
    for p in files("crates", ".antt"):
        with open(p, encoding="utf-8") as f:
            for m in DECLARED.finditer(f.read()):
                declared.update(m.group(1).split())
    pages = [p for p in files(".", ".md")]
    for p in [*files("crates", ".antt", ".rt", ".edit"), *pages]:
        with open(p, encoding="utf-8") as f:
            old = f.read()
        falling = {o: n for where, o, n in FALLING if where in p}
        new = respelled(old, {}, {}, declared) if p in pages else respelled(old, falling, CAPITALS, None)
        if new != old:
            with open(p, "w", encoding="utf-8") as f:
                f.write(new)


if __name__ == "__main__":
    sys.exit(main())
