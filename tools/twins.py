#!/usr/bin/env python3
"""Lists the functions of crates/*/src that have one shape: the same lines, names and numbers aside, contracts not looked at.

twins.py      (at the project's root; docs/DESIGN-PASS.md counts with it)
"""
import collections
import pathlib
import re

KEEP = {"if", "else", "while", "for", "let", "mut", "match", "return", "pub", "fn", "as", "true", "false", "in", "Some",
        "None", "Ok", "Err"}
FUNCTION = re.compile(r"^( *)(pub )?fn (\w+)[^\n]*\n(.*?)^\1\}", re.M | re.S)


def shape(lines):
    seen = {}

    def sub(m):
        w = m.group(0)
        return w if w in KEEP else f"${seen.setdefault(w, len(seen))}"
    return tuple(re.sub(r"[A-Za-z_]\w*|\d+", sub, x) for x in lines)


groups = collections.defaultdict(list)
for path in sorted(pathlib.Path("crates").glob("*/src/**/*.rt")):
    for m in FUNCTION.finditer(path.read_text()):
        body = m.group(4)
        start = body.find(m.group(1) + "{\n")
        lines = [re.sub(r"//.*", "", x).strip() for x in body[start + 1:].splitlines()]
        lines = [x for x in lines if x and not x.startswith(("ensures", "requires"))]
        if len(lines) >= 4:
            groups[shape(lines)].append(f"{path.parts[1]}::{m.group(3)}")
twins = sorted((g for g in groups.values() if len(g) > 1), key=len, reverse=True)
print(f"{sum(map(len, twins))} functions in {len(twins)} groups")
for g in twins:
    print(len(g), ", ".join(g))
