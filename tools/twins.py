#!/usr/bin/env python3
"""Functions of the crates whose bodies, of six lines or more, are the same but for names and numbers: each group on a line.

usage: tools/twins.py
"""

import collections
import re
from pathlib import Path

TOP = Path(__file__).resolve().parent.parent
WORDS = set("if else match for in while return let mut as true false u8 u16 u32 u64 usize bool".split())


def shape(body):
    """The body with its names numbered in the order in which they come, and N for each number."""
    names = {}

    def word(found):
        w = found.group(0)
        return w if w in WORDS or w == "N" else names.setdefault(w, f"v{len(names)}")

    numbers = re.sub(r"\b0x[0-9a-f_]+\b|\b\d[\d_]*\b", "N", body)
    return re.sub(r"\s+", " ", re.sub(r"\b[A-Za-z_]\w*\b", word, numbers))


def functions(path):
    """The name and the body of each function of a file."""
    text = re.sub(r"//[^\n]*", "", path.read_text(encoding="utf-8"))
    for found in re.finditer(r"\bfn (\w+)", text):
        start = text.find("\n{", found.end())
        end = text.find("\n}", start)
        if 0 <= start < end and "\nfn " not in text[found.end() : start] and "\npub fn" not in text[found.end() : start]:
            yield found.group(1), text[start:end]


def main():
    groups = collections.defaultdict(list)
    for path in sorted(TOP.glob("crates/*/src/**/*.rt")):
        for name, body in functions(path):
            if body.count("\n") >= 5:
                groups[shape(body)].append(f"{path.relative_to(TOP / 'crates')} {name}")
    alike = [group for group in groups.values() if len(group) > 1]
    for group in alike:
        print(", ".join(group))
    print(f"{sum(map(len, alike))} functions in {len(alike)} groups")


main()
