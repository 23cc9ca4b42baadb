#!/usr/bin/env python3
"""The table of docs/GATE.md: of each crate the lines of its code, definitions and proofs, and its must-fail edits.

usage: tools/gate.py           prints the table
       tools/gate.py write     puts it into docs/GATE.md, in the place of the first one there
"""

import re
import sys
from pathlib import Path

TOP = Path(__file__).resolve().parent.parent
HEAD = "| Crate | code | specs | proofs | edits |\n|---|---:|---:|---:|---:|\n"


def crates():
    """The crates, in the order of crates.txt."""
    listed = (TOP / "crates.txt").read_text(encoding="utf-8")
    return re.findall(r"^(\w+)(?: staticlib)?:", listed, re.M)


def lines(crate, part):
    """The lines of a crate's code, specs or proofs."""
    files = [f for f in (TOP / "crates" / crate / part).rglob("*") if f.suffix in (".rt", ".antt")]
    return sum(len(f.read_text(encoding="utf-8").splitlines()) for f in files)


def row(name, numbers):
    return f"| {name} | " + " | ".join(f"{n:,}" if n else "" for n in numbers) + " |\n"


def table():
    rows = []
    for crate in crates():
        edits = len(list((TOP / "crates" / crate / "must-fail").glob("*.edit")))
        rows.append((crate, [lines(crate, part) for part in ("src", "specs", "proofs")] + [edits]))
    total = [sum(column) for column in zip(*(numbers for _, numbers in rows))]
    return HEAD + "".join(row(*it) for it in rows) + row("all", total)


if __name__ == "__main__":
    if sys.argv[1:] == ["write"]:
        page = TOP / "docs" / "GATE.md"
        text = page.read_text(encoding="utf-8")
        page.write_text(re.sub(re.escape(HEAD) + r"(\|.*\n)*", lambda _: table(), text, count=1), encoding="utf-8")
    else:
        print(table(), end="")
