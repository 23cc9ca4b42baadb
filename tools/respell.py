#!/usr/bin/env python3
"""Respells the repository's own definitions, fields and lemmas: snake case, as the library has its own.

usage: tools/respell.py            at the top of the repository, once, after the port's scripts

A definition or a field in camel case, and a lemma whose words a dash joins, get underscores. Where a lemma would get the name of a
definition, it ends in `-holds`. Types and modules are in camel case and stay, and so do the functions of src/, strings, and the names
that a proof takes from what the check generates. Must-fail edits and the pages follow the definitions.
"""
import collections
import glob
import re

TOKEN = re.compile(r"[A-Za-zΑ-ωℓ_][\w\-'₀-₉]*")
HEAD = re.compile(r"^(?:(?:abbrev|unfoldable) )?(?:pub )?([^\s:(){}]+) :(?: |$)(.*)")
INNER = re.compile(r"^\s+(?:(?:abbrev|unfoldable) )?(?:pub )?([^\s:(){}]+) :(?: |$)")
RECORD = re.compile(r"^(?:abbrev |unfoldable )?(?:pub )?(?:record|data) ")


def respelled(name):
    name = re.sub(r"([a-z0-9])([A-Z])", r"\1_\2", name.replace("-", "_"))
    return re.sub(r"([A-Z])([A-Z][a-z])", r"\1_\2", name).lower()


def is_camel(name):
    return re.search(r"[a-z0-9][A-Z]", name) and not name[0].isupper()


def collect():
    defs, made = set(), collections.defaultdict(set)
    for path in ANTT:
        record = False
        for line in open(path, encoding="utf-8"):
            if RECORD.match(line):
                record = True
                continue
            if not line.startswith(" "):
                record = False
            m = HEAD.match(line)
            if m:
                (made[path] if "tie." in m.group(2) else defs).add(m.group(1))
                continue
            m = INNER.match(line)
            if m:
                defs.add(m.group(1))
    return defs, made


ANTT = sorted(glob.glob("crates/*/specs/**/*.antt", recursive=True) + glob.glob("crates/*/proofs/**/*.antt", recursive=True))
DEFS, MADE = collect()
CAMEL = {d: respelled(d) for d in DEFS if is_camel(d) and "-" not in d}
TAKEN = set(CAMEL.values())
DASHED = {}
for d in DEFS:
    if "-" in d and not d.endswith("-spec"):
        n = respelled(d)
        DASHED[d] = n + "-holds" if n in TAKEN or n in DEFS else n
for d in DEFS:
    if d in TAKEN and d != "either_order":
        DASHED[d] = d + "-holds"


def code(text, skip):
    def one(m):
        t, after = m.group(0), text[max(0, m.start() - 1) : m.start()] == "."
        if t in CAMEL:
            return CAMEL[t]
        if t in DASHED and t not in skip and (not after or "_" not in t and DASHED[t] in FIELDS):
            return DASHED[t]
        if t.endswith("-spec") and not after:
            return t.replace("-", "_")
        return t

    return TOKEN.sub(one, text)


def prose(text):
    text = TOKEN.sub(lambda m: CAMEL.get(m.group(0), m.group(0)), text)
    return re.sub(r"`[^`]*`", lambda m: code(m.group(0), ()), text)


FIELDS = {"as_often", "p10_onu", "p11_onu", "p12_count", "p12_data", "p12_first", "p12_last", "p8_onu", "p9_onu"}


def turn(path, turned):
    before = open(path, encoding="utf-8").read()
    after = "\n".join(turned(line) for line in before.split("\n"))
    if after != before:
        open(path, "w", encoding="utf-8").write(after)


def antt(skip):
    def line(text):
        i = text.find("--")
        while i > 0 and text[i - 1] not in " \t":
            i = text.find("--", i + 2)
        return code(text, skip) if i < 0 else code(text[:i], skip) + prose(text[i:])

    return line


def main():
    for path in ANTT:
        turn(path, antt(MADE[path]))
    for path in glob.glob("crates/*/src/**/*.rt", recursive=True) + glob.glob("crates/*/must-fail/*.edit") + ["README.md"] + glob.glob("docs/**/*.md", recursive=True):
        turn(path, prose)


main()
