#!/usr/bin/env python3
"""Brings the names of definitions, laws, fields and variables to snake case: `joinTo` becomes `join_to`, `sumTo-cong` becomes `sum_to-cong`.

usage: tools/respell.py [--check]     at the top of the repository

Types, modules and files keep their camel case, functions of src/ are in snake case already. --check writes nothing; both print
new names that stood in the tree before (two names that would fall together).
"""
import glob
import re
import sys

NAME = re.compile(r"(?<![\w'·.·-])[a-z][\w'-]*|(?<=\.)[a-z][\w'-]*|(?<=-)[a-z][\w'-]*")
HUMP = re.compile(r"(?<=[a-z0-9])([A-Z])(?=[a-z0-9_'-]|$|[A-Z])")
FILES = sorted(sum((glob.glob(p, recursive=True) for p in (
    "crates/*/specs/**/*.antt", "crates/*/proofs/**/*.antt", "crates/*/src/**/*.rt", "crates/*/must-fail/*.edit", "docs/*.md", "README.md")), []))
# getD is get_or of the library
WHOLE = {"getD": "get_or", "sumTo": "sum_to"}
# laws beside a definition that would get their name
LAWS = {"one_link": "one_link-told", "least_by": "least_by-told"}


def respelled(word):
    parts = []
    for part in word.split("-"):
        if part[:1].islower() and re.search(r"[a-z0-9][A-Z]", part):
            part = WHOLE.get(part) or HUMP.sub(lambda m: "_" + m.group(1).lower(), part)
        parts.append(part)
    return "-".join(parts)


def main():
    check = "--check" in sys.argv
    texts = {f: open(f, encoding="utf-8").read() for f in FILES}
    before = set()
    for t in texts.values():
        before.update(m.group(0) for m in NAME.finditer(t))
    turned = {w: respelled(w) for w in before if respelled(w) != w}
    for w, new in sorted(turned.items()):
        if new in before or sum(1 for x in turned.values() if x == new) > 1:
            print(f"look: {w} becomes {new}, which stands in the tree too")
    for f, t in texts.items():
        # the words of a C header, a file or a program that a page names stay: they have no hump after a small letter
        laws = LAWS if f.endswith(".antt") else {}
        new = NAME.sub(lambda m: laws.get(m.group(0)) or turned.get(m.group(0), m.group(0)), t)
        if new != t and not check:
            open(f, "w", encoding="utf-8").write(new)
    print(f"{len(turned)} names")
    if check:
        print(" ".join(f"{w}>{n}" for w, n in sorted(turned.items())))


main()
