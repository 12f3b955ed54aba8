#!/usr/bin/env python3
"""Brings the names in the documents to the spelling that tools/respell.py gave the definitions and lemmas. Run once, at the top.

usage: tools/respell_documents.py

A word in camel case, or one with dashes behind `File.`, is turned if it is not declared in specs/ or proofs/ and its form in snake case is.
"""
import glob
import re

names = set()
for path in glob.glob("crates/*/specs/*.antt") + glob.glob("crates/*/proofs/*.antt"):
    with open(path, encoding="utf-8") as it:
        names |= set(re.findall(r"(?m)^ *(?:(?:abbrev|unfoldable|pub|record|data) )*([^\s(){}.;:,]+) :(?= |$)", it.read()))


def snake(n):
    n = re.sub(r"(?<=[a-z0-9])(?=[A-Z])", "_", n)
    return "_".join(p if re.match(r"[A-Z]", p) else p.lower() for p in n.split("-"))


def turned(n):
    if n in names:
        return n
    s = snake(n)
    return s + "_lem" if "-" in n and s + "_lem" in names else s if s in names else n


for page in ["README.md", "rust/README.md", "include/heolstorpit.h"] + sorted(p for p in glob.glob("docs/*.md") if not p.endswith("PORT.md")):
    with open(page, encoding="utf-8") as it:
        text = it.read()
    new = re.sub(r"(?<=[A-Za-z]\.)[a-z][\w]*(?:-[\w]+)+(?![\w-])", lambda m: turned(m[0]), text)
    new = re.sub(r"(?<![\w./-])[a-z]+[0-9]*[A-Z]\w*(?![\w-])", lambda m: turned(m[0]), new)
    new = re.sub(r"(?<=[A-Za-z]\.)[a-z]+[0-9]*[A-Z]\w*(?![\w-])", lambda m: turned(m[0]), new)
    if new != text:
        with open(page, "w", encoding="utf-8") as it:
            it.write(new)
        print(page)
