#!/usr/bin/env python3
"""Brings this repository's own definitions and lemmas to the spelling of today's Rattle: words in snake case, types and modules in camel case.

usage: tools/respell.py [FOLDER]     FOLDER is the repository's top; it was run once, right after port.py

A name is turned if a file of specs/ or proofs/ declares it (a definition, a lemma, a field or a constructor) or a `use` line gives it by `as`, and it begins
with a small letter: `maxRows`, `over-two` -> `max_rows`, `over_two`. It is turned wherever it stands in the files of specs/ and proofs/, in the `ghost use`
lines and clauses of src/, and in the must-fail edits, but not in a file that has a library's name of the same spelling. Functions of src/, exported names and
strings stay. The names of goals and steps in proofs/F/ are Rattle's own, and stay for the converter.
It prints the names that fall together, and changes nothing then.
"""
import collections
import glob
import os
import re
import sys

os.chdir(sys.argv[1] if len(sys.argv) > 1 else ".")
W = r"[^\s(){}.;,@\"«»\[\]\\]+"
DECLARED = re.compile(r"(?m)^ *(?:(?:abbrev|unfoldable|pub) )*(" + W + r") :(?= |$)")
USE = re.compile(r"(?m)^(?:ghost )?use ([^\s{]+?)\.\{([^}]*)\}")
CRATES = {c for c in os.listdir("crates")}
# set by hand where two names would fall together, or a parameter would hide the word
BY_HAND = {"place_at": "place_at_lem", "code_below": "code_below_lem"}


def read(path):
    with open(path, encoding="utf-8", newline="") as it:
        return it.read()


def turned(name):
    if name in BY_HAND:
        return BY_HAND[name]
    if not re.match(r"[a-z]", name) or not re.fullmatch(r"[\w'′-]+", name):
        return name
    it = re.sub(r"(?<=[a-z0-9])(?=[A-Z])", "_", name)
    parts = re.split(r"-", it)
    # a word that begins a part with a capital is a type's, and stays: only what was camel case within a part falls
    return "_".join(p if re.match(r"[A-Z]", p) else p.lower() for p in parts).replace("′", "'")


def is_own(module):
    parts = module.split(".")
    return len(parts) > 1 and parts[0] == "Rattle" and parts[1] in CRATES


files = sorted(glob.glob("crates/*/specs/**/*.antt", recursive=True) + glob.glob("crates/*/proofs/**/*.antt", recursive=True))
sources = sorted(glob.glob("crates/*/src/**/*.rt", recursive=True))
edits = sorted(glob.glob("crates/*/must-fail/*.edit"))
declared = collections.defaultdict(set)
for path in files:
    text = re.sub(r"--[^\n]*", "", read(path))
    in_walk = bool(re.search(r"/(Proof|Answers|Invariants)\.antt$", path))
    for m in DECLARED.finditer(text):
        # what a walk declares is a goal or a helper of its own
        if in_walk and re.search(r"(?m)^" + re.escape(m[1]) + r" : .*(tie\.|Need-|Lts|At )", text):
            continue
        declared[m[1]].add(path)
for path in files + sources:
    for m in USE.finditer(read(path)):
        for one in re.split(r",\s*", m[2]):
            if " as " in one:
                declared[one.split(" as ")[1].strip()].add(path)
table = {n: turned(n) for n in declared if turned(n) != n}  # BY_HAND too
# a lemma that would have its function's name gets `_lem`
others = {v for k, v in table.items() if "-" not in k} | {n for n in declared if n not in table}
for n in table:
    if "-" in n and table[n] in others:
        table[n] += "_lem"


def foreign(text):
    out = set()
    for m in USE.finditer(text):
        if not is_own(m[1]):
            for one in re.split(r",\s*", m[2]):
                out.add(one.split(" as ")[0].strip())
    return out


TOKEN = re.compile(r"--[^\n]*|\"(?:[^\"\\]|\\.)*\"|«[^»]*»|" + W)
clashes = []


def turn(text, skip, where, comments=False):
    seen = collections.defaultdict(set)

    def one(m):
        t = m[0]
        if t.startswith("--"):
            # a name quoted in a comment
            return re.sub(r"`(" + W + r")`", lambda q: "`" + table.get(q[1], q[1]) + "`", t)
        if t.startswith('"') or t.startswith("«"):
            return t
        new = t if t in skip else table.get(t, t)
        # a field, a label of a record and a part of a path are no words of their own
        before, after = text[: m.start()], text[m.end() :]
        is_field = before.endswith(".") or after.startswith(".{") or (re.match(r" = ", after) and re.search(r"[{;]\s*$", before)) or re.search(r"\n  +pub $", before)
        is_path = re.search(r"(?m)^use [^\n{]*$", before[-200:])
        if not is_field and not is_path:
            seen[new].add(t)
        return new

    out = TOKEN.sub(one, text)
    for new, olds in seen.items():
        if len(olds) > 1:
            clashes.append((where, new, sorted(olds)))
    return out


def clauses(text):
    """The spans of ghost use lines and of the clauses of a source file."""
    for m in re.finditer(r"(?m)^\s*ghost use [^;]*;", text):
        yield m.start(), m.end()
    for m in re.finditer(r"(?m)^\s*(?:requires|ensures)\*? ?(?:\w+ )?\{", text):
        depth, at = 1, m.end()
        while depth:
            depth += {"{": 1, "}": -1}.get(text[at], 0)
            at += 1
        yield m.end(), at - 1


out = {}
for path in files:
    text = read(path)
    out[path] = turn(text, foreign(text), path)
for path in sources:
    text = read(path)
    skip = foreign(text)
    new, last = [], 0
    for a, b in sorted(clauses(text)):
        new += [text[last:a], turn(text[a:b], skip, path)]
        last = b
    out[path] = "".join(new + [text[last:]])
    # a parameter hides a word of its name
    for m in re.finditer(r"(?ms)^\s*(?:pub(?:\(crate\))? )?(?:extern \"C\" )?fn (\w+)(?:<[^>]*>)?\((.*?)\)(?: -> [^{]*?)?\n(.*?)^\{", out[path]):
        params = set(re.findall(r"(\w+):", m[2]))
        for word in set(table.values()) & params:
            if re.search(r"(?<![\w.'-])" + re.escape(word) + r"(?![\w'-])", m[3]):
                print(f"look: {path}: fn {m[1]} has a parameter `{word}`, and a clause has that word")
for path in edits:
    lines = read(path).split("\n")
    name = next(l[6:] for l in lines if l.startswith("file: "))
    is_source = name.startswith("src/")
    for i, l in enumerate(lines):
        if l.startswith(("old: ", "new: ")) and (not is_source or re.search(r"ensures|requires|ghost use|≡", l)):
            lines[i] = l[:5] + TOKEN.sub(lambda m: table.get(m[0], m[0]), l[5:])
    out[path] = "\n".join(lines)
bad = [c for c in clashes if not all(table.get(o, o) == o for o in c[2])]
for where, new, olds in bad:
    print(f"fall together: {where}: {new} <- {', '.join(olds)}")
if bad and "--force" not in sys.argv:
    raise SystemExit(1)
n = 0
for path, text in out.items():
    if text != read(path):
        n += 1
        with open(path, "w", encoding="utf-8", newline="") as it:
            it.write(text)
print(f"{len(table)} names turned in {n} files")
