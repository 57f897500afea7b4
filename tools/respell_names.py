#!/usr/bin/env python3
"""Turns the dashes in the repository's own names, in specs/, proofs/ and the clauses of src/, to today's spelling.

usage: python3 tools/respell_names.py          at the top of the repository, once, after the kit's own script
       python3 tools/respell_names.py --look   says which names would fall together with others, and writes nothing

A word becomes snake case, a fact or a theorem camel case: lots-in is lots_in, Few-legs is FewLegs. Names of goals, of steps and of the kit keep
their dashes. In the definitions of specs/ the tests ltb and leb are nat_lt and nat_le.
"""

import collections
import glob
import re
import sys

WORD = r"[^\s(){}\[\],;.:«»λ|]+"
# an own definition, field, constructor or local name, and the type that follows
OWN = re.compile(r"^\s*(?:\|\s*)?(?:(?:abbrev|unfoldable|pub|data|record)\s+)*(" + WORD + r")\s*(?:\{[^}]*\}\s*|\([^)]*\)\s*)*:\s+(\S*)")


def files():
    return sorted(glob.glob("crates/*/specs/**/*.antt", recursive=True) + glob.glob("crates/*/proofs/**/*.antt", recursive=True)), sorted(glob.glob("crates/*/src/**/*.rt", recursive=True))


def read(path):
    with open(path, encoding="utf-8") as f:
        return f.read()


def own_names(paths):
    """The own names with a dash, and those of them that are fields of a record."""
    names, fields = set(), set()
    for path in paths:
        in_record = False
        for line in read(path).split("\n"):
            code = line.split("--")[0]
            if code[:1].strip():
                in_record = bool(re.match(r"(?:pub )?record ", code))
            m = OWN.match(code)
            if not m or "-" not in m.group(1) or not m.group(1)[0].isalpha():
                continue
            if m.group(2).startswith(("goal.", "need.")):
                continue
            names.add(m.group(1))
            if in_record and code[:1].isspace():
                fields.add(m.group(1))
    return names, fields


def respelled(name):
    if name[0].isupper():
        return "".join(part[:1].upper() + part[1:] for part in name.split("-"))
    return name.replace("-", "_")


def turn(text, names, fields):
    def one(m):
        word = m.group(0)
        if text[: m.start()].endswith("."):
            before = re.search(r"([\w.'-]*)\.$", text[: m.start()])
            at_path = before and before.group(1).startswith("Rattle")
            return respelled(word) if at_path and word in names or word in fields and not re.search(r"(^|[^\w'.-])(c|w|goal)$", before.group(1)) else word
        return respelled(word) if word in names else word

    return re.sub(WORD, one, text)


def main(look):
    antt, rt = files()
    names, fields = own_names(antt)
    new = collections.defaultdict(list)
    for n in names:
        new[respelled(n)].append(n)
    seen = collections.defaultdict(set)
    for path in antt + rt:
        for w in re.findall(WORD, re.sub(r"(?m)(--|//).*$", "", read(path))):
            seen[w].add(path)
    for n in sorted(new):
        if len(new[n]) > 1:
            print(f"two names: {new[n]} become {n}")
        if n in seen:
            print(f"taken: {new[n][0]} becomes {n}, which stands in {sorted(seen[n])[:6]}; the old one in {sorted(p for o in new[n] for p in seen[o])[:6]}")
    if look:
        return
    for path in antt + rt:
        old = read(path)
        text = turn(old, names, fields)
        if "/specs/" in path:
            text = re.sub(r"(?<![\w'-])ltb(?![\w'-])", "nat_lt", text)
            text = re.sub(r"(?<![\w'-])leb(?![\w'-])", "nat_le", text)
        if text != old:
            with open(path, "w", encoding="utf-8") as f:
                f.write(text)


main("--look" in sys.argv[1:])
