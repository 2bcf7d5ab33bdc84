#!/usr/bin/env python3
"""Spells this repository's own definitions and lemmas as today's Rattle spells names.

usage: python3 tools/snake_names.py        at the top of the repository, once, after the kit's port.py

A name with dashes becomes snake case (least-of: least_of), a fact with dashes camel case (Far-is: FarIs), and the old
word getD inside a name becomes get_or. Only names that are declared in specs/ and in proofs/ are turned; what Rattle
itself makes (goals, steps, loops) keeps its dashes, and so does what a file imports from std. It prints the names that fall together with others, and then writes nothing.
"""

import os
import re
import sys

TOP = os.path.join(os.path.dirname(os.path.dirname(os.path.realpath(__file__))), "crates")
DECLARED = re.compile(r"^(?:unfoldable |abbrev |pub |record |data |mutual |ruleset )*([^\s:(){}.,;«»]+)(?:\s+[({].*)?\s+:\s*(.*)$")
INNER = re.compile(r"^\s+(?:pub |abbrev |unfoldable )*([^\s:(){}.,;«»]+)(?:\s+[({].*)?\s+:\s")
IMPORT = re.compile(r"(?m)^(?:ghost )?use (Rattle\.std\.[\w.'+-]+|\S*\.(?:Goals|Given))\.\{([^}]*)\}")
ALIAS = re.compile(r"(?m)^(?:ghost )?use (\S+) as ([^\s;]+)")
TOKEN = re.compile(r"(?<![^\s(){}\[\].,;«»])[^\s(){}\[\].,;«»]+")


def files():
    for folder, dirs, names in os.walk(TOP):
        dirs[:] = sorted(d for d in dirs if d != "out")
        for n in sorted(names):
            if n.endswith((".antt", ".rt", ".edit")):
                yield os.path.join(folder, n)


def spelled(name):
    name = name.replace("getD", "get_or").replace("\u2032", "'")
    if name[0].isupper():
        head, *rest = name.split("-")
        return head + "".join(w[0].upper() + w[1:] for w in rest)
    return name.replace("-", "_")


def declared(text):
    """Names of definitions, lemmas and fields of a file. A proof's answer to a goal is Rattle's name."""
    names, fields, inside = set(), set(), False
    for line in text.splitlines():
        if line.startswith(("--", "use ", "mod ", "pub mod ", "unfolding ")):
            continue
        if line and not line[0].isspace():
            inside = " record " in " " + line
            m = DECLARED.match(line)
            if m and not m.group(2).startswith("goal.") and not m.group(1).startswith(("invariant-", "decreases-", "ghost-")):
                names.add(m.group(1))
        elif m := INNER.match(line):
            (fields if inside else names).add(m.group(1))
    return names, fields


def main():
    texts = {}
    for p in files():
        with open(p, encoding="utf-8") as f:
            texts[p] = f.read()
    names, fields = set(), set()
    for p, t in texts.items():
        if p.endswith(".antt"):
            n, f = declared(t)
            names |= n
            fields |= f
    turned = {n: spelled(n) for n in names | fields if spelled(n) != n}
    taken = {}
    for n in names | fields:
        taken.setdefault(spelled(n), set()).add(n)
    bad = [f"falls together: {sorted(v)} as {k}" for k, v in taken.items() if len(v) > 1]
    new = set(turned.values())
    others = {}
    for p, t in texts.items():
        others[p] = set()
        for m in IMPORT.finditer(t):
            for word in (w.strip().split(" as ")[-1] for w in m.group(2).split(",")):
                others[p].add(word)
                if word in new and not m.group(1).endswith(("Goals", "Given")):
                    bad.append(f"{p}: {word} is imported from {m.group(1)}")
    if bad:
        print("\n".join(bad))
        return 1

    def turn(match, others, aliases):
        word = match.group(0)
        if word not in turned or word in others:
            return word
        before = re.search(r"([^\s(){}\[\].,;«»]*)\.$", match.string[max(0, match.start() - 80) : match.start()])
        if before and before.group(1) not in aliases and word not in fields:
            return word
        return turned[word]

    count = 0
    for p, t in texts.items():
        aliases = {m.group(2) for m in ALIAS.finditer(t) if not m.group(1).endswith((".Goals", ".Given"))}
        out = TOKEN.sub(lambda m: turn(m, others[p], aliases), t)
        if out != t:
            count += 1
            with open(p, "w", encoding="utf-8") as f:
                f.write(out)
    print(f"{len(turned)} names turned in {count} files")
    return 0


if __name__ == "__main__":
    sys.exit(main())
