#!/usr/bin/env python3
"""Lists the places of each point of the design pass (docs/DESIGN-PASS.md) in src/.

    python3 tools/design_places.py [FOLDER] [-v]

FOLDER is a checkout (the current one if it is left out); -v prints each place.
"""
import re
import sys
from collections import defaultdict
from pathlib import Path

FUNCTION = re.compile(r"^( *)((?:pub(?:\(crate\))? )?fn (\w+)[^\n]*(?:\n(?!\1\{)[^\n]*)*)\n\1\{(?:\}|\n(.*?)\n\1\})", re.S | re.M)

# A pattern for each kind of place that one line shows.
LINES = {
    "1a an Option that carries a fault": r"-> Option<\w*Fault>",
    "1b a result that says nothing": r"fn \w+\(\) -> u8$",
    "1c an absence or a fault passed on by hand": r"None => (return )?(None|Err\()|else \{ return None|^\s+return None;$|Err\(fault\) => (return )?Err\(|\.is_err\(\)",
    "1d a flag among fields": r"^\s+(pub(\(crate\))? )?\w+: bool,$",
    "3a a counted loop": r"for \w+ in \d+\.\.",
    "3b a while loop by a comparison": r"while [^{]*( < | > | <= | >= )",
    "3c a count that goes up by one": r"\+= 1;",
    "4a an impl of copying, equality or order": r"impl.* (Clone|Copy|PartialEq|Eq|PartialOrd|Ord) for",
    "4b a comparison of two keys in turn": r"\|\|.*==.*&&|== \w+\.\w+ &&",
    "4c a conversion under a name of its own": r"fn (from_|to_|widened|narrowed|seen_here|found_of|start_at|gathered|group_of|members_of)\w*",
    "4d a duct, row or entry printed by its fields": r"print.*\{first\}",
    "6a an array of fixed room": r": \[\w+; \d+\]|= \[\w+; \d+\]|= \[0u32; \d+\]",
    "6b a count or room beside a list": r"^\s+(pub(\(crate\))? )?(count|used|most|room|short|offsets|counts|width): ",
    "6c a sorted list searched by hand": r"fn passed\(",
    "7a a function as a value, or a dyn": r"\bdyn \w|\bfn\(|Box<dyn",
}


def sources(root):
    return sorted(p for p in Path(root, "crates").glob("*/src/**/*.rt") if "/out/" not in str(p))


def functions(root):
    for path in sources(root):
        for m in FUNCTION.finditer(path.read_text()):
            yield path, m[3], m[2], m[4] or ""


def shape(body):
    """The body with its names and numbers put in the order in which they come."""
    names = {}
    words = re.findall(r"\w+|[^\w\s]", body)
    keep = {"if", "else", "for", "while", "match", "let", "mut", "return", "Some", "None", "Ok", "Err", "in", "self", "true", "false", "loop"}
    return tuple(w if not re.match(r"\w", w) or w in keep else names.setdefault(w, f"x{len(names)}") for w in words)


def twins(root):
    groups = defaultdict(list)
    for path, name, head, body in functions(root):
        body = re.sub(r"//[^\n]*", "", body)
        s = shape(body)
        if len(s) >= 12:
            groups[s].append(f"{path.relative_to(root)}: {name}")
    return [g for g in groups.values() if len(g) > 1]


def clauses(root):
    seen = defaultdict(set)
    for path, name, head, body in functions(root):
        crate = path.relative_to(root).parts[1]
        for kind, text in re.findall(r"^\s+(requires|ensures)(?: \w+)? \{ (.*) \}$", head, re.M):
            seen[(crate, kind, text)].add(f"{path.relative_to(root)}: {name}")
    return {k: v for k, v in seen.items() if len(v) >= 3}


def together(root):
    """Pairs of parameters, by name and type, that three or more functions of a crate take."""
    seen = defaultdict(set)
    for path, name, head, body in functions(root):
        crate = path.relative_to(root).parts[1]
        names = re.findall(r"(\w+): (&?(?:'a )?(?:mut )?[\w\[\]<>]+)", head.split("ensures")[0].split("requires")[0])
        names = sorted(set(n for n in names if n[0] not in ("O", "o", "oracle", "heap", "rt")))
        for i, a in enumerate(names):
            for b in names[i + 1 :]:
                seen[(crate, a, b)].add(name)
    return {k: v for k, v in seen.items() if len(v) >= 3}


def main():
    words = [a for a in sys.argv[1:] if a != "-v"]
    root = Path(words[0] if words else ".")
    for kind, pattern in LINES.items():
        found = [(p, i, l.strip()) for p in sources(root) if p.name != "tests.rt" for i, l in enumerate(p.read_text().split("\n"), 1) if not l.strip().startswith("//") and re.search(pattern, l)]
        print(f"{kind}: {len(found)}")
        if "-v" in sys.argv:
            for p, i, l in found:
                print(f"    {p.relative_to(root)}:{i}: {l}")
    for kind, found in (("2a functions of one shape", twins(root)), ("5a clauses of three functions or more", clauses(root)), ("5b pairs of parameters of three functions or more", together(root))):
        print(f"{kind}: {len(found)}")
        if "-v" in sys.argv:
            for g in found if isinstance(found, list) else found.items():
                print("   ", g)
    answers = sum(len(re.findall(r"^pub [\w-]+ :", p.read_text(), re.M)) for p in Path(root, "crates").glob("*/proofs/**/Answers.antt") if "/out/" not in str(p))
    print(f"8a answers written by hand: {answers}")


main()
