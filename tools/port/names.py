#!/usr/bin/env python3
"""Brings this repository's own definitions, lemmas and fields to today's spelling: words in snake case, types in camel case.

usage: python3 tools/port/names.py          at the top, right after the kit's port.py: rewrites crates/ in place
       python3 tools/port/names.py --list   prints each name and its new spelling, and the names that fall together

Functions of src/, exported names, strings, inputs and outputs keep their names: only what specs/ and proofs/ declare is renamed, in the
files of specs/ and proofs/, in the clauses and `ghost use` lines of src/, and in must-fail edits.
"""

import collections
import pathlib
import re
import sys

HOUSE = pathlib.Path(__file__).resolve().parent.parent.parent
DECLARED = re.compile(r"^((?:(?:abbrev|unfoldable|pub|record|data|ruleset) )*)([^\s:{(.]+)((?: [({:]| :).*)$")
INNER = re.compile(r"^ +(?:(?:abbrev|unfoldable|pub|record) )*([^\s:({]+) (?=: |\()")
WORD = re.compile(r"[^\s(){}\[\],;.«»\"`]+")
GOAL = re.compile(r"^ : tie\.")
# a lemma that would have its definition's name, also where the kit's script had made the two one, and the files that mean the lemma
LEMMAS = ["assigned-index", "assigned-size", "compact-from", "compact-index", "compact-size", "graph-of", "opened-m", "page-length"]
LEMMAS += ["put-high", "super-counts", "vertex-at", "vertices-for", "word-in", "ask-early", "feed-m", "few-answer", "from-body"]
LEMMAS += ["many-answer", "next-state", "packed-index", "page-early"]
APART = {name: name.replace("-", "_") + "_lem" for name in LEMMAS}
APART_IN = {"bdz_base/proofs/Numbers.antt": {"vertices-for": "vertex_counts"}, "bdz_table/proofs/Numbers.antt": {"super-counts": "supers"}}
APART_IN["bdz_table/proofs/Core.antt"] = {"live_on": "live_on_lem", "cut_of": "cut_of_lem"}
APART_IN |= {"bdz_image/proofs/Any.antt": {"put_low": "put_low_lem"}}
APART_IN.update({f"bdz_table/proofs/{name}.antt": {"cut_of": "cut_of_lem"} for name in ("Demand2", "Queue", "Turning")})

# variables of definitions and lemmas
VARIABLES = ["keyRoom", "valueRoom", "ranSlots", "compactSlot", "assignedSlot", "startNumber", "nextState", "sizeNo", "lookupNumber"]


def snake(name):
    """A name's new spelling: a capital after a small letter or a digit begins a word, and a dash becomes an underscore."""
    if name[0].isupper():
        return name
    turned = re.sub(r"(?<=[a-z0-9₀-₉])([A-Z])(?=[a-z0-9]|$)", lambda m: "_" + m.group(1).lower(), name)
    return re.sub(r"(?<=[^-])-(?=[^-])", "_", turned)


def sources():
    for kind in ("specs", "proofs"):
        yield from sorted((HOUSE / "crates").glob(f"*/{kind}/**/*.antt"))


def declared():
    """Every name that specs/ and proofs/ declare, with the files that do."""
    names = collections.defaultdict(set)
    for path in sources():
        for line in path.read_text().split("\n"):
            if line.startswith(("--", "use ", "pub use", "mod ", "pub mod", "unfolding")):
                continue
            head = DECLARED.match(line)
            inner = INNER.match(line)
            if head and not (path.name == "Proof.antt" and GOAL.match(head.group(3))):
                names[head.group(2)].add(path)
            elif inner and " : " in line and path.name != "Proof.antt":
                names[inner.group(1)].add(path)
    return names


def turning(names):
    return {name: APART.get(name, snake(name)) for name in [*names, *VARIABLES] if APART.get(name, snake(name)) != name}


def turned(text, new):
    def word(m):
        plain = m.group(0).rstrip("'₀₁₂₃")
        if plain in APART and text[: m.start()].endswith("."):
            return snake(m.group(0))
        return new.get(m.group(0)) or new.get(plain, plain) + m.group(0)[len(plain) :]

    return WORD.sub(word, text)


def code(text, new):
    """A source file: its `ghost use` items, its clauses and its ghost fields; the code keeps its names."""
    out, depth = [], 0
    for line in text.split("\n"):
        begins = depth == 0 and re.match(r"^\s*(ghost |requires|ensures)", line)
        if begins or depth:
            out.append(turned(line, new))
            depth += line.count("{") - line.count("}")
        else:
            out.append(line)
    return "\n".join(out)


def main():
    names = declared()
    new = turning(names)
    if "--list" in sys.argv[1:]:
        fallen = collections.defaultdict(set)
        for name in names:
            fallen[new.get(name, name)].add(name)
        for name, old in sorted(new.items()):
            print(name, old)
        for name, olds in sorted(fallen.items()):
            if len(olds) > 1:
                print("together:", name, *[f"{old} ({', '.join(str(p.relative_to(HOUSE / 'crates')) for p in sorted(names[old]))})" for old in sorted(olds)])
        return
    for path in sources():
        own = APART_IN.get(str(path.relative_to(HOUSE / "crates")), {})
        path.write_text(turned(path.read_text(), {**new, **own}))
    for path in sorted((HOUSE / "crates").glob("*/src/**/*.rt")):
        path.write_text(code(path.read_text(), new))


main()
