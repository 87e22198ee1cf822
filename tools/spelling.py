#!/usr/bin/env python3
"""Brings the repository's own definitions and lemmas to one spelling: words in snake case, a dash only between two names of definitions.

usage: python3 tools/spelling.py [--list]      at the top, once; --list prints old and new names and writes nothing

Types, modules, variants and the facts that are spelled as types keep their capitals. Functions of src/, exported names and strings
stay as they are, and so do the names that the check makes.
"""
import os
import re
import sys

TOKEN = re.compile(r"[^\s(){}\[\].,;:@\"`]+")
DECL = re.compile(r"^\s*(?:pub |unfoldable |abbrev |mutual )*([^\s:(){}.,;λ→|]+(?:\s+[^\s:(){}.,;λ→|]+)*)\s+:(?:\s|$)")
# New names that would fall together with another, and what stands for them.
BY_HAND = {
    "isTrue": "atom_is_true",
    "isFalse": "atom_is_false",
    "fromRow": "entry_from_row",
    "firstRound": "outcome_of_first_round",
    "joinedRounds": "rounds_of_joined",
    "tooMany": "too_many_together",
    "tooWide": "too_wide_together",
    "beginsFFFF": "begins_ffff",
    "hasFFFF": "has_ffff",
    "fewEvents": "events_are_few",
    "fewMessages": "messages_are_few",
    "fewQuestions": "questions_are_few",
    "fewStations": "stations_are_few",
    "getD-snoc": "get_or-snoc",
    "getD-map-lt": "get_or-map-lt",
    "getD-asFrame": "get_or-as_frame",
    "getElem?-snoc": "get_elem?-snoc",
    "asking-panel-FFFF": "asking_panel_ffff",
    "without-FFFF": "without_ffff",
}


def files(endings):
    for folder, dirs, names in os.walk("crates"):
        dirs[:] = sorted(d for d in dirs if d != "out")
        for n in sorted(names):
            if n.endswith(endings):
                yield os.path.join(folder, n)


def read(p):
    with open(p, encoding="utf-8") as f:
        return f.read()


def bare(line):
    """A line of antt without its comment."""
    return re.sub(r"(^|\s)--(\s.*)?$", "", line)


def declared():
    """Names of definitions (with fields and constructors), and of lemmas."""
    definitions, lemmas = set(), set()
    for p in files((".antt",)):
        inner = p.split("/proofs/")[1].count("/") if "/proofs/" in p else 0
        lines = [bare(l) for l in read(p).split("\n")]
        word = False
        for i, l in enumerate(lines):
            m = re.match(r"\s*(?:pub )?(?:abbrev )?(data|record)\s+(?:pub )?(\S+)", l)
            if m:
                definitions.add(m.group(2))
                continue
            m = DECL.match(l)
            if not m:
                continue
            for name in m.group(1).split():
                if name in ("module", "record", "data", "where", "let", "in", "pub", "_"):
                    continue
                if inner:
                    continue
                if "/specs/" in p or re.match(r"\s*(pub )?(unfoldable|abbrev)\b", l):
                    definitions.add(name)
                else:
                    lemmas.add(name)
    return definitions, lemmas - definitions


def snake(part):
    if part[:1].isupper():
        return part
    return re.sub(r"(?<=[a-z0-9])([A-Z])", lambda m: "_" + m.group(1).lower(), part)


def main():
    definitions, lemmas = declared()
    tokens = set()
    for p in files((".antt",)):
        for l in read(p).split("\n"):
            m = DECL.match(bare(l))
            if m:
                tokens.update(m.group(1).split())
    library = set("length take drop map append set add mul sub div mod zero suc true false none some cond not and or le lt eq eqb leb ltb min max pow get_or total refl sym nil cons snoc join empty fst snd replicate reverse filter fold".split())
    words = {snake(d) for d in definitions} | definitions | library
    new = {}
    for name in sorted(definitions):
        to = "_".join(snake(part) for part in name.split("-")) if not name.startswith(("invariant", "decreases", "◌")) else name
        if to != name:
            new[name] = to
    for name in sorted(lemmas):
        parts = name.split("-")
        if "" in parts or not re.match(r"[a-zA-Z]", name):
            parts = [name]
        to = snake(parts[0])
        for a, b in zip(parts, parts[1:]):
            to += ("-" if a in words and b in words else "_") + snake(b)
        if to != name:
            new[name] = to
    new.update(BY_HAND)
    # A lemma whose new name is taken keeps its dash; a definition needs a name by hand.
    taken = {}
    for name, to in sorted(new.items()):
        taken.setdefault(to, []).append(name)
    clashes = set()
    for to, ns in taken.items():
        defs = [n for n in ns if n in definitions]
        if to in tokens and to not in new:
            clashes.update(ns)
        elif len(ns) > 1:
            clashes.update([n for n in ns if n in lemmas] if len(defs) == 1 else ns)
    for n in sorted(clashes):
        if n in BY_HAND:
            continue
        kept = "-".join(snake(part) for part in n.split("-"))
        if n in lemmas and (kept == n or kept not in tokens):
            if kept == n:
                del new[n]
            else:
                new[n] = kept
        else:
            print(f"clash: {n} -> {new[n]}")
    if "--list" in sys.argv:
        for n, to in sorted(new.items()):
            print(n, to, "definition" if n in definitions else "lemma")
        return
    for p in files((".antt", ".rt", ".edit")):
        text = read(p)

        def turn(m):
            t = m.group(0)
            if t not in new:
                return t
            before = text[max(0, m.start() - 4) : m.start()]
            if before.endswith(("tie.", "goal.")):
                return t
            return new[t]

        out = TOKEN.sub(turn, text)
        if out != text:
            with open(p, "w", encoding="utf-8") as f:
                f.write(out)


main()
