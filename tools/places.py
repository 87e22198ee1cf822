#!/usr/bin/env python3
"""Counts the places of docs/DESIGN-PASS.md in crates/*/src, point by point; with a point's number, lists its places.

python3 tools/places.py [POINT]"""
import re
import sys
from collections import defaultdict
from difflib import SequenceMatcher
from pathlib import Path

TOP = Path(__file__).resolve().parent.parent
FILES = sorted(p for p in TOP.glob("crates/*/src/**/*.rt"))


def code(path):
    """The lines of a file, without comments, clauses of ghost use and tests."""
    text = path.read_text()
    text = text.split("#[cfg(test)]")[0]
    return [re.sub(r"//.*", "", line).rstrip() for line in text.splitlines()]


class Function:
    def __init__(self, where, name, head, clauses, body):
        self.where, self.name, self.head, self.clauses, self.body = where, name, head, clauses, body


def functions(path):
    lines = code(path)
    at = 0
    while at < len(lines):
        found = re.match(r"( *)(?:pub(?:\([a-z]+\))? )?(?:extern \"C\" )?fn (\w+)", lines[at])
        if not found or lines[at].endswith(";"):
            at += 1
            continue
        start, indent = at, found[1]
        while at < len(lines) and lines[at] != indent + "}":
            at += 1
        part = lines[start:at]
        opened = next((k for k, line in enumerate(part) if line in (indent + "{",) or line.endswith("{") and "{ " not in line), len(part))
        head = " ".join(line.strip() for line in part[:opened])
        clauses = [line.strip() for line in part[:opened] if re.match(r" *(requires|ensures)\b", line)]
        head = re.split(r" (?:requires|ensures) ", head)[0]
        yield Function(f"{path.relative_to(TOP)}:{start + 1}", found[2], head, clauses, part[opened + 1 :])


ALL = [f for path in FILES for f in functions(path)]
LINES = [(f"{p.relative_to(TOP)}:{k}", line) for p in FILES for k, line in enumerate(code(p), 1)]


def own_enums():
    """Enums with a value in one case and none, or a refusal, in another; numbers and named flags in place of such."""
    text = "\n".join(f"{where}\t{line}" for where, line in LINES)
    for m in re.finditer(r"^(\S+)\t(?:pub(?:\([a-z]+\))? )?enum (\w+) \{\n(.*?)\n\S+\t\}", text, re.M | re.S):
        cases = [line.split("\t")[1].strip() for line in m[3].split("\n")]
        cases = [c for c in cases if c]
        if len(cases) <= 3 and any("(" in c or "{" in c for c in cases) or m[2] in ("Outcome",):
            yield m[1], f"enum {m[2]}: {' '.join(cases)}"
    for where, line in LINES:
        if re.match(r" +pub (outcome|step|leftmark|rightmark|marks|stations): (?!usize)", line):
            yield where, line.strip()


def numbers():
    """Arms of a match over numbers that stand for kinds, tokens or letters, but where a number is made an enum or a byte."""
    name = ""
    for where, line in LINES:
        found = re.search(r"\bfn (\w+)", line)
        name = found[1] if found else name
        if re.match(r" +((0x)?[0-9A-F]+|b'.')( \| .*)?(\.\.=.*)? => ", line) and name != "try_from":
            yield where, line.strip()
        if re.search(r"(letter|kind|own) == |== b'[A-Z]'|\] == own", line):
            yield where, line.strip()


def twins():
    """Pairs of functions whose bodies are alike but for names and numbers."""
    shapes = []
    for f in ALL:
        words = re.findall(r"\w+|[^\w\s]", " ".join(f.body))
        keep = {"if", "else", "match", "while", "for", "return", "let", "mut", "in", "true", "false"}
        shape = [w if w in keep or not w[0].isalnum() else "0" if w[0].isdigit() else "x" for w in words]
        if len(shape) >= 30:
            shapes.append((f, shape))
    for i, (f, a) in enumerate(shapes):
        for g, b in shapes[i + 1 :]:
            if max(len(a), len(b)) < 1.5 * min(len(a), len(b)):
                match = SequenceMatcher(None, a, b, autojunk=False)
                if match.quick_ratio() > 0.85 and match.ratio() > 0.85:
                    yield f.where, f"{f.name} ~ {g.where} {g.name}"


def loops():
    """Loops that count an index by hand, or go on while something holds."""
    return ((where, line.strip()) for where, line in LINES if re.match(r" +(while|loop)\b", line))


def conversions():
    """Functions of one expression that convert, compare or choose numbers; and conversions by `as`."""
    for f in ALL:
        body = [line.strip() for line in f.body if line.strip()]
        if len(body) == 1 and re.search(r"-> (u8|u16|u32|usize|bool)$", f.head) and not re.search(r"\w+\(.*\w+\(", body[0]):
            if re.fullmatch(r"fn.*|pub.*", f.head) and all(t in ("u8", "u16", "u32", "usize", "bool") for t in re.findall(r": (\w+)[,)]", f.head)):
                yield f.where, f"{f.name}: {body[0]}"
    for where, line in LINES:
        for m in re.finditer(r" as (usize|u8|u16|u32|u64)\b", line):
            yield where, line.strip()


def facts():
    """Parts of a requires or ensures that stand in three functions or more; parameters that go together in four or more."""
    by = defaultdict(list)
    for f in ALL:
        for clause in f.clauses:
            inside = re.search(r"\{ (.*) \}$", clause)
            if inside and not inside[1].startswith("("):
                parts = [inside[1]]
            else:
                parts = re.findall(r"\(([^()]*(?:\([^()]*\)[^()]*)*)\)", inside[1]) if inside and "→" not in inside[1] else []
            for part in set(parts):
                if clause.startswith("requires"):
                    by[part].append(f.where)
    for part, wheres in sorted(by.items()):
        if len(wheres) >= 3:
            yield wheres[0], f"{len(wheres)} times: {part}"
    sets = defaultdict(list)
    for f in ALL:
        names = set(re.findall(r"(\w+): &?(?:mut )?[\w\[\]:; ]+", f.head.split(" -> ")[0]))
        for group in (("ws", "bs"), ("starts", "facts"), ("m", "s"), ("list", "store"), ("above", "under"), ("left", "right", "first")):
            if set(group) <= names:
                sets[group].append(f.where)
    for group, wheres in sets.items():
        if len(wheres) >= 4:
            yield wheres[0], f"{len(wheres)} functions take {', '.join(group)}"


def lengths():
    """Numbers that say how much of a slice or an array counts, beside it; arrays that go together, a number of one for a number of the other."""
    for f in ALL:
        if "&[" in f.head or "&mut [" in f.head:
            for name in re.findall(r"\b(len|count|got|many): usize", f.head):
                yield f.where, f"{f.name}: {name}"
    text = "\n".join(f"{where}\t{line}" for where, line in LINES)
    for m in re.finditer(r"^(\S+)\t(?:pub(?:\([a-z]+\))? )?struct (\w+)(?:<'a>)? \{\n(.*?)\n\S+\t\}", text, re.M | re.S):
        arrays = re.findall(r"(\w+): (?:\[[^\]]+\]|&'a Table|Table),", m[3])
        if len(arrays) >= 2 or arrays and re.search(r"\b(count|length): usize", m[3]):
            yield m[1], f"struct {m[2]}: {', '.join(arrays)}"


def switches():
    """Parameters that choose which of two steps or more a function runs: flags, and plain enums."""
    for f in ALL:
        for name, kind in re.findall(r"\b(\w+): (bool|Part|Kind|model::Kind|Aspect|Outcome)\b", f.head.split(" -> ")[0]):
            if re.search(rf"(if|match) !?{name} \{{", " ".join(f.body)) and "(" in re.sub(r"(if|match)", "", " ".join(f.body)):
                yield f.where, f"{f.name}: {name}: {kind}"


def proofs():
    """Goals answered in proofs/FN/Answers.antt."""
    for path in sorted(TOP.glob("crates/*/proofs/**/Answers.antt")):
        for line in path.read_text().splitlines():
            if re.match(r"pub \S+ : goal\.", line):
                yield str(path.relative_to(TOP)), line.split(" ")[1]


POINTS = [
    ("1a", own_enums), ("1b", numbers), ("2", twins), ("3", loops), ("4", conversions),
    ("5", facts), ("6", lengths), ("7", switches), ("8", proofs),
]


def main():
    chosen = sys.argv[1] if len(sys.argv) > 1 else None
    for point, find in POINTS:
        places = list(find())
        if chosen in (None, point):
            print(f"{point:3} {len(places):5}  {' '.join(find.__doc__.split())}")
        if chosen == point:
            for where, what in places:
                print(f"  {where}: {what}")


main()
