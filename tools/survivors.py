#!/usr/bin/env python3
"""Changes each number, comparison and handed-back value of a crate's code in turn, in a copy of the repository, and lists the changes under
which the crate is still proved: what survives is what its contracts do not say. A constant that survives is tried where it is used.

    python3 tools/survivors.py CRATE...       try every change; exit code 1 where one survives
    python3 tools/survivors.py --list CRATE.. only list the changes
    --jobs N                                  so many at a time (2)

The crates have to be proved before (`rt check`). A change is refused by the prover, or not taken by the compiler, which says nothing of a
contract; both are counted. It is no part of the gate: a change costs a check of its crate, some 5 s.
"""

import argparse
import dataclasses
import pathlib
import queue
import re
import shutil
import subprocess
import sys
import tempfile
import threading

ROOT = pathlib.Path(__file__).resolve().parent.parent

TOKEN = re.compile(r"//[^\n]*|b?\"(?:\\.|[^\"\\])*\"|b'(?:\\.|[^'\\])'|0x[0-9A-Fa-f_]+|[0-9][0-9_]*(?:[ui](?:8|16|32|64|size))?"
                   r"|[^\W\d]\w*|::|->|=>|\.\.=|\.\.|<=|>=|==|!=|&&|\|\||[+\-*/%|&^]=|\S")
NUMBER = re.compile(r"(0x[0-9A-Fa-f_]+|[0-9][0-9_]*)((?:[ui](?:8|16|32|64|size))?)$")
OTHER = {"<": "<=", "<=": "<", ">": ">=", ">=": ">", "==": "!=", "!=": "=="}
INTEGERS = {"u8", "u16", "u32", "u64", "usize", "i8", "i16", "i32", "i64", "isize"}
BLOCKS = {"if", "while", "for", "loop", "match"}


@dataclasses.dataclass(frozen=True)
class Change:
    file: str
    start: int
    end: int
    new: str
    line: int
    old: str
    constant: str = ""
    step: int = 0

    def __str__(self):
        return f"{self.file}:{self.line}: {self.old} -> {self.new}"


class Types:
    """The structs and enums of all crates, by name; where two crates have the name, the crate's own goes first."""

    def __init__(self):
        self.structs, self.enums = {}, {}
        for path in sorted(ROOT.glob("crates/*/src/*.rt")):
            crate = path.parent.parent.name
            text = re.sub(r"//[^\n]*", "", path.read_text())
            for kind, name, body in re.findall(r"\b(struct|enum) (\w+) \{(.*?)\n\}", text, re.S):
                if kind == "struct":
                    fields = re.findall(r"(?:pub )?(\w+): ([^\n]+),\n", body + "\n")
                    self.structs.setdefault(name, {})[crate] = fields
                else:
                    self.enums.setdefault(name, {})[crate] = re.findall(r"^    (\w+)(?:\((.*)\)|( \{[^}]*\})|)(?:,|$)", body, re.M)

    @staticmethod
    def of(table, kind, crate):
        """The type of this name as the crate sees it, and how it is called there; nothing where there is none."""
        name = kind.split("::")[-1]
        owners = table.get(name, {})
        if not owners:
            return kind, []
        owner = crate if crate in owners else next(iter(owners))
        return (name if owner == crate else f"{owner}::{name}"), owners[owner]

    def units(self, kind, crate):
        """The variants of an enum that hold nothing."""
        return [name for name, held, fields in self.of(self.enums, kind, crate)[1] if not held and not fields]

    def plain(self, kind, crate, but=""):
        """A value of this type, not made as the text `but` begins; "" where none is known."""
        array = re.fullmatch(r"\[(\w+); (.+)\]", kind)
        if kind in INTEGERS:
            return "0" if but != "0" else "1"
        if kind == "bool":
            return "false" if but != "false" else "true"
        if array:
            return f"[0{array[1]}; {array[2]}]" if array[1] in INTEGERS else ""
        path, variants = self.of(self.enums, kind, crate)
        last = but.split("::")[-1]
        for name in self.units(kind, crate):
            if name != last:
                return f"{path}::{name}"
        for name, held, _ in variants:
            values = [self.plain(type_, crate) for type_ in held.split(", ") if held]
            if values and all(values) and name != last:
                return f"{path}::{name}({', '.join(values)})"
        path, fields = self.of(self.structs, kind, crate)
        values = [(name, self.plain(type_, crate)) for name, type_ in fields]
        if values and all(value for _, value in values):
            return path + " { " + ", ".join(f"{name}: {value}" for name, value in values) + " }"
        return ""


class Source:
    """One file's code: its tokens with their places, and the changes to it."""

    def __init__(self, crate, path, types):
        self.crate, self.types, self.text = crate, types, path.read_text()
        self.file = f"src/{path.name}"
        self.tokens = [m for m in TOKEN.finditer(self.text) if not m[0].startswith("//")]
        self.words = [m[0] for m in self.tokens]
        self.changes = []
        self.items()

    def change(self, i, j, new, constant="", step=0):
        """The tokens i up to j give way to `new`; of a constant's value, so much more."""
        start, end = self.tokens[i].start(), self.tokens[j - 1].end()
        old = re.sub(r"\s+", " ", self.text[start:end])
        if new and new != old:
            self.changes.append(Change(self.file, start, end, new, self.text.count("\n", 0, start) + 1, old, constant, step))

    def closing(self, i):
        """The place behind the bracket that closes the one at i."""
        depth = 0
        for j in range(i, len(self.words)):
            depth += self.words[j] in "([{"
            depth -= self.words[j] in ")]}"
            if depth == 0:
                return j + 1
        raise SystemExit(f"{self.file}: a bracket is not closed")

    def find(self, i, end, *wanted):
        """The first of these tokens from i on that stands in no bracket."""
        while i < end and self.words[i] not in wanted:
            i = self.closing(i) if self.words[i] in "([{" else i + 1
        return i

    def items(self):
        i, owner = 0, ""
        while i < len(self.words):
            word = self.words[i]
            if word == "impl":
                owner, i = self.words[i + 1] + "::", i + 3
            elif word == "const":
                equals = self.find(i, len(self.words), "=")
                end = self.find(equals, len(self.words), ";")
                self.numbers(equals, end, owner + self.words[i + 1])
                i = end
            elif word == "fn":
                i = self.function(i)
            elif word in ("struct", "enum"):
                i = self.closing(self.find(i, len(self.words), "{", "("))
            elif word in ("use", "type", "mod"):
                while self.words[i] != ";":
                    i += 1
            else:
                i += 1

    def function(self, i):
        params = self.find(i, len(self.words), "(")
        i = self.closing(params)
        kind = ""
        if self.words[i] == "->":
            start = i + 1
            while self.words[i] not in ("{", "requires", "ensures"):
                i = self.closing(i) if self.words[i] == "[" else i + 1
            kind = self.text[self.tokens[start].start():self.tokens[i - 1].end()]
        while self.words[i] in ("requires", "ensures"):
            i = self.closing(self.find(i, len(self.words), "{"))
        end = self.closing(i)
        self.numbers(i, end)
        self.comparisons(i, end)
        self.variants(i, end)
        if kind:
            self.block(i + 1, end - 1, kind, True)
        return end

    def numbers(self, i, end, constant=""):
        for k in range(i, end):
            number = NUMBER.match(self.words[k])
            if not number or self.words[k - 1] == ".":
                continue
            value = int(number[1].replace("_", ""), 0)
            for other in (value + 1, value - 1):
                if other >= 0 and not (value in (255, 65535) and other > value):
                    self.change(k, k + 1, f"{other}{number[2]}", constant, other - value)

    def comparisons(self, i, end):
        for k in range(i, end):
            if self.words[k] in OTHER:
                self.change(k, k + 1, OTHER[self.words[k]])

    def units(self, k):
        """The variants that hold nothing of the enum of which the token k is one, if it is; patterns are passed over."""
        if self.words[k - 1] != "::" or self.words[k + 1] in ("=>", "|", "("):
            return []
        units = self.types.units(self.words[k - 2], self.crate)
        return units if self.words[k] in units else []

    def variants(self, i, end):
        for k in range(i, end):
            units = self.units(k)
            if len(units) > 1:
                self.change(k, k + 1, units[(units.index(self.words[k]) + 1) % len(units)])

    def block(self, i, end, kind, tail):
        """The statements from i to end, which are a block's; its value, where it is handed back, is of this kind."""
        while i < end:
            start = i
            if self.words[i] in BLOCKS or self.words[i] == "{":
                i = self.compound(i, end, kind, tail)
                if i < end and self.words[i] == ";":
                    i += 1
                continue
            if self.words[i] == "return":
                i = self.find(i, end, ";")
                if start + 1 < i:
                    self.value(start + 1, i, kind)
                i += 1
                continue
            i = self.find(i, end, ";", "else")
            if i < end and self.words[i] == "else":
                block_end = self.closing(i + 1)
                self.block(i + 2, block_end - 1, kind, False)
                i = block_end
            elif i >= end and tail:
                self.value(start, end, kind)
            i += 1

    def compound(self, i, end, kind, tail):
        """if, match, a loop or a block, from i on; the place behind it."""
        word = self.words[i]
        open_ = self.find(i, end, "{")
        close = self.closing(open_)
        tail_here = tail and word in ("if", "match", "{") and self.last(i, end)
        if word == "match":
            k = open_ + 1
            while k < close - 1:
                arrow = self.find(k, close, "=>")
                if self.words[arrow + 1] == "{":
                    arm_end = self.closing(arrow + 1)
                    self.block(arrow + 2, arm_end - 1, kind, tail_here)
                else:
                    arm_end = self.find(arrow + 1, close - 1, ",")
                    if tail_here:
                        self.value(arrow + 1, arm_end, kind)
                k = arm_end + (arm_end < close - 1 and self.words[arm_end] == ",")
            return close
        self.block(open_ + 1, close - 1, kind, tail_here)
        while word == "if" and close < end and self.words[close] == "else":
            open_ = self.find(close, end, "{")
            close = self.closing(open_)
            self.block(open_ + 1, close - 1, kind, tail_here)
        return close

    def last(self, i, end):
        """Does the compound that begins at i end its block?"""
        close = self.closing(self.find(i, end, "{"))
        while close < end and self.words[close] == "else":
            close = self.closing(self.find(close, end, "{"))
        return close >= end

    def value(self, i, end, kind):
        """A value handed back: another in its place, or, for a struct written out, for each of its fields."""
        if self.words[i] in BLOCKS:
            self.compound(i, end, kind, True)
            return
        fields = self.types.of(self.types.structs, kind, self.crate)[1]
        literal = self.find(i, end, "{")
        if fields and literal < end:
            types, k = dict(fields), literal + 1
            while k < end - 1:
                stop = self.find(k, end - 1, ",")
                if self.words[k + 1] == ":":
                    self.value(k + 2, stop, types.get(self.words[k], ""))
                k = stop + 1
            return
        old = self.text[self.tokens[i].start():self.tokens[end - 1].end()]
        if end - i == 1 and NUMBER.match(self.words[i]) or self.words[i] == "[" or len(self.units(end - 1)) > 1:
            return
        if kind == "bool" and old not in ("true", "false"):
            if not any(word in OTHER for word in self.words[i:end]):
                self.change(i, end, f"!({old})")
            return
        self.change(i, end, self.types.plain(kind, self.crate, old.split("(")[0]))


def changes_of(crate, types):
    if not (ROOT / "crates" / crate / "src").is_dir():
        raise SystemExit(f"there is no crate {crate}")
    found = []
    for path in sorted((ROOT / "crates" / crate / "src").glob("*.rt")):
        found += Source(crate, path, types).changes
    return found


def run(room, crate, word):
    return subprocess.run(["rt", word], cwd=room / "crates" / crate, stdout=subprocess.PIPE, stderr=subprocess.STDOUT, text=True)


class Room:
    """A copy of the repository in which changes are tried."""

    def __init__(self, base):
        self.path = pathlib.Path(tempfile.mkdtemp(dir=base))
        shutil.copy(ROOT / "crates.txt", self.path)
        shutil.copytree(ROOT / "crates", self.path / "crates", ignore=shutil.ignore_patterns("must-fail", "stdin", "stdout"))

    def verdict(self, crate, texts):
        """What comes of a crate with these files: refused, not compiled or survived."""
        kept = {path: path.read_text() for path in texts}
        try:
            for path, text in texts.items():
                path.write_text(text)
            said = run(self.path, crate, "check")
            if said.returncode != 0:
                return "refused" if "logic=not-proved" in said.stdout else "not compiled"
            # The quick check trusts what it kept, so a library that survives it is proved once more from its files.
            library = (self.path / "crates" / crate / "src" / "lib.rt").exists()
            return "refused" if library and run(self.path, crate, "verdict").returncode != 0 else "survived"
        finally:
            for path, text in kept.items():
                path.write_text(text)

    def attempt(self, crate, change):
        path = self.path / "crates" / crate / change.file
        text = path.read_text()
        outcome = self.verdict(crate, {path: text[:change.start] + change.new + text[change.end:]})
        return self.in_use(crate, change) if change.constant and outcome == "survived" else outcome

    def in_use(self, crate, change):
        """A constant's change where the constant, or one made of it, is used: one up or down there, in each crate in turn."""
        names = made_of(change.constant, (self.path / "crates" / crate / change.file).read_text())
        named = re.compile(r"((?:\b\w+::)*\b(?:" + "|".join(sorted(names)) + r")\b)(?!:)")
        outcomes = []
        for line in (ROOT / "crates.txt").read_text().splitlines():
            user = line.split(":")[0].split()[0]
            texts = {path: path.read_text() for path in (self.path / "crates" / user / "src").glob("*.rt")}
            if user != crate and any(named.search(text) for text in texts.values()):
                changed = {path: in_code(named, rf"(\1 {change.step:+d})", text) for path, text in texts.items()}
                outcomes.append(self.verdict(user, changed))
            if "refused" in outcomes:
                return "refused"
        return "not compiled" if outcomes and set(outcomes) == {"not compiled"} else "survived"


def in_code(pattern, new, text):
    """The text with the pattern replaced but in lines that say what is used."""
    return "\n".join(line if line.startswith(("use ", "pub use ", "ghost ")) else pattern.sub(new, line) for line in text.split("\n"))


def made_of(constant, text):
    """The constant, and the others of the file whose values name it."""
    owner = constant.rpartition("::")[0]
    values = {(f"{owner}::" if owner else "") + name: value for name, value in re.findall(r"const (\w+): [^=]*= ([^;]*);", text)}
    names = {constant}
    while True:
        more = {name for name, value in values.items() if any(re.search(rf"\b{other}\b", value) for other in names)} - names
        if not more:
            return names
        names |= more


def try_all(crate, changes, jobs, base):
    """Each change with what came of it."""
    todo, outcomes, unproved, lock = queue.Queue(), {}, [], threading.Lock()
    for change in changes:
        todo.put(change)

    def work(room):
        proved = run(room.path, crate, "check")
        if proved.returncode != 0:
            unproved.append(proved.stdout[-2000:])
            return
        while True:
            try:
                change = todo.get_nowait()
            except queue.Empty:
                return
            outcome = room.attempt(crate, change)
            with lock:
                outcomes[change] = outcome

    threads = [threading.Thread(target=work, args=(Room(base),)) for _ in range(min(jobs, len(changes)))]
    for thread in threads:
        thread.start()
    for thread in threads:
        thread.join()
    if unproved:
        raise SystemExit(f"{crate} is not proved as it stands:\n{unproved[0]}")
    return outcomes


def main():
    words = argparse.ArgumentParser(description=__doc__, formatter_class=argparse.RawDescriptionHelpFormatter)
    words.add_argument("crates", nargs="+", metavar="CRATE")
    words.add_argument("--list", action="store_true")
    words.add_argument("--jobs", type=int, default=2)
    given = words.parse_args()
    types, survived = Types(), 0
    for crate in given.crates:
        changes = changes_of(crate, types)
        if given.list:
            for change in changes:
                print(f"{crate}/{change}")
            continue
        with tempfile.TemporaryDirectory() as base:
            outcomes = try_all(crate, changes, given.jobs, base)
        counts = {word: sum(outcome.startswith(word) for outcome in outcomes.values()) for word in ("refused", "not compiled", "survived")}
        print(f"{crate}: {len(changes)} changes, " + ", ".join(f"{count} {word}" for word, count in counts.items()), flush=True)
        for change in changes:
            if outcomes[change] == "survived":
                print(f"  survived: {crate}/{change}", flush=True)
                survived += 1
    sys.exit(1 if survived else 0)


main()
