#!/usr/bin/env python3
"""Runs the built floor on made-up days, on the examples and on hostile input, and compares what it shows with what is due.

Usage: floor.py [FLOOR]            the program, target/cargo/release/floor unless it is given; exit code 1 on any difference
       floor.py --golden [FLOOR]   writes what it shows now to the golden files, to be looked through
Days are compiled to logs whose bytes are worked out here, and written back as words. Answers are held against the plain listing, the
proved operations and, where a question was never true, against a checker of its chain.
"""
import pathlib
import re
import sys
import tempfile
import time
from collections import Counter
from concurrent.futures import ProcessPoolExecutor

import commands
import golden
import imports
from answers import Answers
from day_words import of_log
from days import made, refused
from frames import Draw
from listing import OPERATIONS, Refused, atoms, read, tokens
from runs import ROOT, Library, Runs

SEED, AT_ONCE = 20261117, 2
HOSTILE, SHOWN, LONG = 8, 8, 1000  # parts of the hostile inputs; differences shown of each kind, and how much of each
OFTEN, FEW = 10, {"golden refusals": 1}  # how often each of these is to be met at least
KINDS = ["range", "clear", "possibly", "not possibly", "fits", "seen", "received", "fits last", "not seen", "not sent", "none fits",
         "never came", "past", "barred", "several ways", "several cases", "a why inside", "damaged: refused", "damaged: right",
         "forged: refused", "listed", "not listed", "moments", "never", "told: event", "told: clock", "told: message", "told: value",
         "told: list", "told: moment", "told: ways", "told: alike", "told: quoted", "told: claim", "imported", "golden errors",
         "golden refusals", "golden import", "golden answers"]


def sizes():
    """Stations, events, messages, panels and questions of each day: none to few of each, more than can be listed, and every limit."""
    for k in range(320):
        yield 1 + k % 5, k % 11, k % 4, k % 3 == 0, 16
    for k in range(24):
        yield 3 + k % 6, 20 + 4 * k, 5 + k, k % 2 == 0, 16
    yield from [(8, 254, 64, True, 16), (8, 254, 64, False, 16), (1, 254, 0, False, 16), (2, 254, 64, True, 16), (8, 0, 0, True, 16)]
    yield 1, 0, 0, False, 0


def lines_of(text, word):
    """The lines of a day that begin with a word."""
    return [k for k, line in enumerate(text.split("\n"), 1) if line.split()[:1] == [word]]


class Days:
    """One day after the other, in files of a folder of its own."""

    def __init__(self, program):
        self.proved, self.runs = Library(), Runs(program)

    def tried(self, seed, size):
        """A made-up day: its log, its words, and the answers to its questions."""
        day = made(seed, *size)
        spoken = day.spoken(Draw(seed))
        with tempfile.TemporaryDirectory() as folder:
            words, log = pathlib.Path(folder, "day.txt"), pathlib.Path(folder, "day.log")
            words.write_text(spoken)
            log.write_bytes(day.log())
            answers = Answers(day, day.log(), self.proved)
            answers.same(self.runs.answered("compile", words), day.log(), "compiled")
            self.written_back(answers, log, words)
            self.explained(answers, log, words)
            answers.same(self.runs.answered("ask", "--json", words), self.runs.answered("explain", "--json", log, words), "ask and explain")
            lines = [k for kind in ("event", "message", "question") for k in lines_of(spoken, kind)]
            answers.in_words(self.runs.answered("ask", words).decode(), lambda line: lines[line - 2])
        return answers.wrong, answers.met

    def example(self, path):
        """A log of examples/, or a day with its log as it is compiled."""
        text = path.read_text() if path.suffix == ".txt" else ""
        named = [re.findall(rf"^{kind}\s+(\S+)(?: = (\d+))?", text, re.M) for kind in ("station", "value")]
        with tempfile.TemporaryDirectory() as folder:
            log = pathlib.Path(folder, "day.log") if text else path
            if text:
                log.write_bytes(self.runs.answered("compile", path))
            day = of_log(log.read_bytes(), [name for name, _ in named[0]], [(name, int(v)) for name, v in named[1]])
            day.use(text)
            answers = Answers(day, log.read_bytes(), self.proved)
            self.written_back(answers, log, *([path] if text else []))
            self.explained(answers, log, *([path] if text else []))
        return answers.wrong, answers.met

    def written_back(self, answers, log, *names):
        """A log as words, with names and without, and the words as a log."""
        back = self.runs.answered("explain", "--words", log, *names)
        answers.same(back.decode(), answers.day.words(), "written back")
        answers.same(self.runs.answered("compile", "-", back), answers.data, "written back and compiled")
        plain = self.runs.answered("explain", "--words", log)
        answers.same(self.runs.answered("compile", "-", plain), answers.data, "written back without names and compiled")

    def explained(self, answers, log, *names):
        answers.as_json(self.runs.answered("explain", "--json", log, *names))
        answers.in_words(self.runs.answered("explain", log, *names).decode(), lambda line: line, True)

    def refused(self, seed):
        """A day whose last question is not taken: by the words where it has too many tokens or atoms, else by the proved code."""
        day = refused(seed)
        words = day.spoken(Draw(seed))
        line = lines_of(words, "question")[-1]
        try:
            read(day.log(), OPERATIONS)
        except Refused as r:
            number = r.number
        long = tokens(day.questions[-1]) > 32 or len(atoms(day.questions[-1])) > 12
        code, due = (2, f"standard input:{line}: ") if long else (1, f"standard input:{line}: refused ({number})")
        wrong = []
        for command in ("compile", "ask"):
            done = self.runs.run(command, "-", words.encode())
            if (done.returncode, done.stdout) != (code, b"") or not done.stderr.decode().startswith(due):
                wrong.append(f"floor {command}, {due}: exit code {done.returncode}, {done.stderr.decode()}")
        return wrong, Counter({f"refused with {number}, exit code {code}": 1})


# RUNS

def begun(program):
    """Each process of the pool has its own library and runs."""
    global DAYS
    DAYS = Days(program)


def done(kind, *given):
    """One job: the differences and what was met."""
    if kind == "day":
        return DAYS.tried(*given)
    if kind == "example":
        return DAYS.example(*given)
    if kind == "refused":
        return DAYS.refused(*given)
    if kind == "import":
        return imports.tried(DAYS.runs, *given), Counter({"imported": 1})
    if kind == "hostile":
        codes, wrong = commands.hostile(DAYS.runs, *given)
        return wrong, Counter({f"hostile, exit code {code}": count for code, count in codes.items()})
    if kind == "golden":
        count, wrong = golden.tried(DAYS.runs)
        return wrong, Counter({f"golden {folder}": k for folder, k in count.items()})
    return [*commands.ended(DAYS.runs), *commands.screen(DAYS.runs), *commands.shut(DAYS.runs), *commands.endless(DAYS.runs)], Counter()


def work(job):
    """A job, and where its differences are; what cannot be read is one too."""
    try:
        wrong, met = done(*job)
    except Exception as fault:
        wrong, met = [f"{type(fault).__name__}: {fault}"], Counter()
    return [f"{job}: {told}" for told in wrong], met


def jobs():
    yield from (("day", SEED + k, size) for k, size in sorted(enumerate(sizes()), key=lambda pair: -pair[1][1]))
    yield from (("example", path) for path in golden.examples())
    yield from (("refused", SEED + k) for k in range(40))
    yield from (("import", SEED + k) for k in range(60))
    yield from (("hostile", k, HOSTILE) for k in range(HOSTILE))
    yield from [("golden",), ("commands",)]


def main():
    words = [w for w in sys.argv[1:] if w != "--golden"]
    program = pathlib.Path(words[0] if words else ROOT / "target" / "cargo" / "release" / "floor").resolve()
    if not program.exists():
        sys.exit(f"{program} is not there: run cargo build --release -p floor")
    if "--golden" in sys.argv:
        changed, wrong = golden.written(Runs(program))
        print("".join(f"{told}\n" for told in wrong) + f"{changed} golden files changed: look them through")
        sys.exit(bool(wrong))
    start, met, wrong = time.monotonic(), Counter(), []
    with ProcessPoolExecutor(AT_ONCE, initializer=begun, initargs=(program,)) as pool:
        for told, found in pool.map(work, jobs(), chunksize=4):
            met += found
            wrong += told
    wrong += [f"{kind}: met {met[kind]} times, too seldom" for kind in KINDS if met[kind] < FEW.get(kind, OFTEN)]
    for kind in dict.fromkeys(told.split(",")[0] for told in wrong):
        print("".join(f"{told[:LONG]}\n" for told in [x for x in wrong if x.split(",")[0] == kind][:SHOWN]), end="")
    print(f"floor: {', '.join(f'{kind} {count}' for kind, count in sorted(met.items()))}")
    print(f"floor: {sum(1 for _ in jobs())} jobs in {time.monotonic() - start:.0f} s, {len(wrong)} differences")
    sys.exit(bool(wrong))


if __name__ == "__main__":
    main()
