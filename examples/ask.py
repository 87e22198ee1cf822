#!/usr/bin/env python3
"""The moment finder's operations for Python, by the static library of the proved code, and a program that asks the questions of a log.

Usage: ask.py [FILE]      without FILE the log is read from standard input
Exit codes: 0 answered, 1 the log is refused, 2 wrong use, 3 the log cannot be read, the output not written, or the library not loaded
For each question it prints what the question can cost, the answer line as it is, and the line in words. As a module:

    from ask import Library
    answer = Library().answer(log, 0)      # of the bytes of a log; Refusal is raised where there is no answer

docs/FORMAT.md says what a log is, what its questions mean and what is refused.
"""
import ctypes
import os
import pathlib
import subprocess
import sys
import tempfile
from typing import NamedTuple

TARGET = pathlib.Path(__file__).resolve().parent.parent / "target"
ARCHIVE, SHARED = TARGET / "staticlib" / "libexports.a", TARGET / "libmoment.so"

# The most bytes of a log, which Write and Merge are lent; what Read, Answer and Holds are lent.
LOG, LIST, BARS, LINE = 16384, 8192, 8192, 273

# The functions called, with their parameters: a question is a number, and each other one a slice, a pointer and a length.
CALLS = {
    "moment_read": ["log", "out"],
    "moment_write": ["list", "out"],
    "moment_merge": ["log", "second", "out"],
    "moment_forecast": ["log", "question"],
    "moment_answer": ["log", "question", "ws", "bs", "out"],
    "moment_holds": ["log", "question", "cut", "ws", "bs"],
}


class Refusal(Exception):
    """Its number, 1 to 18, and the line of the log that is at fault, from 1, or 0 where no one line is."""

    def __init__(self, number, line):
        super().__init__(number, line)
        self.number, self.line = number, line

    def __str__(self):
        return f"refused {self.number}, line {self.line}"


class Read(NamedTuple):
    """The counts of stations, events and questions, and the length of the frame list."""
    stations: int
    events: int
    questions: int
    list: int


class Forecast(NamedTuple):
    """What a question can cost: width, bars, structures held, the bytes of workspace that these take, and a ceiling for the rounds."""
    width: int
    bars: int
    held: int
    cells: int
    ceiling: int


class Answer(NamedTuple):
    """Whether the question is true at the start; its greatest moments, each a count of events for each station; the rounds; the line."""
    start: bool
    moments: list
    rounds: int
    line: str


def shared():
    """The static library as a shared one, made where it is not there or older."""
    if not SHARED.exists() or SHARED.stat().st_mtime_ns < ARCHIVE.stat().st_mtime_ns:
        with tempfile.TemporaryDirectory(dir=TARGET) as folder:
            made = pathlib.Path(folder) / SHARED.name
            archive = ["-Wl,--whole-archive", ARCHIVE, "-Wl,--no-whole-archive"]
            subprocess.run(["gcc", "-shared", *archive, "-o", made], check=True)
            os.replace(made, SHARED)
    return SHARED


def split(number, *widths):
    """The parts of a number, of so many bits each, the lowest first."""
    for width in widths:
        yield number % (1 << width)
        number >>= width


class Library:
    """The operations. Nothing is kept between calls, so several threads may use one object."""

    def __init__(self, path=None):
        self.library = ctypes.CDLL(os.fspath(path or shared()))
        for name, parameters in CALLS.items():
            call = getattr(self.library, name)
            call.restype = ctypes.c_uint64
            call.argtypes = [t for p in parameters for t in ([ctypes.c_size_t] if p == "question" else [ctypes.c_char_p, ctypes.c_size_t])]

    def _call(self, name, *arguments):
        """A function's reply. A question's number that does not go into 64 bits is the largest that does: there is no such question."""
        last, lent = 2**64 - 1, []
        for parameter, value in zip(CALLS[name], arguments):
            lent += [value if 0 <= value <= last else last] if parameter == "question" else [value, len(value)]
        reply = getattr(self.library, name)(*lent)
        if reply >> 59:
            raise Refusal(reply >> 59, reply % (1 << 59))
        return reply

    def _read(self, log):
        """The counts of a log, and its frame list."""
        out = ctypes.create_string_buffer(LIST)
        counts = Read(*split(self._call("moment_read", bytes(memoryview(log)), out), 8, 8, 8, 16))
        return counts, out.raw[:counts.list]

    def read(self, log):
        """The counts of a log."""
        return self._read(log)[0]

    def frames(self, log):
        """The frames of a log, each without its check byte."""
        frames, rest = [], self._read(log)[1]
        while rest:
            size = rest[0] + 1
            frames.append(rest[1:size])
            rest = rest[size:]
        return frames

    def _log(self, name, *arguments):
        """The log that a function writes."""
        out = ctypes.create_string_buffer(LOG)
        length = self._call(name, *arguments, out)
        return out.raw[:length]

    def write(self, frames):
        """The log of frames, each without its check byte. A frame whose length is no byte has the length 0, which is refused."""
        sized = [(len(frame) if len(frame) < 256 else 0, frame) for frame in map(bytes, frames)]
        return self._log("moment_write", b"".join(bytes([size]) + frame for size, frame in sized))

    def merge(self, log, second):
        """The log that two logs make: the stations of the second numbered on behind those of the first, and the questions of the first.
        A refusal's line is that of the log refused: of the first if `read` refuses it, else of the second."""
        return self._log("moment_merge", bytes(memoryview(log)), bytes(memoryview(second)))

    def forecast(self, log, question):
        """What a question, numbered from 0, can cost."""
        return Forecast(*split(self._call("moment_forecast", bytes(memoryview(log)), question), 5, 5, 6, 17, 24))

    def _room(self, log, question):
        """Workspace and bar space for a question."""
        return [ctypes.create_string_buffer(n) for n in (self.forecast(log, question).cells, BARS)]

    def answer(self, log, question):
        """The answer to a question, numbered from 0."""
        log, out = bytes(memoryview(log)), ctypes.create_string_buffer(LINE)
        length = self._call("moment_answer", log, question, *self._room(log, question), out)
        line = out.raw[:length].decode().rstrip("\n")
        _, start, listed, *cuts = bytes.fromhex(line)[:-5]
        stations = len(cuts) // max(listed, 1)
        moments = [tuple(cuts[m * stations:(m + 1) * stations]) for m in range(listed)]
        return Answer(start == 1, moments, int.from_bytes(bytes.fromhex(line)[-5:-1], "big"), line)

    def holds(self, log, question, cut):
        """Whether a question, numbered from 0, is true at a consistent cut, a count of events for each station. No is false or neither."""
        log = bytes(memoryview(log))
        return self._call("moment_holds", log, question, bytes(tuple(cut)), *self._room(log, question)) == 1


def words(answer):
    """The answer in words: whether the question is true at the start, and its greatest moments."""
    moments = " ".join("(" + ",".join(map(str, m)) + ")" for m in answer.moments)
    told = f"greatest moments: {moments}" if moments else "never, in any order that the messages allow"
    return f"at the start: {'yes' if answer.start else 'no'}; {told}"


def told(library, log):
    """What is printed for a log, and the exit code."""
    lines = []
    try:
        for question in range(library.read(log).questions):
            costs, answer = library.forecast(log, question), library.answer(log, question)
            figures = ", ".join(f"{name} {n}" for name, n in costs._asdict().items())
            lines += [f"question {question}: {figures}", answer.line, words(answer)]
    except Refusal as refusal:
        return f"{refusal}\n", 1
    return "".join(f"{line}\n" for line in lines), 0


def failed(name, why):
    """A file that cannot be read or written, or the library not loaded."""
    print(f"ask: {name}: {why}", file=sys.stderr)
    return 3


def main(arguments):
    if len(arguments) > 1:
        print("usage: ask [FILE]", file=sys.stderr)
        return 2
    name = arguments[0] if arguments else "standard input"
    try:
        library = Library()
    except (OSError, subprocess.CalledProcessError) as why:
        return failed("the library", f"{why} (`tools/build.sh exports` makes the static one, gcc the shared one)")
    try:
        # One byte more than a log may have tells a longer one, which is refused.
        with open(name if arguments else 0, "rb", closefd=bool(arguments)) as file:
            log = file.read(LOG + 1)
    except OSError as why:
        return failed(name, why.strerror)
    text, code = told(library, log)
    try:
        with open(1, "wb", closefd=False) as file:
            file.write(text.encode())
    except OSError as why:
        return failed("standard output", why.strerror)
    return code


if __name__ == "__main__":
    sys.exit(main(sys.argv[1:]))
