#!/usr/bin/env python3
"""Two halls, one log: the second hall's log is merged with the first's, and a question about both is put to the merged log.

Usage: halls.py      after `tools/build.sh exports`
For each question it prints the answer line as it is, and the line in words: on each hall's own log, on the merged log, and on the merged
log with the question about both halls in it.
"""
import pathlib

from ask import Library, words

EXAMPLES = pathlib.Path(__file__).resolve().parent

# Station 0, the first hall's desk, in 60..60 and station 3 in 50..50: the mill, station 0 of the second hall, behind the first's three.
BOTH_HALLS = bytes.fromhex("30 03 01 00 003C 003C 01 03 0032 0032")


def show(library, title, log, since=0):
    """The answers to a log's questions, from one on."""
    counts = library.read(log)
    print(f"{title}: {counts.stations} stations, {counts.events} events")
    for question in range(since, counts.questions):
        answer = library.answer(log, question)
        print(f"  question {question}: {answer.line}\n    {words(answer)}")


def main():
    library = Library()
    first, second = ((EXAMPLES / name).read_bytes() for name in ("conveyor.log", "second-hall.log"))
    show(library, "the first hall", first)
    show(library, "the second hall", second)
    merged = library.merge(first, second)
    show(library, "both halls, the first's questions", merged)
    asked = library.write([*library.frames(merged), BOTH_HALLS])
    show(library, "both halls, a question about both", asked, library.read(merged).questions)


if __name__ == "__main__":
    main()
