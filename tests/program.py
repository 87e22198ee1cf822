#!/usr/bin/env python3
"""Runs the built program on files of its own, and compares what it writes with document 01 by a plain listing of every cut.

Usage: program.py      after `tools/build.sh moments`; exit code 1 on any difference
Each file goes in as a file, through a pipe at once, and in two writes; short ones also one byte at a time. A refusal is worked out by
hand besides, and where a log has too many cuts to list them the answer is by the rule of the basis. The logs of examples/ go in with
what README.md shows for each.
"""
import pathlib
import re
import subprocess
import sys
import tempfile
import time
from concurrent.futures import ThreadPoolExecutor

from bases import answered
from bench_cases import (ALL, BENCH, BY_HAND, CONVEYORS, HEAD, HEADER, MESSAGES_65, OUTLINES, PANELS_BY_HAND, RECEIVED, WIDE18, ZERO, by_hand,
                         chain, ladder)
from frames import (ONE, Draw, atom, clear, drawn_panels, exactly, in_turn, log_of, message, padded, panel, panelled, sendings, valued,
                    with_panel, word)
from listing import OPERATIONS, PROGRAM, SILENT, atoms, encode, printed, read, size, tokens
from read_write import FRAMES, LONGEST, full_log
from silent_cases import BY_HAND as SILENT_BY_HAND
from silent_cases import LOGS as SILENCES
from silent_cases import NOTHING

ROOT = pathlib.Path(__file__).resolve().parent.parent
MOMENTS = ROOT / "target" / "bin" / "moments"
SHORT, PAUSE, LIMIT = 100, 0.05, 60
AT_ONCE = 8  # files that are tried at a time: most of a run is waiting between two writes


def refusal(number, line):
    return encode([0x50, number, *word(line)])


# FILES

def question(d, lead, clears):
    """Four two-way ors and four tokens 01 joined by and, with a lead: width 16, 32 tokens, 12 of them 01, or so many of these 07."""
    parts = [atom(d.below(8), d.below(2), 2 + d.below(2)) for _ in range(12 - clears)]
    parts += [clear(d.below(8), d.below(8)) for _ in range(clears)]
    for i in range(9 - len(lead)):
        parts[i] = [d.pick([2, 5, 6])] + parts[i]
    ors = [[4] + parts[2 * i] + parts[2 * i + 1] for i in range(4)]
    return lead + [3] * 7 + [b for p in ors + parts[8:] for b in p]


def at_every_limit(messages=0, panels=False, values=None):
    """8 stations, 127 events, so many messages, panels or none, 16 questions, each with the most tokens, atoms, and width or bars: without
    messages and panels the longest log of that kind, and with some questions about them too. Values are 0 to 3, or those given."""
    d = Draw(20261116)
    frames, last = [[0x10, 8] + [b for _ in range(8) for b in word(d.below(4))]], [[0] * 8 for _ in range(8)]
    for i in range(PROGRAM.events):
        s = i % 8
        last[s] = [max(pair) + (j == s) for j, pair in enumerate(zip(last[s], last[d.below(8)]))]
        frames.append([0x20, s] + word(d.below(4)) + last[s])
    frames = valued(frames, lambda s: d.pick(values)) if values else frames
    frames += sendings(d, frames, messages) if messages else []
    questions = [question(d, [[2, 2], [2, 5], [5], [6, 2]][i % 4], 3 if messages else 0) for i in range(16)]
    if panels:
        frames, questions = drawn_panels(d, frames, 4)[0], [with_panel(d, q) for q in questions]
    return log_of(frames + [[0x30] + q for q in questions])


def examples():
    """The logs of examples/, each with the lines that README.md shows for it."""
    shown = re.findall(r"^    \$ \./answer\.sh (\S+)\n((?:    \S+\n)+)", (ROOT / "README.md").read_text(), re.M)
    if sorted(name for name, _ in shown) != sorted(str(path.relative_to(ROOT)) for path in (ROOT / "examples").glob("*.log")):
        sys.exit("README.md does not show each log of examples/ once")
    for name, lines in shown:
        yield name, (ROOT / name).read_bytes(), lines.replace(" ", "").encode()


def over():
    """Logs that the operations take, or refuse with something else: the program has its own limits from the first line on."""
    events, at_129 = log_of([ONE] + in_turn(1, 128, lambda i: i % 3)), refusal(4, 129)
    yield "128 events, then no line", events + b"G\n", at_129
    yield "128 events, then a wrong check byte", events + b"3000\n", at_129
    yield "128 events, then no formula", events + encode([0x30]), at_129
    yield "128 events, the last one too short", log_of([ONE] + in_turn(1, 127, lambda i: i % 3) + [[0x20]]), at_129
    yield "128 events, the last one's clock wrong", log_of([ONE] + in_turn(1, 127, lambda i: i % 3) + [[0x20, 0, 0, 0, 127]]), at_129
    yield "254 events", chain(254), at_129
    yield "254 events of eight stations, 8,192 bytes", full_log(PROGRAM.log, 7), at_129
    yield "254 events of eight stations, 8,193 bytes", full_log(PROGRAM.log + 1, 8), refusal(1, 0)
    yield "the longest that the operations take", LONGEST, refusal(1, 0)


# Frames of read_write.py that are refused at their last one, and with which number: about messages, and about panels.
MESSAGES_AT_FAULT = {
    "message first": 4,
    "message after a question": 4,
    "event after a message": 4,
    "message too short": 15,
    "message too long": 15,
    "sender not there": 15,
    "receiver not there, never received": 15,
    "sender's event 0": 15,
    "sender's event too large, never received": 15,
    "receiver's event too large": 15,
    "sender equal to receiver": 15,
    "receiving clock counts one less": 15,
    "07 with one operand": 8,
    "07, station of the sender not there": 8,
    "07, station of the receiver not there": 8,
    "13 tokens 07": 9,
    "13 tokens 07 as false": 9,
    "12 tokens 07 as false": 16,
    "not 07": 16,
    "always 07": 16,
    "not always 07": 16,
    "not of or with 07 right": 16,
}
PANELS_AT_FAULT = {
    "header 11 after header 10": 4,
    "header 10 after header 11": 4,
    "header 11 after header 11 and an event": 4,
    "header 11 after header 10 and a message": 4,
    "header 11 after header 11 and a question": 4,
    "second header 11 of one byte": 4,
    "event with a panel first": 4,
    "65 messages under header 11": 4,
    "header 11, no stations": 5,
    "header 11, nine stations": 5,
    "header 11 of one byte": 5,
    "header 11 of the length of 10": 5,
    "header 10 of the length of 11": 5,
    "header 11 too short": 5,
    "header 11 too long": 5,
    "header 11 without its last panel": 5,
    "event of header 10 under header 11": 6,
    "event of header 11 under header 10": 6,
    "event under header 11, of one byte": 6,
    "event under header 11 too short": 6,
    "event under header 11 too long": 6,
    "event under header 11, station not there": 6,
    "event under header 11, panel behind the clock": 7,
    "event under header 11, own entry 2": 7,
    "event under header 11, other entry too high": 7,
    "event under header 11, clock below the one before": 7,
    "message under header 11, receiving clock counts none": 15,
    "08 and no more": 8,
    "08 cut short by a byte": 8,
    "08 with a trailing byte": 8,
    "08, station not there": 8,
    "08, station not there, under header 10": 8,
    "13 tokens 08": 9,
    "13 tokens 01, 07 and 08": 9,
    "13 tokens 01 and 08 as false": 9,
    "13 tokens 01, 07 and 08 as false": 9,
    "33 tokens with 08": 9,
    "width 18 with 08": 9,
    "12 tokens 01, 07 and 08 as false": 16,
    "08 as true, 07 as false": 16,
}


def conveyors():
    """Logs with messages: questions about them, both sides of 64, and each refusal that is new with them."""
    full = at_every_limit(64)
    for data in CONVEYORS:
        yield "sixteen questions about messages", data, None
    for data, line in by_hand(BY_HAND):
        yield "a question about messages, worked out by hand", data, line
    yield "every limit, 64 messages", full, None
    yield "every limit, 64 messages, without the last 0A", full[:-1], refusal(2, 208)
    yield "8,192 bytes, 64 messages, the 17th question at line 209", padded(full, PROGRAM.log), refusal(4, 209)
    yield "64 messages", HEAD + log_of([RECEIVED] * 64 + [[0x30] + clear()]), b"400101010200000000BB\n"
    yield "65 messages", MESSAGES_65, refusal(4, 69)
    for name in [name for name in FRAMES if name.startswith("65th message")]:
        yield name, log_of(FRAMES[name]), refusal(4, 69)
    yield "128 events, then a message", log_of([ONE] + in_turn(1, 128, lambda i: i % 3) + [message(0, 1, 0)]), refusal(4, 129)
    yield "127 events, then a message at fault", log_of([ONE] + in_turn(1, 127, lambda i: i % 3) + [message(0, 1, 0)]), refusal(15, 129)
    for name, number in MESSAGES_AT_FAULT.items():
        yield name, log_of(FRAMES[name]), refusal(number, len(FRAMES[name]))


def outlines():
    """Logs with panels: questions about them, both sides of the most events and bytes, and each refusal that is new with them."""
    full, longest = at_every_limit(64, True), exactly(7864, log_of(FRAMES["the longest of 127 events with panels"]))
    events = panelled([ONE] + in_turn(1, 128, lambda i: i % 3), lambda s: 12)
    for data in OUTLINES:
        yield "sixteen questions about panels", data, None
    for data, line in by_hand(PANELS_BY_HAND):
        yield "a question about panels, worked out by hand", data, line
    yield "every limit, 64 messages and panels", full, None
    yield "the longest, 7,864 bytes, with panels", longest, None
    yield "the longest with panels, without the last 0A", longest[:-1], refusal(2, 208)
    yield "8,192 bytes with panels, the 17th question at line 209", padded(longest, PROGRAM.log), refusal(4, 209)
    yield "8,193 bytes with panels", padded(longest, PROGRAM.log + 1), refusal(1, 0)
    yield "11,801 bytes with panels, which the operations take", exactly(11801, log_of(FRAMES["the longest with panels"])), refusal(1, 0)
    yield "127 events with panels", log_of(events[:-1] + [[0x30] + panel(0, 12, 12)]), b"4001017F000000003F\n"
    yield "128 events with panels", log_of(events), refusal(4, 129)
    yield "128 events with panels, the last one as short as without", log_of(events[:-1] + [events[-1][:-2]]), refusal(4, 129)
    yield "254 events with panels", log_of(FRAMES["254 events with panels"]), refusal(4, 129)
    for name, number in PANELS_AT_FAULT.items():
        yield name, log_of(FRAMES[name]), refusal(number, len(FRAMES[name]))


def together(worked_out):
    """Logs that were worked out by hand, with up to 16 questions each where they are alike before the question and not refused."""
    alike = {}
    for head, messages, q, lines in worked_out:
        log, question = head + log_of(messages), encode([0x30] + q)
        if lines.startswith(b"40"):
            alike.setdefault(log, []).append((question, lines))
        else:
            yield log + question, lines
    for log, asked in alike.items():
        for k in range(0, len(asked), 16):
            questions, lines = zip(*asked[k:k + 16])
            yield log + b"".join(questions), b"".join(lines)


def silences():
    """Logs with silent stations: questions about them, every limit, and refusals, which are as they were."""
    events = [ONE] + in_turn(1, 128, lambda i: SILENT)
    often, full = [0, 1, 2, SILENT], at_every_limit(64, True, [0, 3, SILENT])
    for data in SILENCES:
        yield "sixteen questions about silent stations", data, None
    for data, lines in together(SILENT_BY_HAND):
        yield "questions about silent stations, worked out by hand", data, lines
    yield "every limit, silent stations", at_every_limit(0, False, often), None
    yield "every limit, messages, panels and silent stations", full, None
    yield "every limit, all stations silent", at_every_limit(0, False, [SILENT]), None
    yield "every limit, silent stations, without the last 0A", full[:-1], refusal(2, 208)
    yield "8,192 bytes with silent stations, the 17th question at line 209", padded(full, PROGRAM.log), refusal(4, 209)
    yield "127 events, silent but for the header: inside", log_of(events[:-1] + [[0x30] + atom(0, 0, SILENT)]), b"4001010000000000BE\n"
    yield "127 events, silent but for the header: outside", log_of(events[:-1] + [[0x30, 2] + atom(0, 0, 0)]), NOTHING
    yield "127 events, silent but for the header: always", log_of(events[:-1] + [[0x30, 6] + atom(0, 0, 0)]), b"4001017F000000003F\n"
    yield "128 events, silent", log_of(events), refusal(4, 129)


def files():
    """A name, the bytes, and what is to be printed where that is worked out by hand."""
    long, full = refusal(1, 0), at_every_limit()
    for length in (PROGRAM.log + 1, OPERATIONS.log, OPERATIONS.log + 1, 100000):
        yield f"{length} bytes of lines in order", padded(full, length), long
        yield f"{length} bytes, no line", b"G" * length, long
        yield f"{length} bytes of 0A", b"\n" * length, long
        yield f"{length} bytes, an answer's first", BENCH + b"\0" * (length - len(BENCH)), long
    yield "8,192 bytes, the 17th question at line 145", padded(full, PROGRAM.log), refusal(4, 145)
    yield "8,192 bytes, the 128th event at line 129", padded(chain(128), PROGRAM.log), refusal(4, 129)
    yield "8,192 bytes, the first fault at line 5, no 0A at the end", padded(HEAD, PROGRAM.log - 20) + b"0" * 20, refusal(9, 5)
    yield "8,192 bytes, no line", b"0" * PROGRAM.log, refusal(2, 1)
    yield "8,191 bytes, no line", b"0" * (PROGRAM.log - 1), refusal(2, 1)
    yield "a good log and one byte", full + b"0", refusal(2, 145)
    yield "every limit", full, None
    yield "every limit, without the last 0A", full[:-1], refusal(2, 144)
    yield "empty", b"", refusal(4, 1)
    yield "0A alone", b"\n", refusal(2, 1)
    yield "a header", HEADER, b""
    yield "no question", HEAD, b""
    yield "bench", BENCH, b"400001010100000007B6\n"
    yield "bench, sixteen questions", ALL, None
    yield "without the last 0A", BENCH[:-1], refusal(2, 5)
    yield "CR LF", BENCH.replace(b"\n", b"\r\n"), refusal(2, 1)
    yield "CR LF at the end", BENCH[:-1] + b"\r\n", refusal(2, 5)
    yield "lower case", BENCH.lower(), refusal(2, 1)
    yield "an empty line at the end", BENCH + b"\n", refusal(2, 6)
    yield "a byte 00 at the end", BENCH + b"\0", refusal(2, 6)
    yield "127 events", chain(127), None
    yield "128 events", chain(128), refusal(4, 129)
    yield from over()
    yield "width 18", WIDE18, refusal(9, 5)
    yield "ladder of 3 stations", ladder(3, 24), None
    yield "ladder of 8 stations", ladder(8, 127), None
    yield "ranges through zero", ZERO, None
    yield from conveyors()
    yield from outlines()
    yield from silences()
    yield from examples()


# RUNS

def from_file(data):
    with tempfile.TemporaryFile() as file:
        file.write(data)
        file.seek(0)
        return subprocess.run([MOMENTS], stdin=file, capture_output=True, timeout=LIMIT)


def from_pipe(data):
    return subprocess.run([MOMENTS], input=data, capture_output=True, timeout=LIMIT)


def in_writes(parts, pause):
    """The parts one after the other, so that the program gets each before the next is there."""
    program = subprocess.Popen([MOMENTS], stdin=subprocess.PIPE, stdout=subprocess.PIPE, stderr=subprocess.PIPE)
    try:
        for part in parts:
            program.stdin.write(part)
            program.stdin.flush()
            time.sleep(pause)
    except BrokenPipeError:
        pass
    out, error = program.communicate(timeout=LIMIT)
    return subprocess.CompletedProcess([MOMENTS], program.returncode, out, error)


def ways(data):
    """How a file goes in, and what comes of it."""
    yield "from a file", from_file(data)
    yield "through a pipe", from_pipe(data)
    yield "in two writes", in_writes([data[: len(data) // 2], data[len(data) // 2 :]], PAUSE)
    if len(data) <= SHORT:
        yield "byte by byte", in_writes([bytes([b]) for b in data], PAUSE / 10)


def at_limits(data):
    """Each question's tokens and atoms, and the greatest width or bar count at a token of it."""
    for f in read(data, PROGRAM).questions:
        seen = []
        size(f, True, seen)
        yield tokens(f), len(atoms(f)), max(map(max, seen))


def tried(name, data, by_hand):
    """What is due for a file, and what came of it in each way."""
    due = printed(data, answered)
    if by_hand not in (None, due):
        sys.exit(f"{name}: {by_hand} by hand, {due} by the listing")
    return name, due, [*ways(data)]


def main():
    if not MOMENTS.exists():
        sys.exit("target/bin/moments is not there: run tools/build.sh moments")
    limits = [at_every_limit(), at_every_limit(64), at_every_limit(64, True), at_every_limit(64, True, [0, SILENT])]
    if {at for data in limits for at in at_limits(data)} != {(32, 12, 16)}:
        sys.exit("a question is not at every limit")
    cases = wrong = 0
    with ThreadPoolExecutor(AT_ONCE) as pool:
        for name, due, runs in pool.map(lambda file: tried(*file), files()):
            for way, run in runs:
                cases += 1
                if (run.stdout, run.stderr, run.returncode) != (due, b"", 0):
                    wrong += 1
                    print(f"{name}, {way}: {due} is due\n  but there is {run.stdout}, {run.stderr}, exit code {run.returncode}")
    print(f"program: {cases} runs, {wrong} wrong")
    sys.exit(wrong > 0)


if __name__ == "__main__":
    main()
