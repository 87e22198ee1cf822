"""Cases with silent stations that were worked out by hand, and each operation on them: Answer, Forecast and the program, Holds at every
cut, bases, Read and Write; and Holds at every cut of drawn logs that are answered otherwise than before document 02's ticket 7.
"""
import sys

import bases
from bench_cases import NEVER, RECEIVED, holds, in_each_way, one_by_one
from frames import Draw, atom, case, clear, computation, formula, frames_of, log_of, panel, respelled, with_panel, word
from listing import LIST, OPERATIONS, SILENT, Listing, read
from read_write import entries, outcome
from silent import before, muted, numbered, ranged, silenced

HELD = 40  # the drawn logs

# The bench log, with consistent cuts (0,0) (0,1) (1,0) (1,1) (1,2), as one in which all are silent throughout; station 0 speaks, 0, and then
# is silent; station 0 is silent and then speaks, 5, and station 1 is silent in between; and one with panels, some of them FFFF.
CLOCKS = [(0, [1, 0]), (1, [0, 1]), (1, [1, 2])]


def bench(first, then):
    """Header and events of the bench log, with what the stations report: a value each, or a value and a panel."""
    each = lambda report: [b for number in report for b in word(number)]
    header = [0x0F + len(first[0]), 2] + [b for report in first for b in each(report)]
    return log_of([header] + [[0x20, s] + each(report) + clock for (s, clock), report in zip(CLOCKS, then)])


NOBODY = bench([[SILENT], [SILENT]], [[SILENT], [SILENT], [SILENT]])
LATER = bench([[0], [0]], [[SILENT], [1], [2]])
AT_FIRST = bench([[SILENT], [0]], [[5], [SILENT], [2]])
PANELS = bench([[0, SILENT], [SILENT, 2]], [[SILENT, 9], [1, SILENT], [SILENT, SILENT]])
ALL, NOTHING = b"400101010200000000BB\n", b"40000000000000C0\n"  # yes, (1,2), 0 rounds; no, nothing, 0 rounds
LAST, FIRST, WHILE = b"400001010200000000BC\n", b"400101000100000000BD\n", b"400001010100000000BD\n"  # no, (1,2); yes, (0,1); no, (1,1)
P, R = atom(0, 0, 5), atom(1, 0, 0)
BY_HAND = [
    # Nobody speaks: P is true nowhere and false nowhere, and so is "not P".
    (NOBODY, [], P, NOTHING),
    (NOBODY, [], [2] + P, NOTHING),
    (NOBODY, [], [2, 2] + P, NOTHING),
    # Always P is true at the start, where P is nowhere true: it is nowhere false. So is always not P, and always both.
    (NOBODY, [], [6] + P, ALL),
    (NOBODY, [], [6, 2] + P, ALL),
    (NOBODY, [], [6, 3] + P + [2] + P, ALL),
    (NOBODY, [], [2, 6] + P, NOTHING),
    # Possibly P is false, as is possibly not P: neither operand is true anywhere.
    (NOBODY, [], [5] + P, NOTHING),
    (NOBODY, [], [2, 5] + P, ALL),
    (NOBODY, [], [5, 2] + P, NOTHING),
    (NOBODY, [], [2, 5, 2] + P, ALL),
    # P or not P is not true, and P and not P has no pair, so that there are no rounds.
    (NOBODY, [], [4] + P + [2] + P, NOTHING),
    (NOBODY, [], [3] + P + [2] + P, NOTHING),
    # No range has FFFF inside, nor outside: all values, FFFF alone, through zero, one above.
    (NOBODY, [], atom(0, 0, SILENT), NOTHING),
    (NOBODY, [], [2] + atom(0, 0, SILENT), NOTHING),
    (NOBODY, [], atom(1, SILENT, SILENT), NOTHING),
    (NOBODY, [], [2] + atom(1, SILENT, SILENT), NOTHING),
    (NOBODY, [], atom(1, SILENT - 1, 3), NOTHING),
    (NOBODY, [], [2] + atom(1, SILENT - 1, 3), NOTHING),
    (NOBODY, [], atom(0, 5, 4), NOTHING),
    (NOBODY, [], [2] + atom(0, 5, 4), NOTHING),
    # Panels are 0, and messages are not silent.
    (NOBODY, [], panel(0, 0, 0), ALL),
    (NOBODY, [NEVER], clear(), FIRST),
    # Station 0 speaks at (0,0) and (0,1) alone: there its value, 0, is in 0..FFFF, in FFFF..1 through zero, in 1..0, and outside 1..FFFF.
    (LATER, [], atom(0, 0, SILENT), FIRST),
    (LATER, [], atom(0, SILENT, 1), FIRST),
    (LATER, [], atom(0, 1, 0), FIRST),
    (LATER, [], [2] + atom(0, 1, SILENT), FIRST),
    (LATER, [], [2] + atom(0, 1, 1), FIRST),
    # It is never outside 0..5, so always P is true; inside at the start, so possibly P is true as far as (0,1).
    (LATER, [], [2] + P, NOTHING),
    (LATER, [], [6] + P, ALL),
    (LATER, [], [5] + P, FIRST),
    (LATER, [], [2, 5] + P, LAST),
    # It is outside 5..5 up to (0,1), so always in 5..5 is true from (1,0) on, though it is nowhere true.
    (LATER, [], [6] + atom(0, 5, 5), LAST),
    # P or station 1 in 1..1: (0,0) (0,1) by P, (0,1) (1,1) by the other side.
    (LATER, [], [4] + P + atom(1, 1, 1), b"400101010100000000BC\n"),
    # Not (0 in 5..5 or 1 in 5..5): both outside, (0,0) and (0,1). One round a start: (1,0) and (1,2) come to none in the left set.
    (LATER, [], [2, 4] + atom(0, 5, 5) + atom(1, 5, 5), b"400101000100000004B9\n"),
    # Not (P and 1 in 0..0): false is one side alone, P nowhere, and the other at (0,1) (1,1) (1,2).
    (LATER, [], [2, 3] + P + R, LAST),
    # Nothing on the way at (0,0) (0,1) (1,2), at the last of which station 0 is silent.
    (LATER, [RECEIVED], [3] + P + clear(), b"400101000100000004B9\n"),
    (LATER, [RECEIVED], [6, 2, 3] + P + clear(), b"400001010200000004B8\n"),
    (LATER, [RECEIVED], [6, 3] + P + clear(), b"501000069A\n"),
    # Always (not 07 or 0 in 1..9): false where nothing is on the way and the value is outside 1..9, (0,0) and (0,1); four rounds again.
    (LATER, [RECEIVED], [6, 4, 2] + clear() + atom(0, 1, 9), b"400001010200000004B8\n"),
    # Station 0 speaks from (1,0) on, with 5.
    (AT_FIRST, [], atom(0, 5, 5), LAST),
    (AT_FIRST, [], [2] + atom(0, 5, 5), NOTHING),
    (AT_FIRST, [], [6] + atom(0, 5, 5), ALL),
    (AT_FIRST, [], [5] + atom(0, 5, 5), ALL),
    (AT_FIRST, [], [4] + P + [2] + P, LAST),
    (AT_FIRST, [], [6, 4] + P + [2] + P, ALL),
    # Station 1 has 0 at (0,0) and (1,0), and 2 at (1,2): only there it is outside 0..0.
    (AT_FIRST, [], [2] + R, LAST),
    (AT_FIRST, [], R, b"400101010000000000BD\n"),
    (AT_FIRST, [], [6] + R, NOTHING),
    (AT_FIRST, [], [2, 6] + R, ALL),
    (AT_FIRST, [], [4] + R + [2] + R, ALL),
    (AT_FIRST, [], [5] + atom(1, SILENT, SILENT), NOTHING),
    # From (0,0), (1,0) and (0,1) two rounds each, to (1,2) and there; from (1,2) one.
    (AT_FIRST, [], [3] + atom(0, 5, 5) + [2] + R, b"400001010200000007B5\n"),
    # Panels: FFFF and then 9 at station 0, 2 and then FFFF at station 1. FFFF is inside or outside as 9 and 2 are.
    (PANELS, [], panel(0, SILENT, SILENT), FIRST),
    (PANELS, [], [2] + panel(0, SILENT, SILENT), LAST),
    (PANELS, [], panel(1, SILENT, SILENT), LAST),
    (PANELS, [], [2] + panel(1, 2, 2), LAST),
    (PANELS, [], panel(1, SILENT, 2), ALL),
    (PANELS, [], [2] + panel(1, SILENT, 2), NOTHING),
    (PANELS, [], [6] + panel(0, 9, 9), LAST),
    (PANELS, [], [4] + panel(0, 9, 9) + [2] + panel(0, 9, 9), ALL),
    # Values: 0 and then silent at station 0; silent, then 1, then silent at station 1.
    (PANELS, [], atom(1, SILENT, 2), WHILE),
    (PANELS, [], [2] + atom(0, 5, 5), FIRST),
    (PANELS, [], [2] + atom(1, SILENT, 2), NOTHING),
    (PANELS, [], [6] + atom(1, 1, 1), ALL),
    # Panels are asked for where values are silent: from (0,0), (1,0) and (0,1) two rounds each, to (1,1) and there; from (1,2) one.
    (PANELS, [], [3] + panel(0, 9, 9) + panel(1, SILENT, SILENT), b"400001010200000007B5\n"),
]
# Where Holds says yes, by hand: of the cuts at which P is silent, "P or not P" is true at none.
HELD_BY_HAND = [
    (LATER, [4] + P + [2] + P, [(0, 0), (0, 1)]),
    (LATER, [2] + atom(0, 5, 5), [(0, 0), (0, 1)]),
    (LATER, [6] + atom(0, 5, 5), [(1, 0), (1, 1), (1, 2)]),
    (LATER, [2, 3] + P + R, [(0, 1), (1, 1), (1, 2)]),
    (AT_FIRST, [2, 4] + atom(0, 6, 9) + R, [(1, 2)]),
    (AT_FIRST, [2, 3] + P + R, [(1, 2)]),
    (AT_FIRST, [4] + P + R, [(0, 0), (1, 0), (1, 1), (1, 2)]),
    (AT_FIRST, [3] + P + R, [(1, 0)]),
    (NOBODY, [6, 3] + P + [2] + P, [(0, 0), (0, 1), (1, 0), (1, 1), (1, 2)]),
    (NOBODY, [4] + P + [2] + P, []),
    (PANELS, panel(0, SILENT, SILENT), [(0, 0), (0, 1)]),
    (PANELS, atom(1, SILENT, 2), [(0, 1), (1, 1)]),
]
QUESTIONS = [
    P,
    [2] + P,
    [6] + P,
    [2, 6, 2] + P,
    [2, 5] + R,
    [5, 2] + R,
    [4] + P + [2] + P,
    [2, 3] + P + R,
    [2, 4] + atom(0, 6, 9) + R,
    [6, 4] + P + R,
    [6, 3] + R + atom(1, 1, SILENT),
    [3, 2] + atom(1, 1, 1) + [6] + atom(0, 0, 4),
    atom(0, SILENT, 4),
    [2] + atom(1, 2, 1),
    [3] + panel(0, 9, 0) + [2] + R,
    [6, 4] + panel(1, SILENT, SILENT) + [2] + atom(1, 0, 1),
]
HEADS = [NOBODY, LATER, AT_FIRST, PANELS]
LOGS = [head + log_of([0x30] + q for q in QUESTIONS) for head in HEADS]


def held_by_hand():
    """Holds at every cut, where it was worked out by hand at which it says yes."""
    for head, q, yes in HELD_BY_HAND:
        data = head + log_of([[0x30] + q])
        for cut in [(0, 0), (0, 1), (1, 0), (1, 1), (1, 2)]:
            made, printed = holds(data, 0, cut)
            if printed != (b"H yes\n" if cut in yes else b"H no\n"):
                sys.exit(f"{yes} by hand, not by the listing at {cut}: {q}")
            yield made, printed


def held(d):
    """Drawn logs of one question, answered otherwise than before, and Holds at each of their cuts."""
    for _ in range(HELD):
        while True:
            out, seen = muted(d, computation(d, 1 + d.below(3), 2 + d.below(3), 4, 2)[0])
            q = respelled(formula(d, len(seen), 1 + d.below(4)), lambda a, _: atom(a[1], *ranged(d, seen[a[1]])))
            out, q = d.pick([(out, q), (numbered(d, out), with_panel(d, q))])
            data = log_of(out + [[0x30] + q])
            listing = Listing(read(data, OPERATIONS))
            [f] = listing.log.questions
            if before(listing, f) != {*listing.true(f)}:
                break
        for cut in listing.cuts:
            yield holds(data, 0, cut)


def with_bases(d):
    """The bases of questions about such logs."""
    yield from LOGS
    for n, events, messages, panels in [(1, 7, 0, False), (2, 12, 0, False), (3, 15, 12, False), (4, 16, 0, True), (3, 40, 20, True),
                                        (8, 127, 64, True)]:
        yield silenced(bases.drawn(d, n, events, 12, messages, panels))


def cases(seed):
    """The cases of every operation and of the bases."""
    d = Draw(seed)
    yield from one_by_one([(head, []) for head in HEADS], QUESTIONS, (LATER, []))
    yield from in_each_way(LOGS, BY_HAND)
    yield from held_by_hand()
    yield from held(d)
    for log in with_bases(d):
        yield case("B", log), b"B\n" + bases.printed(log).encode()
    for log in LOGS:
        for letter, size, data in [("R", LIST, log), ("W", OPERATIONS.log, entries(frames_of(log)))]:
            yield case(letter, data, size=size), outcome(letter, size, data).encode()
