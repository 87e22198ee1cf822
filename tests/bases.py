"""Logs with questions, and the basis of each question by document 01's rule.

The bench log and others, up to 8 stations, 127 events and a width of 16. A set of cuts is kept as the function that raises a cut in
it, never as rows, so that no code or shape is shared with the product. Where the cuts are few a plain listing has to agree.
"""
import sys
from functools import cache

from bench_cases import ALL, CONVEYORS, OUTLINES, ZERO, chain, ladder
from frames import Draw, asked_of, atom, case, computation, drawn_panels, formula, log_of, sendings, with_clear, with_panel
from listing import OPERATIONS, PROGRAM, Listing, Refused, Walk, admit, answer_line, answers, contained, cuts, read, stations, verdict

LISTED = 500


def join(c, d):
    return tuple(map(max, c, d))


class Structure:
    """A set of cuts with bars: its raising function, its least and its greatest cut."""

    def __init__(self, raised, least, top, bars):
        self.raised, self.least, self.top, self.bars = raised, least, top, bars

    def has(self, c):
        return self.raised(c) == c and not any(contained(c, b) for b in self.bars)


class Rule(Walk):
    """The bases of a log's questions, and the rounds of the one worked out last."""

    def kept(self, raised, bars):
        """A structure, unless it is dropped."""
        raised = cache(raised)
        least = top = raised(self.empty)
        if least is None:
            return []
        for c in map(raised, self.starts):
            top = top if c is None else join(top, c)
        return [] if any(contained(top, b) for b in bars) else [Structure(raised, least, top, bars)]

    def atom(self, a, sign):
        s = stations(a)[-1]  # the one whose events decide: that of the value, or the receiver

        def raised(c):
            joined = (join(c, self.log.clock(s, k)) for k in range(c[s], len(self.log.history[s]) + 1))
            return next((d for d in joined if verdict(self.log, a, d) is sign), None)

        return self.kept(raised, [])

    def pair(self, left, right):
        both = lambda c: self.raised_in_both(left.raised, right.raised, c)
        self.rounds += sum(both(c)[1] for c in self.starts)
        return self.kept(lambda c: both(c)[0], left.bars + right.bars)

    def below(self, s):
        return self.kept(lambda c: c if contained(c, s.top) else None, [])

    def barred(self, structures):
        return self.kept(lambda c: c, [s.top for s in structures])

    def question(self, f):
        """Least cut, greatest cut and bars of each structure, and the rounds."""
        self.rounds = 0
        basis = self.basis(f, True)
        return [(s.least, s.top, s.bars) for s in basis], self.rounds

    def answer(self, f):
        """Start, the maximal cuts in order, rounds."""
        self.rounds = 0
        basis = self.basis(f, True)
        tops = {s.top for s in basis}
        listed = sorted(c for c in tops if not any(c != d and contained(c, d) for d in tops))
        return any(s.has(self.empty) for s in basis), listed, self.rounds


def listed(log, f):
    """The structures and rounds of a question by a plain listing."""
    listing = Listing(log)
    basis = listing.basis(f, True)
    return [(raised(listing.empty), top, bars) for _, bars, top, raised in basis], listing.rounds


def few(log):
    """Are the cuts few enough to list?"""
    return cuts(log, LISTED) is not None


def answered(log):
    """The answer line of each question, by a plain listing where the cuts are few, else by the rule."""
    return answers(log) if few(log) else [answer_line(*Rule(log).answer(f)) for f in log.questions]


def printed(data):
    """What is printed for a log."""
    try:
        log = read(data, PROGRAM)
    except Refused as r:
        return f" refused {r.number} {r.line}\n"
    rule, lines = Rule(log), []

    def line(name, numbers):
        lines.append(" ".join([name, *map(str, numbers)]) + "\n")

    for f in log.questions:
        basis, rounds = rule.question(f)
        if few(log) and (basis, rounds) != listed(log, f):
            sys.exit(f"rule and listing differ on {f}")
        line("structures", [len(basis)])
        for least, top, bars in basis:
            line("least", least)
            line("greatest", top)
            for bar in bars:
                line("bar", bar)
        line("rounds", [rounds])
    return "".join(lines)


def some(d, n, most=6):
    """A range of at most so many of the eight values."""
    lo = d.below(8)
    return atom(d.below(n), lo, min(lo + d.below(most), 7))


def part(d, n):
    """One structure, sometimes with a bar."""
    return d.pick([[], [], [], [2], [5], [2, 6], [2, 5], [6, 2]]) + some(d, n)


def wide(d, n):
    """Parts in ors, the ors joined by and: a width of 4 to 16, at most 12 parts."""
    ways = d.pick([[2, 2], [2, 3], [3, 3], [2, 2, 2], [2, 2, 3], [4, 4], [2, 8], [2, 2, 4], [2, 2, 2, 2], [1, 2, 1, 2, 1]])
    ors = [[4] * (w - 1) + [b for _ in range(w) for b in part(d, n)] for w in ways]
    return [3] * (len(ors) - 1) + [b for o in ors for b in o]


def barred(d, n):
    """Several bars at once: alone, under possibly, or joined with another part."""
    ways = 2 + d.below(3)
    bars = d.pick([[2, 5], [6, 2]]) + [4] * (ways - 1) + [b for _ in range(ways) for b in d.pick([[], [3] + some(d, n)]) + some(d, n, 3)]
    return d.pick([bars, [5] + bars, [3] + part(d, n) + bars, [3] + bars + part(d, n), [5, 3] + bars + part(d, n)])


def empty(d, n):
    """An operand with no structure beside one with rounds."""
    never, pair = atom(d.below(n), 8, 9), [3] + part(d, n) + part(d, n)
    return d.pick([[3] + never + pair, [3] + pair + never, [2, 4, 2] + never + [2] + pair])


def question(d, log, pairs):
    """A question that the log takes in; with tokens 07 if there are pairs of stations to ask about, and with 08 under header 11."""
    n = len(log.initial)
    while True:
        q = d.pick([wide, wide, wide, barred, barred, empty, lambda d, n: formula(d, n, 5, 8)])(d, n)
        q = with_clear(d, q, pairs) if pairs else q
        q = with_panel(d, q) if log.header == 0x11 else q
        try:
            admit(log, [0x30] + q)
        except Refused:
            continue
        return q


def questioned(d, frames, questions):
    """The log of header and events, and messages if there are any, with questions."""
    log = read(log_of(frames), OPERATIONS)
    pairs = asked_of(d, frames) if log.messages else []
    return log_of(frames + [[0x30] + question(d, log, pairs) for _ in range(questions)])


def drawn(d, n, events, questions, messages=0, panels=False):
    """A computation of n stations that know of each other, messages named or none, panels or none, and questions."""
    frames = computation(d, n, events, 8, 2)[0]
    frames += sendings(d, frames, messages) if messages else []
    return questioned(d, drawn_panels(d, frames, 8)[0] if panels else frames, questions)


def logs(seed):
    d = Draw(seed)
    yield ALL
    yield ZERO
    yield ladder(3, 24)
    yield ladder(2, 40)
    yield ladder(8, 127)
    for n, events in ((1, 0), (2, 7), (3, 15), (4, 16), (5, 12), (2, 127), (4, 60), (6, 100), (7, 120), (8, 40), (8, 127), (8, 127)):
        yield drawn(d, n, events, 16)
    for n, events, messages in ((2, 12, 8), (3, 15, 12), (4, 16, 20), (5, 12, 6), (2, 127, 64), (5, 90, 40), (8, 127, 64)):
        yield drawn(d, n, events, 16, messages)
    yield from CONVEYORS
    for n, events, messages in ((1, 7, 0), (2, 12, 0), (3, 15, 12), (5, 60, 0), (8, 127, 64)):
        yield drawn(d, n, events, 16, messages, True)
    yield from OUTLINES
    yield b"\n"
    yield chain(PROGRAM.events + 1)


def cases(seed):
    for log in logs(seed):
        yield case("B", log), b"B\n" + printed(log).encode()
