"""The cases of Merge, document 02's ticket 8: pairs of logs, and what is to come of each; and merged logs, as those of the other corpus.

Small pairs of every two kinds of header come first, with messages and silent stations. Of each, every cut of the merged log is tested: it
is consistent exactly if its two parts are, and a question is true or false there exactly if it is at the first part; and the answer lists
the cuts of the first log's answer with all events of the second behind them. Then logs that are refused, on either side and on both, with
all that could be refused besides; and pairs about what two logs may have together, and about the output's size. What has to be met is
counted.
"""
import sys
from collections import Counter, namedtuple
from itertools import product
from math import prod

import panels
import silent
from bases import answered, drawn, questioned
from bench_cases import BENCH, HEAD, HEAD11, NEVER, RECEIVED, Q
from corpus import cases_of, enough, moments
from frames import ONE, Draw, atom, case, clear, computation, drawn_panels, in_turn, log_of, message, panel, panelled, word, wrong_check
from large import coupled
from listing import OPERATIONS, STATIONS, Listing, Refused, consistent, encode, merge, read
from read_write import EIGHT, FRAMES, LOGS

SMALL, ASKED, EACH = 8, 4, 3  # of each way that two logs are paired, and of each refusal
MOST = 128  # cuts of a small log, consistent or not, with one event more than there is
SHORT = 260  # bytes of a log that is at fault
OUTPUT = OPERATIONS.log
SIZES = [0, 8192, OUTPUT - 1, OUTPUT, OUTPUT + 1, OUTPUT + 8]
KINDS = [0x10, 0x11]
WAYS = [*product(KINDS, KINDS, (False, True), (False, True))]  # of both headers, and of messages on both sides
NUMBERS = [*range(1, 10), 15, 16]  # what one log can be refused with
LONG = b"0" * (OPERATIONS.log + 1)
Pair = namedtuple("Pair", "first second size", defaults=[OUTPUT])


def refusal(data):
    """The number and the line that one log is refused with, or None."""
    try:
        read(data, OPERATIONS)
    except Refused as r:
        return r.number, r.line


def merged(pair):
    """The case of a pair, and what is printed for it. The first log's length stands where a cut does."""
    try:
        log = merge(*pair)
        printed = f"M {len(log)} {log.hex()} kept\n"
    except Refused as r:
        printed = f"M refused {r.number} {r.line}  kept\n"
    return case("M", pair.first + pair.second, cut=word(len(pair.first)), size=pair.size), printed.encode()


# SMALL PAIRS

def several(d):
    """Stations that seldom know of each other, asked about several moments, and when one of them had its first value; either header."""
    out, seen = computation(d, 2 + d.below(2), 4 + d.below(2), 4, 9)
    first = [4] * (len(seen) - 1) + [b for s, values in enumerate(seen) for b in atom(s, values[0], values[0])]
    return d.pick([out, drawn_panels(d, out, 4)[0]]) + [[0x30] + moments(d, seen), [0x30] + first]


def small(d, kind, sent):
    """An accepted log with a header of a kind, with messages or without, of which every cut can be tested."""
    while True:
        data = log_of(d.pick([panels.frames, silent.frames, several, several])(d))
        if refusal(data) is None:
            log = read(data, OPERATIONS)
            if log.header == kind and bool(log.messages) == sent and prod(len(events) + 2 for events in log.history) <= MOST:
                return data


def small_pairs(d):
    """Pairs of small logs: every two kinds of header, with messages on either side, on both or on none."""
    for one, other, sends, sends_too in WAYS * SMALL:
        yield Pair(small(d, one, sends), small(d, other, sends_too))


def with_itself(d):
    """Small logs with themselves, and such as have about half of what a log may have."""
    for kind, sent in [*product(KINDS, (False, True))] * 2:
        data = small(d, kind, sent)
        yield Pair(data, data)
    for fs in [of(4), of(5), chain(127), chain(128), sending(32), sending(33)]:
        yield Pair(log_of(fs), log_of(fs))


# AT FAULT

def at_fault():
    """Short logs by the number that they are refused with."""
    by_number = {number: [] for number in NUMBERS}
    for data in [*map(log_of, FRAMES.values()), *LOGS]:
        if len(data) <= SHORT:
            refused = refusal(data)
            if refused:
                by_number[refused[0]].append(data)
    return by_number | {1: [LONG]}


def refused_pairs(d):
    """Logs refused with each number beside a good one, on either side, and beside one that is refused with another number or line."""
    bad, good = at_fault(), [small(d, kind, sent) for kind, sent in product(KINDS, (False, True))]
    for number in NUMBERS:
        for _ in range(1 if number == 1 else EACH):
            one, size = d.pick(bad[number]), d.pick([OUTPUT, OUTPUT, *SIZES])
            other = d.pick([b for k in NUMBERS[1:] for b in bad[k] if refusal(b) != refusal(one)])
            yield Pair(one, d.pick(good), size)
            yield Pair(d.pick(good), one, size)
            yield Pair(one, other, size)
            yield Pair(other, one, size)


def refused_with_more(d):
    """Logs of eight stations refused with each number at their last line, beside another of eight, so that 17 is due too, and 12."""
    event, good = [0x20, 0, 0, 5, 1] + [0] * 7, log_of([EIGHT])
    ends = [b"\n", wrong_check(event), *map(encode, [EIGHT, event[:-1], event[:4] + [2] + event[5:], [0x25, 0], [0x30, 9],
                                                     [0x30] + [2] * 32 + atom(), [0x30, 2] + clear()])]
    for end in ends:
        yield Pair(good + end, good, d.pick(SIZES))
        yield Pair(good, good + end, d.pick(SIZES))
    for first, second in [(200, 100), (1, 254)]:
        yield Pair(log_of(chain(first)), log_of(chain(second) + [[0x30, 9]]), d.pick(SIZES))


# TOGETHER

def of(n, kind=0x10):
    """A header of n stations and an event of the last, with numbers that tell the stations apart."""
    frames = [[kind, n] + [b for s in range(n) for b in word(257 * s + 1) + word(s + 300) * (kind == 0x11)]]
    return frames + [[0x20, n - 1] + word(n) + word(n + 600) * (kind == 0x11) + [0] * (n - 1) + [1]]


def chain(k):
    """Header and k events of one station."""
    return [ONE] + in_turn(1, k, lambda i: i % 4)


def sending(k, n=2):
    """k messages of an event of n stations, by turns received and not."""
    events = [[0x20, 0, 0, 5, 1] + [0] * (n - 1), [0x20, n - 1, 0, 6, 1] + [0] * (n - 2) + [1]]
    return [[0x10, n] + [0, 0] * n] + events + [message(0, 1, n - 1, i % 2) for i in range(k)]


def stations_together(d):
    """Eight and nine stations in every way, and other numbers; headers of both kinds."""
    for n, m in product(range(1, STATIONS + 1), repeat=2):
        if n + m in (8, 9) or n == m:
            yield Pair(log_of(of(n, d.pick(KINDS)) + [[0x30] + atom(n - 1, 0, 9)]), log_of(of(m, d.pick(KINDS))))


def events_together():
    """As many events as a log may have, and one more or many, on one side and on both."""
    for k, m in [(0, 254), (254, 0), (1, 253), (127, 127), (128, 127), (127, 128), (254, 1), (1, 254), (254, 254)]:
        yield Pair(log_of(chain(k)), log_of(chain(m)))


def messages_together():
    """The same of messages."""
    for k, m in [(0, 64), (64, 0), (1, 63), (32, 32), (33, 32), (32, 33), (64, 1), (1, 64), (64, 64)]:
        yield Pair(log_of(sending(k)), log_of(sending(m, 3)))


def in_order():
    """Pairs with one, two or three of 17, 18 and 12 due, 18 by events, by messages and by both; and outputs of each size."""
    both = [sending(64), [[0x10, 2, 0, 0, 0, 0]] + [e + [0] for e in chain(253)[1:]] + [message(0, 1, 1)]]
    many = [[sending(64, 8), sending(1)], [sending(1), sending(64, 8)], [sending(60, 6), sending(60, 3)], [sending(33, 4), sending(32, 5)]]
    sent = [[sending(33), sending(32)], [sending(64, 3), sending(1, 4)], [sending(2, 6), sending(63)]]
    for sides in [[of(8), of(1)], [of(8), chain(254)], *many, [chain(128), chain(127)], *sent, both]:
        for size in (OUTPUT - 1, OUTPUT):
            yield Pair(*map(log_of, sides), size)
    for size in SIZES:
        yield Pair(BENCH, HEAD11, size)
        yield Pair(log_of(of(8)), log_of(of(1)), size)


def longest():
    """Two logs with half of the most stations, events and messages each, and the longest questions: the merged log is the longest."""
    half = [[0x10, 4] + [0, 7] * 4] + in_turn(4, OPERATIONS.events // 2, lambda i: 256) + [message(2, 1, 3, 1)] * (OPERATIONS.messages // 2)
    questions = [[0x30] + [2] * 9 + [3] * 11 + (atom(3, 1, 65535) + panel(3, 1, 65535)) * 6] * 16
    yield Pair(log_of(panelled(half, lambda s: 256 * s) + questions), log_of(half))


# BY HAND

# Pairs, their merged logs, and the answers to these. The start of each of the second log's three events takes two rounds, as the empty cut
# does, so that Q takes six more than in the first log alone.
BY_HAND = [
    (Pair(BENCH, BENCH),
     b"10040000000000000000EC\n2000000501000000DA\n2001000100010000DD\n2001000201020000DA\n2002000500000100D8\n2003000100000001DB\n"
     b"2003000200000102D8\n3003010000050005010100010001BE\n", b"400001010101020000000DAD\n"),
    (Pair(HEAD11 + log_of([NEVER, [0x30] + Q]), HEAD + log_of([RECEIVED, [0x30] + clear()])),
     b"110400000005000000020000000000000000E4\n20000005000001000000DA\n20010001000200010000DB\n20010002000001020000DA\n"
     b"20020005000000000100D8\n20030001000000000001DB\n20030002000000000102D8\n2500010100D9\n2502010302D3\n"
     b"3003010000050005010100010001BE\n", b"400001010101020000000DAD\n"),
    (Pair(log_of([ONE]), HEAD11),
     b"1103000000000000000500000002E5\n200100050000000100D9\n200200010002000001DA\n200200020000000102D9\n", b""),
]


def by_hand():
    """Pairs that were merged by hand, with which listing and rule have to agree."""
    for pair, log, answers in BY_HAND:
        if merge(*pair) != log or b"".join(answered(read(log, OPERATIONS))) != answers:
            sys.exit(f"{log} by hand, {merge(*pair)} by the listing")
        yield pair


# TESTED

class Tested:
    """A pair, its merged log, and what was met of it; where something is not as it has to be the run stops."""

    def __init__(self, pair, met):
        self.pair, self.met = pair, met
        self.first, self.second, self.whole = (Listing(read(data, OPERATIONS)) for data in (*pair[:2], merge(*pair)))
        self.n = len(self.first.log.initial)

    def expect(self, what, so):
        if not so:
            sys.exit(f"{what}: {self.pair}")

    def parts(self, c):
        return c[:self.n], c[self.n:]

    def cuts(self):
        """Every cut, and those with one event more than a station has: consistent exactly if both parts are."""
        for c in product(*(range(len(events) + 2) for events in self.whole.log.history)):
            both = [consistent(side.log, part) for side, part in zip((self.first, self.second), self.parts(c))]
            self.expect(f"consistent at {c}", consistent(self.whole.log, c) == all(both))
            self.met[f"cuts with parts consistent {both}"] += 1

    def verdicts(self, f):
        """A question is true or false at a cut as it is at its first part."""
        neither = len(self.whole.cuts)
        for name, at in [("true", Listing.true), ("false", Listing.false)]:
            there, cuts = {*at(self.first, f)}, at(self.whole, f)
            self.expect(f"{name}: {f}", cuts == [c for c in self.whole.cuts if self.parts(c)[0] in there])
            self.met[f"cuts where a question is {name}"] += len(cuts)
            neither -= len(cuts)
        self.met["cuts where a question is neither"] += neither

    def answer(self, f):
        """The answer lists the cuts of the first log's, each with all events of the second behind it. A start at one of these events takes
        the rounds that the empty cut takes in the first log."""
        from_empty, last = Listing(self.first.log), tuple(map(len, self.second.log.history))
        from_empty.starts = [from_empty.empty]
        (start, cuts, rounds), (*_, each) = self.first.answer(f), from_empty.answer(f)
        expected = start, [c + last for c in cuts], rounds + each * self.second.log.events()
        self.expect(f"answer: {f}", self.whole.answer(f) == expected)
        self.met["start yes" if start else "start no"] += 1
        self.met[f"{['no', 'one', 'several'][min(len(cuts), 2)]} cuts listed"] += 1
        self.met["more rounds than the first"] += expected[2] > rounds

    def test(self):
        self.expect("questions", self.whole.log.questions == self.first.log.questions)
        self.cuts()
        for f in self.first.log.questions:
            self.verdicts(f)
            self.answer(f)


CUTS = [*(f"cuts with parts consistent {[a, b]}" for a in (False, True) for b in (False, True)),
        *(f"cuts where a question is {name}" for name in ("true", "false", "neither"))]
ANSWERS = ["start yes", "start no", *(f"{k} cuts listed" for k in ("no", "one", "several")), "more rounds than the first"]


# COUNTED

def met_by(pair):
    """What a pair is one of."""
    one, other = refusal(pair.first), refusal(pair.second)
    if one or other:
        return [f"{(one or other)[0]} on " + ("both" if one and other else "the first" if one else "the second")]
    first, second = (read(data, OPERATIONS) for data in pair[:2])
    events, messages = first.events() + second.events(), len(first.messages + second.messages)
    wide, many = len(first.initial + second.initial) > STATIONS, events > OPERATIONS.events or messages > OPERATIONS.messages
    due = [number for number, so in [(17, wide), (18, many), (12, pair.size < OUTPUT)] if so]
    names = [(f"due {due}", True), ("one event too many", due == [18] and events == OPERATIONS.events + 1),
             ("one message too many", due == [18] and messages == OPERATIONS.messages + 1)]
    return [name for name, so in names + ([] if due else [*of_merged(pair, first, second)]) if so]


def of_merged(pair, first, second):
    """What a pair that is merged is one of."""
    with_panels = [any(e.panel for s in range(len(log.initial)) for e in log.reports(s)) for log in (first, second)]
    yield f"headers {first.header:X} and {second.header:X}", True
    yield f"messages {bool(first.messages)} and {bool(second.messages)}", True
    yield f"output of {pair.size} bytes", True
    yield "stations 8 together", len(first.initial + second.initial) == STATIONS
    yield "events 254 together", first.events() + second.events() == OPERATIONS.events
    yield "messages 64 together", len(first.messages + second.messages) == OPERATIONS.messages
    yield "with itself", pair.first == pair.second
    yield "panels of the first alone", with_panels == [True, False] and second.header == 0x10
    yield "panels of the second alone", with_panels == [False, True] and first.header == 0x10
    yield "questions of the second", second.questions


OFTEN = [*(f"headers {a:X} and {b:X}" for a in KINDS for b in KINDS),
         *(f"messages {a} and {b}" for a in (False, True) for b in (False, True)),
         "panels of the first alone", "panels of the second alone", "questions of the second", "with itself"]
SELDOM = [*(f"{number} on {side}" for number in NUMBERS for side in ("the first", "the second", "both")),
          *(f"due {due}" for due in ([17], [17, 18], [17, 12], [17, 18, 12], [18], [18, 12], [12])),
          *(f"one {name} too many" for name in ("event", "message")), *(f"output of {size} bytes" for size in SIZES if size >= OUTPUT),
          "stations 8 together", "events 254 together", "messages 64 together"]


def pairs(d):
    """All pairs: those of which every cut is tested, and the others."""
    return [*small_pairs(d)], [
        *with_itself(d), *refused_pairs(d), *refused_with_more(d), *stations_together(d), *events_together(), *messages_together(),
        *in_order(), *longest(), *by_hand()]


def counted(seed):
    """The pairs, once each thing that they are for is met by enough of them, and their cuts are tested."""
    tested, others = pairs(Draw(seed))
    met, cuts = Counter(name for pair in tested + others for name in met_by(pair)), Counter()
    enough("pairs", OFTEN, met)
    enough("pairs", SELDOM, met, 1)
    for pair in tested:
        Tested(pair, cuts).test()
    enough("cuts of merged logs", CUTS, cuts, 500)
    enough("answers of merged logs", ANSWERS, cuts)
    return tested + others


def cases(seed):
    return map(merged, counted(seed))


# THE CORPUS

def large(d):
    """Pairs whose merged logs have more events than the program takes, or just as many as the operations do."""
    yield questioned(d, coupled(d, 3, 100), 3), log_of(coupled(d, 5, 154))
    yield drawn(d, 4, 154, 3, 20, True), drawn(d, 4, 100, 0, 44)
    yield questioned(d, drawn_panels(d, coupled(d, 2, 60), 8)[0], 3), log_of(coupled(d, 6, 68))
    yield log_of(of(7)[:1] + [[0x30] + Q]), log_of(chain(OPERATIONS.events))


def logs(d):
    """Merged logs."""
    for one, other, sends, sends_too in WAYS * ASKED:
        yield merge(small(d, one, sends), small(d, other, sends_too), OUTPUT)
    for first, second in large(d):
        yield merge(first, second, OUTPUT)


def asked(seed):
    """The cases of merged logs, of other pairs than those above."""
    return cases_of(logs(Draw(seed + 1)))
