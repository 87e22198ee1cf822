"""Document 01, as document 02's tickets amend it, by a plain listing of every consistent cut: slow, small, and sharing no code with
the product.

A log is read with the refusals of document 01 in its order. A set of cuts is the list of its cuts, so raising a cut is a search
through that list; rounds are counted over such sets. What is on the way at a cut is a search through the list of messages. A station's
value and panel at a cut are those that its last event carries, or the header. A station that is silent makes a range neither true nor
false, so truth and falsity are worked out as a pair. What a question can cost is worked out from its formula alone. Two logs are merged
frame by frame.
"""
from collections import namedtuple
from functools import cache
from operator import le

STATIONS, QUESTIONS, LIST = 8, 16, 8192
Limits = namedtuple("Limits", "events log messages")  # the most events, the most bytes of a log, and the most messages
OPERATIONS, PROGRAM = Limits(254, 16384, 64), Limits(127, 8192, 64)
Event = namedtuple("Event", "value panel clock")
Message = namedtuple("Message", "sender sent receiver received")  # two stations, the numbers of their events; received 0: it never came
DIGITS = b"0123456789ABCDEF"
HEADERS = {0x10: 2, 0x11: 4}  # the kinds of a header, and how many bytes a value takes under each, with its panel where it has one
ATOMS = {1: 5, 7: 2, 8: 5}  # the tokens that are no signs, and how many bytes follow each
SILENT = 0xFFFF  # the value that a station reports while it is rebooting


class Refused(Exception):
    def __init__(self, number, line=0):
        self.number, self.line = number, line


def encode(frame):
    """A frame's line, with its check byte."""
    full = bytes(frame) + bytes([-sum(frame) % 256])
    return full.hex().upper().encode() + b"\n"


class Log:
    """What has been read so far, and by which limits."""

    def __init__(self, limits):
        self.limits, self.header, self.initial, self.history = limits, None, None, []
        self.messages, self.questions, self.frames = [], [], []

    def events(self):
        return sum(map(len, self.history))

    def event(self, s, k):
        """Event k of a station; 0 is what the header says of it, with a clock that has none."""
        return self.history[s][k - 1] if k else self.initial[s]

    def clock(self, s, k):
        return self.event(s, k).clock

    def reports(self, s):
        """What a station reports: what the header says of it, and its events."""
        return [self.initial[s], *self.history[s]]


def contained(c, d):
    return all(map(le, c, d))


def consistent(log, c):
    """Is a cut consistent? Of a cut of the first stations alone: as far as it goes."""
    return all(k <= len(log.history[j]) and contained(log.clock(j, k), c) for j, k in enumerate(c))


def cuts(log, most=float("inf")):
    """All consistent cuts in order, or None where there are more than so many. One of the first stations alone begins one of all."""
    found = [()]
    for events in log.history:
        longer = ((*c, k) for c in found for k in range(len(events) + 1))
        found = [c for c in longer if consistent(log, c)]
        if len(found) > most:
            return None
    return found


def within(lo, hi, v):
    """Is a number in a range? One whose lo is above hi holds for numbers from lo up and for numbers up to hi."""
    return lo <= v <= hi if lo <= hi else v >= lo or v <= hi


def tested(lo, hi, v):
    """The test of one value: inside a range, outside it, or silent, as True, False and None: document 02, ticket 7."""
    return None if v == SILENT else within(lo, hi, v)


def silences(log):
    """The stations that are silent somewhere."""
    return [s for s in range(len(log.initial)) if any(e.value == SILENT for e in log.reports(s))]


def on_the_way(log, i, j, c):
    """The messages from station i to station j that a cut holds as sent and not as received: document 02, ticket 5."""
    between = (m for m in log.messages if (m.sender, m.receiver) == (i, j))
    return [m for m in between if m.sent <= c[i] and (m.received == 0 or m.received > c[j])]


def verdict(log, a, c):
    """Is an atom true at a cut, or false? None where it is neither. Messages and panels are never silent."""
    if a[0] == 7:
        return not on_the_way(log, *a[1:], c)
    t, s, lo, hi = a
    last = log.event(s, c[s])
    return within(lo, hi, last.panel) if t == 8 else tested(lo, hi, last.value)


def parse(q, at=0):
    """The formula at a place of a question, and where it ends; None where there is none."""
    if at >= len(q):
        return None
    t = q[at]
    if t in ATOMS:
        end = at + 1 + ATOMS[t]
        if end > len(q):
            return None
        if t == 7:
            return (7, *q[at + 1:end]), end
        return (t, q[at + 1], q[at + 2] * 256 + q[at + 3], q[at + 4] * 256 + q[at + 5]), end
    operands, at = [], at + 1
    for _ in range({2: 1, 3: 2, 4: 2, 5: 1, 6: 1}.get(t, 0)):
        got = parse(q, at)
        if got is None:
            return None
        operands.append(got[0])
        at = got[1]
    return ((t, *operands), at) if operands else None


def atoms(f):
    return [f] if f[0] in ATOMS else [a for g in f[1:] for a in atoms(g)]


def stations(a):
    """The stations that an atom names."""
    return a[1:] if a[0] == 7 else a[1:2]


def tokens(f):
    return 1 if f[0] in ATOMS else 1 + sum(map(tokens, f[1:]))


def joined_as(t, sign):
    """What a token comes to under a sign."""
    if t in (3, 4):
        return "and" if (t == 3) == sign else "or"
    return "possibly" if (t == 5) == sign else "not possibly"


def size(f, sign, seen):
    """Width and bar count under a sign; seen gathers those of every token."""
    t = f[0]
    if t in ATOMS:
        w, b = 1, 0
    elif t == 2:
        w, b = size(f[1], not sign, seen)
    elif t in (3, 4):
        (wl, bl), (wr, br) = size(f[1], sign, seen), size(f[2], sign, seen)
        w, b = (wl * wr, bl + br) if joined_as(t, sign) == "and" else (wl + wr, max(bl, br))
    else:
        w, b = size(f[1], t == 5, seen)
        w, b = (w, 0) if joined_as(t, sign) == "possibly" else (1, w)
    seen.append((w, b))
    return w, b


def width(f, sign):
    return size(f, sign, [])[0]


def operand_sign(t, sign):
    """The sign that an operand of a token is used in."""
    return {2: not sign, 5: True, 6: False}.get(t, sign)


def workable(f, sign):
    """Is no 07 of a formula worked out as false, where the formula is used under a sign?"""
    if f[0] in ATOMS:
        return sign or f[0] != 7
    return all(workable(g, operand_sign(f[0], sign)) for g in f[1:])


def held(f, sign):
    """Structures held under a sign: document 02, ticket 3."""
    t, result = f[0], width(f, sign)
    if t in ATOMS:
        return 1
    under = operand_sign(t, sign)
    figures, widths = [held(g, under) for g in f[1:]], [width(g, under) for g in f[1:]]
    if t == 2:
        return figures[0]
    if t in (3, 4):
        return max(figures[0], widths[0] + figures[1], sum(widths) + result)
    return max(figures[0], widths[0] + result)


def products(f, sign):
    """The products of both widths, added up over the signs joined as "and"."""
    if f[0] in ATOMS:
        return 0
    under = operand_sign(f[0], sign)
    joined = f[0] in (3, 4) and joined_as(f[0], sign) == "and"
    return sum(products(g, under) for g in f[1:]) + (width(f[1], under) * width(f[2], under) if joined else 0)


def forecast(log, f):
    """Width, largest bar count at any token, structures held, the cells these take, and a ceiling for the rounds."""
    seen, starts = [], log.events() + 1
    size(f, True, seen)
    structures = held(f, True)
    return width(f, True), max(b for _, b in seen), structures, structures * len(log.initial) * starts, products(f, True) * starts**2


def sound(log, m):
    """Are a message's stations two and there, its events there, and has the receiving event seen the sending one?"""
    n = len(log.initial)
    if m.sender >= n or m.receiver >= n or m.sender == m.receiver:
        return False
    if not 1 <= m.sent <= len(log.history[m.sender]) or m.received > len(log.history[m.receiver]):
        return False
    return m.received == 0 or log.clock(m.receiver, m.received)[m.sender] >= m.sent


def carried(b):
    """The value and the panel that stand in two bytes or in four: with two, the panel is 0."""
    return int.from_bytes(b[:2], "big"), int.from_bytes(b[2:], "big")


def admit(log, f):
    """Takes one frame in, or raises its number."""
    kind, body = f[0], f[1:]
    n = len(log.initial) if log.initial is not None else 0
    if kind in HEADERS:
        if log.initial is not None:
            raise Refused(4)
        each = HEADERS[kind]
        if not body or not 1 <= body[0] <= STATIONS or len(body) != 1 + each * body[0]:
            raise Refused(5)
        log.header = kind
        log.initial = [Event(*carried(body[at:at + each]), (0,) * body[0]) for at in range(1, len(body), each)]
        log.history = [[] for _ in log.initial]
    elif kind == 0x20:
        if log.initial is None or log.messages or log.questions or log.events() >= log.limits.events:
            raise Refused(4)
        if len(body) != 1 + HEADERS[log.header] + n or body[0] >= n:
            raise Refused(6)
        s, clock = body[0], tuple(body[-n:])
        if clock[s] != len(log.history[s]) + 1:
            raise Refused(7)
        for j in range(n):
            k = clock[j] - (j == s)
            if k > len(log.history[j]) or not contained(log.clock(j, k), clock):
                raise Refused(7)
        log.history[s].append(Event(*carried(body[1:-n]), clock))
    elif kind == 0x25:
        if log.initial is None or log.questions or len(log.messages) >= log.limits.messages:
            raise Refused(4)
        if len(body) != 4 or not sound(log, Message(*body)):
            raise Refused(15)
        log.messages.append(Message(*body))
    elif kind == 0x30:
        if log.initial is None or len(log.questions) >= QUESTIONS:
            raise Refused(4)
        got = parse(body)
        if got is None or got[1] != len(body) or any(s >= n for a in atoms(got[0]) for s in stations(a)):
            raise Refused(8)
        seen = []
        size(got[0], True, seen)
        if tokens(got[0]) > 32 or len(atoms(got[0])) > 12 or any(w > 16 or b > 16 for w, b in seen):
            raise Refused(9)
        if not workable(got[0], True):
            raise Refused(16)
        log.questions.append(got[0])
    else:
        raise Refused(4)
    log.frames.append(bytes(f))


def bytes_of(line):
    """The bytes of a line without its end; None is a line that has none."""
    if line is None or len(line) % 2 or not 4 <= len(line) <= 200 or any(c not in DIGITS for c in line):
        raise Refused(2)
    return bytes.fromhex(line.decode())


def frame_of(line):
    """The frame of such a line."""
    frame = bytes_of(line)
    if sum(frame) % 256:
        raise Refused(3)
    return frame[:-1]


def own(data, at):
    """How many bytes the line at a place has, its 0A included where there is one."""
    end = data.find(b"\n", at)
    return (len(data) if end < 0 else end + 1) - at


def walk(data, at):
    """The bytes of the line at a place, their sum, and the looks at the log that one walk over it takes: document 02, ticket 2."""
    line = data[at:at + own(data, at)]
    found = bytes_of(line[:-1] if line.endswith(b"\n") else None)
    return found, sum(found) % 256, len(line)


def read_frames(items, frame, limits):
    """The log of the frames that items stand for, or the first fault with its item's number."""
    log = Log(limits)
    for number, item in enumerate(items, 1):
        try:
            admit(log, frame(item))
        except Refused as r:
            raise Refused(r.number, number) from None
    if not items:
        raise Refused(4, 1)
    return log


def read(data, limits):
    """The log, or the first fault in document 01's order."""
    if len(data) > limits.log:
        raise Refused(1)
    lines = data.split(b"\n")
    last = lines.pop()
    return read_frames(lines + [None] if last else lines, frame_of, limits)


# MERGE

def reported(value, panel, kind):
    """The bytes of a value, with its panel behind it under a header of kind 11."""
    return value.to_bytes(2, "big") + (panel.to_bytes(2, "big") if kind == 0x11 else b"")


def among(log, f, kind, before, behind):
    """An event or a message of a log as it stands in a merged one: under a header of this kind, with so many stations before and behind."""
    if f[0] == 0x25:
        m = Message(*f[1:])
        return bytes([0x25, m.sender + before, m.sent, m.receiver + before, m.received])
    n = len(log.initial)
    return bytes([0x20, f[1] + before]) + reported(*carried(f[2:-n]), kind) + bytes(before) + f[-n:] + bytes(behind)


def merge(first, second, size):
    """The log of two, where an output of so many bytes is lent for it, or the first fault: document 02, ticket 8."""
    first, second = read(first, OPERATIONS), read(second, OPERATIONS)
    n, m = len(first.initial), len(second.initial)
    if n + m > STATIONS:
        raise Refused(17)
    if first.events() + second.events() > OPERATIONS.events or len(first.messages + second.messages) > OPERATIONS.messages:
        raise Refused(18)
    if size < OPERATIONS.log:
        raise Refused(12)
    kind = 0x11 if 0x11 in (first.header, second.header) else 0x10
    header = bytes([kind, n + m]) + b"".join(reported(e.value, e.panel, kind) for e in first.initial + second.initial)
    sides = [(first, 0, m), (second, n, 0)]
    of = lambda k: [among(log, f, kind, before, behind) for log, before, behind in sides for f in log.frames if f[0] == k]
    return b"".join(map(encode, [header, *of(0x20), *of(0x25), *(f for f in first.frames if f[0] == 0x30)]))


# ANSWERS

class Walk:
    """The structures of a formula, as true or as false. What a structure is, is said by atom, pair, below and barred."""

    def __init__(self, log):
        self.log, self.rounds = log, 0
        self.empty = (0,) * len(log.initial)
        self.starts = [self.empty] + [e.clock for events in log.history for e in events]

    def basis(self, f, sign):
        t = f[0]
        if t in ATOMS:
            return self.atom(f, sign)
        if t == 2:
            return self.basis(f[1], not sign)
        if t in (3, 4):
            left, right = self.basis(f[1], sign), self.basis(f[2], sign)
            if joined_as(t, sign) == "or":
                return left + right
            return [s for x in left for y in right for s in self.pair(x, y)]
        operand = self.basis(f[1], t == 5)
        return [s for x in operand for s in self.below(x)] if joined_as(t, sign) == "possibly" else self.barred(operand)

    def raised_in_both(self, first, second, c):
        """A cut raised in two sets by turns until it stays, or None, and the rounds that took."""
        rounds = 0
        while True:
            rounds += 1
            d = first(c)
            d = d and second(d)
            if d is None or d == c:
                return d, rounds
            c = d


class Listing(Walk):
    """All consistent cuts of a log, and truth and falsity at each."""

    def __init__(self, log):
        super().__init__(log)
        self.cuts = cuts(log)

    def true(self, f):
        """The cuts at which a formula is true."""
        t = f[0]
        if t in ATOMS:
            return [c for c in self.cuts if verdict(self.log, f, c) is True]
        if t == 2:
            return self.false(f[1])
        if t == 3:
            return self.at_both(self.true(f[1]), self.true(f[2]))
        if t == 4:
            return self.at_one(self.true(f[1]), self.true(f[2]))
        if t == 5:
            return self.at_some_later(self.true(f[1]))
        return self.elsewhere(self.false(f))

    def false(self, f):
        """The cuts at which a formula is false."""
        t = f[0]
        if t in ATOMS:
            return [c for c in self.cuts if verdict(self.log, f, c) is False]
        if t == 2:
            return self.true(f[1])
        if t == 3:
            return self.at_one(self.false(f[1]), self.false(f[2]))
        if t == 4:
            return self.at_both(self.false(f[1]), self.false(f[2]))
        if t == 5:
            return self.elsewhere(self.true(f))
        return self.at_some_later(self.false(f[1]))

    def at_both(self, one, two):
        both = {*one} & {*two}
        return [c for c in self.cuts if c in both]

    def at_one(self, one, two):
        either = {*one, *two}
        return [c for c in self.cuts if c in either]

    def at_some_later(self, some):
        """The cuts that are contained in one of some, each in itself too."""
        return [c for c in self.cuts if any(contained(c, d) for d in some)]

    def elsewhere(self, some):
        some = {*some}
        return [c for c in self.cuts if c not in some]

    def raised(self, cuts, c):
        """The least cut of a set that contains c, or None."""
        above = [d for d in cuts if contained(c, d)]
        return next((d for d in above if all(contained(d, e) for e in above)), None)

    def kept(self, cuts, bars):
        """A structure, as the list of its cuts with its bars, its greatest cut and the raising in it, unless it is dropped."""
        if not cuts:
            return []
        top = next(d for d in cuts if all(contained(e, d) for e in cuts))
        return [] if any(contained(top, b) for b in bars) else [(cuts, bars, top, cache(lambda c: self.raised(cuts, c)))]

    def pair(self, left, right):
        self.rounds += sum(self.raised_in_both(left[3], right[3], c)[1] for c in self.starts)
        both = set(right[0])
        return self.kept([c for c in left[0] if c in both], left[1] + right[1])

    def atom(self, a, sign):
        return self.kept([c for c in self.cuts if verdict(self.log, a, c) is sign], [])

    def below(self, s):
        return self.kept([c for c in self.cuts if contained(c, s[2])], [])

    def barred(self, structures):
        return self.kept(self.cuts, [s[2] for s in structures])

    def answer(self, f):
        """Start, the maximal cuts in order, rounds."""
        true = self.true(f)
        listed = sorted(c for c in true if not any(c != d and contained(c, d) for d in true))
        self.rounds = 0
        self.basis(f, True)
        return self.empty in true, listed, self.rounds


def answer_line(start, cuts, rounds):
    return encode([0x40, int(start), len(cuts)] + [k for c in cuts for k in c] + list(rounds.to_bytes(4, "big")))


def answers(log):
    """The answer line of each question."""
    listing = Listing(log)
    return [answer_line(*listing.answer(f)) for f in log.questions]


def printed(data, rule=answers):
    """What the program prints for an input; the rule gives the answer lines of a log."""
    try:
        log = read(data, PROGRAM)
    except Refused as r:
        return encode([0x50, r.number, r.line // 256, r.line % 256])
    return b"".join(rule(log))
