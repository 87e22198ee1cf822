"""A corpus of small logs and what the program is to print for each, by a plain listing of every cut; and what each question can cost.

Logs have 1 to 4 stations, up to 8 events and questions nested up to 5 deep; about two in five are damaged in a way that document 01
names. Some more meet its limits: 16 cuts, structures and bars, over 65,535 rounds, 65 rounds a start, 0 and 9 stations; and some ask
about ranges through zero. The last are about the most events and bytes.
"""
import sys
from itertools import count, islice

import large
from bases import answered
from bench_cases import foretold
from frames import ONE, Draw, atom, case, computation, drawn_atom, formula, log_of, word
from listing import OPERATIONS, PROGRAM, Refused, encode, printed, read

SMALL, EDGES, ENDS, ZERO, LEAST = 4800, 80, 12, 200, 10


def moments(d, seen):
    """Two to four ways, each with one value that was seen at every station."""
    ways = []
    for _ in range(2 + d.below(2 if len(seen) == 4 else 3)):
        ways.append([3] * (len(seen) - 1) + [b for s, vs in enumerate(seen) for b in [1, s] + word(d.pick(vs)) * 2])
    return [4] * (len(ways) - 1) + [b for w in ways for b in w]


def question(d, seen):
    return moments(d, seen) if d.below(3) == 0 else formula(d, len(seen), 1 + d.below(5))


def frames(d):
    """Header, events and questions of a valid computation; a question may be too large."""
    n, events = 1 + d.below(4), d.below(9)
    out, seen = computation(d, n, events, 4, 3)
    return out + [[0x30] + question(d, seen) for _ in range(1 + d.below(3))]


def wide(d, n):
    """Two- and three-way ors joined by and, some with bars: about the width and bar limits."""
    q = formula(d, n, 1)
    for _ in range(1 + d.below(3)):
        part = formula(d, n, 1)
        for _ in range(d.below(3)):
            part = [4] + part + formula(d, n, 1)
        q = [3] + q + (part if d.below(2) else [6, 2] + part)
    return q


def damaged(d, fs):
    """Frames with one of them changed, taken out, doubled or moved; lines are made of them with good check bytes."""
    fs, i = [list(f) for f in fs], d.below(len(fs))
    f, n = fs[i], fs[0][1]
    way = d.below(14)
    if way == 0:
        fs.insert(d.below(len(fs) + 1), list(f))
    elif way == 1:
        del fs[i]
    elif way == 2:
        fs.insert(d.below(len(fs)), fs.pop(i))
    elif way == 3:
        f[0] = d.below(256)
    elif way == 4:
        f[d.below(len(f))] = d.below(256)
    elif way == 5:
        f.append(d.below(256))
    elif way == 6 and len(f) > 1:
        f.pop()
    elif way == 7 and f[0] == 0x20:
        j = len(f) - n + d.below(n)
        f[j] = (f[j] + d.pick([1, 255, 2])) % 256
    elif way == 8 and f[0] == 0x20:
        f[1] = n
    elif way == 9:
        fs[0][1] = d.pick([0, 9, n + 1])
    elif way == 10:
        fs.append([0x30] + [2] * d.pick([31, 32, 40, 60]) + drawn_atom(d, n, 4))
    elif way == 11:
        fs.append([0x30] + [d.pick([3, 4])] * 12 + [b for _ in range(13) for b in drawn_atom(d, n, 4)])
    elif way == 12:
        fs += [[0x30] + drawn_atom(d, n, 4) for _ in range(d.pick([13, 14, 15, 16]))]
    else:
        fs.append([0x30] + wide(d, n))
    return fs


def spoiled(d, log):
    """The log's bytes with one of them changed, added or taken out; the last line keeps its end."""
    log, i = bytearray(log), d.below(len(log) - 1)
    way = d.below(5)
    if way == 0:
        log[i] = d.pick(b"0123456789ABCDEFabcdef\n\r G")
    elif way == 1:
        del log[i]
    elif way == 2:
        log.insert(i, d.pick(b"0F\n"))
    elif way == 3:
        del log[i:-1]
    else:
        log += b"00" * d.pick([1, 2, 50, 100, 101]) + b"\n"
    return bytes(log)


def partly_damaged(d, drawn, k):
    """So many logs of drawn frames, three in ten with a frame damaged, and one in ten with a byte."""
    for _ in range(k):
        fs, way = drawn(d), d.below(10)
        if way < 3:
            fs = damaged(d, fs)
        log = log_of(fs)
        yield spoiled(d, log) if way == 9 else log


def ors(d, n, k):
    return [4] * (k - 1) + [b for _ in range(k) for b in drawn_atom(d, n, 4)]


def bounded(d, n):
    """A question just within or just over the limit of width or of bars."""
    ways = lambda a, b: [3] + ors(d, n, a) + ors(d, n, b)
    kind = d.below(3)
    if kind == 0:
        return ways(*d.pick([(4, 4), (2, 8), (5, 3), (5, 4), (3, 6), (2, 9)]))
    if kind == 1:
        return [4] + ways(*d.pick([(4, 4), (5, 3)])) + drawn_atom(d, n, 4)
    return [3, 2, 5] + ways(3, 3) + [2, 5] + ways(*d.pick([(2, 3), (2, 4), (3, 3)]))


def forgetful(d):
    """An event that has not seen what the one before it at its station has."""
    n = 2 + d.below(3)
    s = d.below(n)
    j = (s + 1 + d.below(n - 1)) % n
    clock = lambda a, b: [a if i == s else b if i == j else 0 for i in range(n)]
    events = [[j] + word(d.below(4)) + clock(0, 1), [s] + word(d.below(4)) + clock(1, 1), [s] + word(d.below(4)) + clock(2, d.below(2))]
    return [[0x10, n] + [0, 0] * n] + [[0x20] + e for e in events] + [[0x30] + formula(d, n, 2)]


def lowered(d, log):
    """The log with one letter of its digits in lower case."""
    log = bytearray(log)
    i = d.pick([i for i, b in enumerate(log) if b in b"ABCDEF"])
    log[i] += 32
    return bytes(log)


def edges(d):
    """Logs at limits that drawn ones seldom meet."""
    for _ in range(EDGES):
        fs = frames(d)
        yield log_of(fs + [[0x30] + bounded(d, fs[0][1])])
        yield log_of(forgetful(d))
        yield lowered(d, log_of(fs))


def joined(d, token, parts):
    """Formulas joined by one token, left before right, in a tree of any form."""
    if len(parts) == 1:
        return parts[0]
    k = 1 + d.below(len(parts) - 1)
    return [token] + joined(d, token, parts[:k]) + joined(d, token, parts[k:])


def sixteen(d, kind):
    """16 moments of eight stations, one of each group still at its first value; or such a moment ruled out by the last of 16 bars."""
    stations = list(range(8))
    group = lambda k: [[1, stations.pop(d.below(len(stations))), 0, 0, 0, 0] for _ in range(k)]
    groups = [group(k) for k in d.pick([(2, 2, 2, 2), (4, 4), (4, 2, 2), (2, 4, 2)])]
    moments = joined(d, 3, [joined(d, 4, g) for g in groups])
    barred, last = d.pick([[6, 2], [2, 5]]) + moments, joined(d, 3, [g[-1] for g in groups])
    return [d.pick([[], [5]]) + moments, [3] + barred + last, [3] + last + barred][kind]


def apart(d, kind):
    """Eight stations that leave their first value, each by itself."""
    out = [[0x10, 8] + [0, 0] * 8]
    for s in range(8):
        out.append([0x20, s] + word(1 + d.below(65535)) + [int(j == s) for j in range(8)])
    return out + [[0x30] + sixteen(d, kind)]


def turns(d, events):
    """A station that changes sides with each event, and a question about both: with 127 each of 16 pairs takes over 4,000 rounds."""
    step, last = d.pick([1, 255, 21845]), 1 + d.below(2)
    side = lambda v: atom(0, v * step, v * step + step)
    values = [k % 2 * 2 * step for k in range(events)] + [last * step]
    out = [ONE] + [[0x20, 0] + word(v) + [k] for k, v in enumerate(values) if k > 0]
    q = [3] + joined(d, 4, [side(0)] * 4) + joined(d, 4, [side(1)] * 4)
    for _ in range(d.below(5)):
        q = d.pick([[3] + q + side(d.below(2)), [3] + side(d.below(2)) + q])
    return out + [[0x30] + q]


def miscounted(d, n):
    """A good header but for its station count, 0 or 9; half have a question that is good with one station or more."""
    return [[0x10, n] + [0, d.below(4)] * n] + [[0x30] + drawn_atom(d, 1, 4)] * d.below(2)


def ends(d):
    """Logs at the upper ends of document 01's limits."""
    for _ in range(ENDS):
        for fs in [apart(d, 0), apart(d, 1), apart(d, 2), turns(d, PROGRAM.events), miscounted(d, 0), miscounted(d, 9)]:
            yield log_of(fs)


def about(d, s, v):
    """Ranges of a station through zero that have a value as their end, or as the last one outside, or that hold every value."""
    below, above = d.below(max(v, 1)), v + 1 + d.below(max(65535 - v, 1))
    ends = [(v, below), (v + 1, below), (above, v), (above, v - 1), (v, v - 1), (v + 1, v)]
    return [atom(s, lo, hi) for lo, hi in ends if 0 <= hi < lo <= 65535]


def through_zero(d):
    """Logs without end, one for each value of each station: the ranges about it as true and as false, and some joined with others."""
    while True:
        fs, seen = computation(d, 1 + d.below(3), d.below(7), 4, 3, d.pick([1, 255, 21845]))
        ranges = [about(d, s, v) for s, values in enumerate(seen) for v in sorted(set(values))]
        for r in ranges:
            both = r + [[2] + a for a in r]
            more = [d.pick([[3], [4], [5, 3], [6, 4], [2, 3], [2, 4]]) + d.pick(both) + d.pick(d.pick(ranges)) for _ in range(16 - len(both))]
            yield log_of(fs + [[0x30] + q for q in both + more])


def logs(seed):
    d = Draw(seed)
    yield b""
    yield b"\n"
    yield b"0" * 8192 + b"\n"
    yield encode(ONE) * 3
    yield from partly_damaged(d, frames, SMALL - 5 - 3 * EDGES - 6 * ENDS - ZERO)
    yield from edges(d)
    yield from ends(d)
    yield from islice(through_zero(d), ZERO)
    yield from large.logs(d)
    yield log_of(turns(d, OPERATIONS.events))
    yield encode(ONE)[:-1]


def each(data):
    """What the program prints, then of each question its forecast, and Answer lent one cell less than that and lent just these cells."""
    try:
        answers = answered(read(data, OPERATIONS))
    except Refused:
        answers = []
    shown = printed(data, lambda log: answers)
    for q in count():
        told = foretold(data, q)
        shown += told.encode()
        if "refused" in told:
            return shown
        shown += b" refused 11 0 kept\n kept\n" + answers[q]


def met_by(data, meets):
    """What a log is one of: that of meets, which gives names and whether each is met, if it is accepted, or else its refusal."""
    try:
        return [name for name, is_met in meets(read(data, OPERATIONS)) if is_met]
    except Refused as r:
        return [f"refused {r.number}"]


def enough(what, names, met, least=LEAST):
    """Stops where some of these names is met by too few logs."""
    few = [name for name in dict.fromkeys(names) if met[name] < least]
    if few:
        sys.exit(f"too few logs with {what}: {', '.join(few)}")


def cases_of(made):
    for log in made:
        yield case("E", log), b"E\n" + each(log)


def cases(seed):
    return cases_of(logs(seed))
