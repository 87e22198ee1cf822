"""What the tests' logs and cases are made of: bytes of formulas and frames, given or drawn, and the form of a case of crates/cases."""
import re
import sys

from listing import encode, frame_of, operand_sign, parse

ONE = [0x10, 1, 0, 0]


def word(v):
    return [v // 256, v % 256]


def atom(s=0, lo=0, hi=1):
    return [1, s] + word(lo) + word(hi)


def clear(i=0, j=1):
    return [7, i, j]


def panel(s=0, lo=0, hi=1):
    return [8] + atom(s, lo, hi)[1:]


def message(sender, sent, receiver, received=0):
    return [0x25, sender, sent, receiver, received]


def log_of(frames):
    return b"".join(map(encode, frames))


def frames_of(log):
    """The frames of a log whose lines are in order."""
    return [list(frame_of(line)) for line in log.split(b"\n")[:-1]]


def panelled(frames, number):
    """Frames with header 10 as frames with header 11; number gives a station's panel, for the header and then for each of its events."""
    (_, n, *values), *rest = frames
    header = [0x11, n] + [b for s in range(n) for b in values[2 * s:2 * s + 2] + word(number(s))]
    return [header] + [f[:4] + word(number(f[1])) + f[4:] if f[0] == 0x20 else f for f in rest]


def valued(frames, value):
    """Frames with header 10 and other values; value gives a station's, for the header and then for each of its events."""
    (_, n, *_), *rest = frames
    header = [0x10, n] + [b for s in range(n) for b in word(value(s))]
    return [header] + [f[:2] + word(value(f[1])) + f[4:] if f[0] == 0x20 else f for f in rest]


def in_turn(n, k, value):
    """k events of n stations in turn, each of which has seen all before it; value gives that of the i-th."""
    clock, events = [0] * n, []
    for i in range(k):
        clock[i % n] += 1
        events.append([0x20, i % n] + word(value(i)) + clock)
    return events


def long_question(size):
    """A question's frame of so many bytes, 7 to 95: "or" over at most 12 tokens 01, under "not" again and again."""
    k = min(size // 7, 12)
    return [0x30] + [2] * (size - 7 * k) + [4] * (k - 1) + [b for j in range(k) for b in atom(j % 8, j % 3, 3)]


def line(length):
    """A line of so many bytes, an odd number from 17 to 201, that is in order but for its formula's size: "not" again and again, then 01."""
    return encode([0x30] + [2] * ((length - 1) // 2 - 8) + atom(0, 0, 1))


def wrong_check(frame):
    """A frame's line with a wrong check byte."""
    return encode(frame)[:-3] + b"%02X\n" % ((1 - sum(frame)) % 256)


def padded(data, length):
    """The log with further lines in order, up to a length."""
    left = length - len(data)
    while left > 201:
        data += line(101)
        left -= 101
    return exactly(length, data + (line(left) if left % 2 else line(51) + line(left - 51)))


def exactly(length, data):
    """Bytes that are to be so many."""
    if len(data) != length:
        sys.exit(f"{len(data)} bytes in place of {length}")
    return data


# CASES

WORKSPACE = 65535  # the most cells that a case can lend


def case(letter, data, question=0, cut=(), short=0, cells=WORKSPACE, size=0):
    """A case's bytes, as crates/trial reads them."""
    return letter.encode() + bytes([question, len(cut), short] + word(cells) + word(size) + word(len(data)) + list(cut)) + bytes(data)


def parted(stdin, stdout):
    """The bytes of each case, and what is printed for it."""
    at = 0
    for out in re.split(rb"^(?=[A-Z])", stdout, flags=re.M)[1:]:
        end = at + 10 + stdin[at + 2] + stdin[at + 8] * 256 + stdin[at + 9]
        yield stdin[at:end], out
        at = end


# DRAWN

class Draw:
    """Numbers from a seed, by a linear congruential rule of 64 bits."""

    def __init__(self, seed):
        self.state = seed

    def below(self, n):
        self.state = (self.state * 6364136223846793005 + 1442695040888963407) % 2**64
        return (self.state >> 33) % n

    def pick(self, items):
        return items[self.below(len(items))]


def drawn_atom(d, n, top):
    lo = d.below(top)
    return [1, d.below(n)] + word(lo) + word(lo + d.below(top - lo))


def formula(d, n, depth, top=4):
    """A formula's bytes, nested at most depth deep."""
    t = d.pick([1, 1, 2, 3, 3, 4, 4, 5, 6]) if depth > 1 else 1
    if t == 1:
        return drawn_atom(d, n, top)
    return [t] + [b for _ in range(2 if t in (3, 4) else 1) for b in formula(d, n, depth - 1, top)]


def computation(d, n, events, values, messages, step=1):
    """Header and events of n stations with so many values, one event in so many with a message; and the values seen at each station."""
    seen = [[d.below(values) * step] for _ in range(n)]
    frames = [[0x10, n] + [b for vs in seen for b in word(vs[0])]]
    last = [[0] * n for _ in range(n)]
    for _ in range(events):
        s = d.below(n)
        clock = list(last[s])
        if d.below(messages) == 0:
            clock = list(map(max, clock, last[d.below(n)]))
        clock[s] = last[s][s] + 1
        last[s] = clock
        seen[s].append(d.below(values) * step)
        frames.append([0x20, s] + word(seen[s][-1]) + clock)
    return frames, seen


def receivers(frames, i, sent, j):
    """The events of station j that have seen an event of station i."""
    clocks = [f[4:] for f in frames if f[:2] == [0x20, j]]
    return [k for k, clock in enumerate(clocks, 1) if clock[i] >= sent]


def sendings(d, frames, most):
    """At most so many messages of a computation of two stations or more, of one pair, or of two that share their sender or their receiver:
    received at any event that has seen the sending, one in six never, and one in six named twice."""
    n, out = frames[0][1], []
    sent = [sum(f[:2] == [0x20, s] for f in frames) for s in range(n)]
    i = d.below(n)
    j = (i + 1 + d.below(n - 1)) % n
    third = d.pick([s for s in range(n) if s not in (i, j)] or [j])
    pairs = [(i, j) for i, j in [(i, j), d.pick([(i, j), (i, third), (third, j)])] if i != j and sent[i]]
    while pairs and len(out) < most:
        i, j = d.pick(pairs)
        k = 1 + d.below(sent[i])
        came = receivers(frames, i, k, j)
        if came or d.below(3) == 0:
            out += [message(i, k, j, d.pick(came) if came and d.below(6) else 0)] * (1 + (d.below(6) == 0))
    return out[:most]


def asked_of(d, frames):
    """Pairs of stations to ask about: of each message its own four times, its own turned, its sender with itself, and one of any two."""
    n = frames[0][1]
    own = [(f[1], f[3]) for f in frames if f[0] == 0x25]
    return [p for i, j in own for p in [(i, j)] * 4 + [(j, i), (i, i)]] + [(d.below(n), d.below(n))]


def drawn_panels(d, frames, panels, step=1):
    """Frames with header 10 as frames with header 11 and so many panels, and the panels seen at each station."""
    seen = [[] for _ in range(frames[0][1])]

    def drawn(s):
        seen[s].append(d.below(panels) * step)
        return seen[s][-1]

    return panelled(frames, drawn), seen


SPELLED = {1: atom, 7: clear, 8: panel}


def respelled(q, leaf):
    """A formula's bytes with its atoms as leaf gives them, which is handed each with the sign that it is worked out in."""
    def spelled(f, sign):
        if f[0] in SPELLED:
            return leaf(f, sign)
        return [f[0]] + [b for g in f[1:] for b in spelled(g, operand_sign(f[0], sign))]

    return spelled(parse(q)[0], True)


def with_clear(d, q, pairs):
    """A formula's bytes with tokens 07 of these pairs in place of half the 01 that are worked out as true, and of one in 16 others."""
    return respelled(q, lambda a, sign: atom(*a[1:]) if d.below(2 if sign else 16) else clear(*d.pick(pairs)))


def of_panels(q, wanted=lambda: True):
    """A formula's bytes with 08 in place of each 01 for which it is wanted."""
    return respelled(q, lambda a, _: SPELLED[8 if a[0] == 1 and wanted() else a[0]](*a[1:]))


def with_panel(d, q):
    """A formula's bytes with 08 in place of half the 01."""
    return of_panels(q, lambda: d.below(2))


def turned(log, value):
    """A log of header 10 with its values as panels, 08 in place of each 01, and values that value gives: it is to be answered as before."""
    def frame(f):
        if f[0] == 0x10:
            return [0x11, f[1]] + [b for s in range(f[1]) for b in word(value()) + f[2 + 2 * s:4 + 2 * s]]
        if f[0] == 0x20:
            return f[:2] + word(value()) + f[2:]
        return [0x30] + of_panels(f[1:]) if f[0] == 0x30 else f

    return log_of(map(frame, frames_of(log)))
