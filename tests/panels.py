"""The corpus of logs with panel numbers and of questions about them, and what is to come of each as of the other corpus.

Small computations with values and panels of the same few numbers, one in four with header 10, where every panel is 0, and one in three with
messages; half their 01 are 08, and about two in five are damaged as in the other corpus. Then questions about value and panel of two
stations at once, and about panels under header 10; and logs of the other corpus with their values as panels, which have to be answered as
they were, unless one is FFFF, which is silent as a value and not as a panel. Some more have each fault that panels bring of a header, an
event and a question, and a second header in each place; what they are refused with is said by hand. The last are about the most events.
What has to be met is counted.
"""
import sys
from collections import Counter, namedtuple
from itertools import islice

import large
from corpus import apart, cases_of, enough, met_by, partly_damaged, question, through_zero, turns
from frames import Draw, asked_of, atom, clear, computation, drawn_panels, log_of, panel, turned, with_clear, with_panel, word
from listing import ATOMS, HEADERS, OPERATIONS, PROGRAM, atoms, operand_sign, printed, read, silences, within
from messages import faults, sent, to_spoil

SMALL, OUTLINES, TEN, ZERO, EACH = 420, 60, 16, 40, 12
FEW = 4  # values and panels are 0 to 3, or these times a step
Made = namedtuple("Made", "name number frames")  # what a log is, and what it is refused with by hand, 0 if it is accepted


def computed(d):
    """Header and events, messages in one log of three, and the values seen at each station."""
    if d.below(3):
        return *computation(d, 1 + d.below(4), d.below(9), FEW, 3), []
    out, messages, seen = sent(d, 3 + d.below(6), 1 + d.below(8))
    return out, seen, messages


def frames(d):
    """Header, mostly 11, events, messages and questions; a question may be too large, or have a 07 that is worked out as false."""
    out, seen, messages = computed(d)
    if d.below(4):
        out, panels = drawn_panels(d, out, FEW)
        seen = [values + numbers for values, numbers in zip(seen, panels)]
    pairs = asked_of(d, out + messages)
    asked = lambda q: with_panel(d, with_clear(d, q, pairs) if messages else q)
    return out + messages + [[0x30] + asked(question(d, seen)) for _ in range(1 + d.below(3))]


def outlines(d):
    """Questions about value and panel of two stations at once: mostly both that one event has, or the header, and else of two of these."""
    step = d.pick([1, 1, 256, 21845])
    ten, values = computation(d, 2 + d.below(2), 4 + d.below(5), FEW, 3, step)
    out, panels = drawn_panels(d, ten, FEW, step)

    def both(s):
        k, other = d.below(len(values[s])), d.below(len(values[s]))
        v, p = values[s][k], panels[s][d.pick([k, k, other])]
        return [3] + atom(s, v, v) + panel(s, p, p)

    some = lambda: d.pick([[], [], [5], [2, 5], [6, 2]]) + [3] + both(0) + both(1 + d.below(len(values) - 1))
    return out + [[0x30] + some() for _ in range(4)]


def under_ten(d):
    """Questions about panels where every one is 0: ranges with 0 as their lower end, above it, and through zero, in either sign."""
    out, _ = computation(d, 1 + d.below(3), d.below(7), FEW, 3)
    s, lo = d.below(out[0][1]), 1 + d.below(FEW)
    ranges = [panel(s, 0, d.below(FEW)), panel(s, lo, lo + d.below(FEW)), panel(s, lo, d.below(lo)), panel(s, 65535, 0)]
    joined = lambda: d.pick([[3], [4], [5, 3], [6, 4], [2, 3]]) + d.pick(ranges) + d.pick([atom(s, 0, d.below(FEW)), *ranges])
    return out + [[0x30] + q for q in ranges + [[2] + a for a in ranges] + [joined() for _ in range(4)]]


def as_panels(d):
    """Logs of the other corpus with their values as panels: ranges through zero, and the most cuts, structures, bars and rounds."""
    for log in [*islice(through_zero(d), ZERO), *(log_of(apart(d, kind)) for kind in (0, 1, 2) * 2), log_of(turns(d, PROGRAM.events))]:
        step = d.pick([1, 255, 21845])
        out = turned(log, lambda: d.below(FEW) * step)
        if not silences(read(log, PROGRAM)) and printed(out) != printed(log):
            sys.exit(f"answered otherwise with its values as panels: {log}")
        yield out


# FAULTS

def asking(d, n):
    """A question about a panel."""
    some = panel(d.below(n), d.below(FEW), d.below(FEW))
    return [0x30] + d.pick([some, [2] + some, [3] + some + atom(d.below(n), 0, d.below(FEW)), [4] + atom(d.below(n), 1, 2) + some])


def of_both_kinds(d, n, events):
    """The same header and events with header 10 and with header 11."""
    ten, _ = computation(d, n, events, FEW, 3)
    return ten, drawn_panels(d, ten, FEW)[0]


def headers_at_fault(d):
    """A header of either kind at fault in each way that there is, before events of either kind, and some that have no fault."""
    n = 1 + d.below(4)
    ten, eleven = of_both_kinds(d, n, 1 + d.below(4))
    q, header, of_eight = asking(d, n), eleven[0], [b for _ in range(16) for b in word(d.below(FEW))]
    yield Made("header 10", 0, ten + [q])
    yield Made("header 11", 0, eleven + [q])
    yield Made("header 11 of eight stations", 0, [[0x11, 8] + of_eight, asking(d, 8)])
    for name, wrong in {
        "header 11 of the length of 10": [0x11] + ten[0][1:],
        "header 10 of the length of 11": [0x10] + header[1:],
        "header 11 of no station": [0x11, 0],
        "header 11 of nine stations": [0x11, 9] + of_eight + word(d.below(FEW)) * 2,
        "header 11 that counts one station more": [0x11, n + 1] + header[2:],
        "header 11 that counts one station less": [0x11, n - 1] + header[2:],
        "header 11 of one byte": [0x11],
        "header 11 with its count alone": [0x11, n],
        "header 11 one byte short": header[:-1],
        "header 11 one byte long": header + [0],
        "header 11 without its last panel": header[:-2],
        "header 11 with a value more": header + [0, 0],
    }.items():
        yield Made(name, 5, [wrong] + d.pick([ten, eleven])[1:] + [q])


def events_at_fault(d):
    """The last of some events at fault in each way that there is."""
    n = 2 + d.below(3)
    ten, (*before, event) = of_both_kinds(d, n, 1 + d.below(4))
    q, clock = asking(d, n), len(event) - n
    own, other = clock + event[1], (event[1] + 1) % n
    happened = sum(f[1] == other for f in before[1:])
    entry = lambda at, count: event[:at] + [count] + event[at + 1:]
    yield Made("event of header 10 under header 11", 6, before + [ten[-1], q])
    yield Made("event of header 11 under header 10", 6, ten[:-1] + [event, q])
    for name, wrong in {
        "event one byte short under header 11": event[:-1],
        "event one byte long under header 11": event + [0],
        "event two bytes long under header 11": event + [0, 0],
        "event of one byte under header 11": [0x20],
        "event of a station not there under header 11": [0x20, n] + event[2:],
    }.items():
        yield Made(name, 6, before + [wrong, q])
    for name, wrong in {
        "own entry one more under header 11": entry(own, event[own] + 1),
        "own entry one less under header 11": entry(own, event[own] - 1),
        "other entry too high under header 11": entry(clock + other, happened + 1),
    }.items():
        yield Made(name, 7, before + [wrong, q])


def out_of_place(d):
    """A second header of either kind behind each kind of frame, in order or too short, and each kind of frame before header 11."""
    out, messages, _ = sent(d, 3 + d.below(4), 1 + d.below(3))
    n = out[0][1]
    q = asking(d, n)
    of_kind = {0x10: out, 0x11: drawn_panels(d, out, FEW)[0]}
    for first, second in [(0x10, 0x11), (0x11, 0x10), (0x11, 0x11)]:
        header, *happened = of_kind[first]
        again = d.pick([of_kind[second][0], of_kind[second][0][:-1 - d.below(3)]])
        before = {"header": [header], "event": [header] + happened, "message": [header] + happened + messages}
        before["question"] = before["message"] + [q]
        for name, good in before.items():
            behind = d.pick([[], ([header] + happened + messages + [q])[len(good):]])
            yield Made(f"second header, {second:X} after {first:X}, behind a {name}", 4, good + [again] + behind)
    for name, frame in {"event": d.pick([out, of_kind[0x11]])[1], "message": messages[0], "question": q}.items():
        yield Made(f"{name} before header 11", 4, [frame] + of_kind[0x11] + [q])


def questions_at_fault(d):
    """08 cut short, of a station not there, with a byte more; 12 and 13 atoms of all three tokens; 08 and 07 worked out as false. Each is
    asked under both headers."""
    out, messages, _ = sent(d, 3 + d.below(4), 1 + d.below(3))
    n, (i, _, j, _) = out[0][1], messages[-1][1:]
    lead, under = d.pick([[], [2], [5], [6], [3] + atom(d.below(n), 0, 2)]), d.pick([[2], [6], [2, 6], [5, 2], [5, 6], [2, 2, 2]])
    one = lambda: panel(d.below(n), d.below(FEW), d.below(FEW))
    some = lambda k: [b for _ in range(k) for b in d.pick([one(), atom(d.below(n), d.below(FEW), d.below(FEW))])]
    k = 1 + d.below(4)
    mixed = d.pick([clear(i, j) * k + one() + some(11 - k), one() + some(11 - k) + clear(i, j) * k])
    asked = {
        ("08 cut short", 8): lead + one()[:1 + d.below(5)],
        ("08 of a station not there", 8): lead + panel(d.pick([n, n, n + 1, 255]), 0, 2),
        ("08 with a byte more", 8): lead + one() + [d.below(FEW)],
        ("13 atoms, a station of 08 not there", 8): [4] * 12 + some(12) + panel(n, 0, 1),
        ("12 tokens 08", 0): [4] * 11 + one() * 12,
        ("13 tokens 08", 9): [4] * 12 + one() * 13,
        ("12 atoms of 01, 07 and 08", 0): [4] * 11 + mixed,
        ("13 atoms of 01, 07 and 08", 9): [4] * 12 + d.pick([mixed + one(), one() + mixed]),
        ("13 atoms, 12 of them 01", 9): [4] * 12 + d.pick([atom(0, 0, 2) * 12 + one(), one() + atom(0, 0, 2) * 12]),
        ("12 atoms of 01 and 08 as false", 0): [2] + [4] * 11 + one() + some(11),
        ("13 atoms of 01 and 08 as false", 9): [2] + [4] * 12 + one() + some(12),
        ("12 atoms, 07 as false", 16): [2] + [4] * 11 + mixed,
        ("13 atoms, 07 as false", 9): [2] + [4] * 12 + mixed + one(),
        ("width 18 with 08", 9): [3, 3] + [4, 4] + some(3) + [4, 4] + some(3) + [4] + one() * 2,
        ("33 tokens with 08", 9): [2] * 32 + one(),
        ("08 as false", 0): under + one(),
        ("08 as false beside 07 as true", 0): [3] + clear(i, j) + under + one(),
        ("07 as false beside 08", 16): d.pick([[3] + one() + under + clear(i, j), under + [4] + clear(i, j) + one()]),
    }
    for (name, number), q in asked.items():
        for header_and_events in (out, drawn_panels(d, out, FEW)[0]):
            yield Made(name, number, header_and_events + messages + [[0x30] + q])


def messages_at_fault(d):
    """A message under header 11 at fault in any way, and with a receiving clock that lacks the sending."""
    out, messages = to_spoil(d)
    m, eleven = messages[-1], drawn_panels(d, out, FEW)[0]
    *others, lacking, _ = faults(d, out, m)
    for name, wrong in {"message at fault under header 11": d.pick(others), "receiving clock at fault under header 11": lacking}.items():
        yield Made(name, 15, eleven + messages + [wrong, asking(d, out[0][1])])


def made(d):
    kinds = [(kind, EACH) for kind in (headers_at_fault, events_at_fault, out_of_place, messages_at_fault)]
    for kind, times in kinds + [(questions_at_fault, EACH // 2)]:
        for _ in range(times):
            yield from kind(d)


def logs(d):
    yield from partly_damaged(d, frames, SMALL)
    for _ in range(OUTLINES):
        yield log_of(outlines(d))
    for _ in range(TEN):
        yield log_of(under_ten(d))
    yield from as_panels(d)


# COUNTED

SIGNS = {2: "not", 3: "and", 4: "or", 5: "possibly", 6: "always"}


def uses(f, sign, above=()):
    """Each atom of a formula, the sign that it is worked out in, and the tokens above it, the first of the formula first."""
    if f[0] in ATOMS:
        yield f, sign, above
    else:
        for g in f[1:]:
            yield from uses(g, operand_sign(f[0], sign), (*above, f[0]))


def meets(log):
    """What an accepted log of either header is one of."""
    used = [use for f in log.questions for use in uses(f, True) if use[0][0] == 8]
    yield "08 as true", any(sign for _, sign, _ in used)
    yield "08 as false", any(not sign for _, sign, _ in used)
    yield "08 through zero as true", any(sign and lo > hi for (*_, lo, hi), sign, _ in used)
    yield "08 through zero as false", any(not sign and lo > hi for (*_, lo, hi), sign, _ in used)
    for token, name in SIGNS.items():
        yield f"08 under {name}", any(token in above for *_, above in used)
    yield "01, 07 and 08 in one question", any({a[0] for a in atoms(f)} == {*ATOMS} for f in log.questions)
    asked = [a for a, *_ in used]
    yield from told_apart(log, asked) if log.header == 0x11 else all_zero(asked)


def all_zero(asked):
    """Where every panel is 0, by which ranges it is asked for."""
    yield "panel 0 in the range", any(within(lo, hi, 0) for *_, lo, hi in asked)
    yield "panel 0 not in the range", any(not within(lo, hi, 0) for *_, lo, hi in asked)


def told_apart(log, asked):
    """In which ways a panel that is asked for stands out from what else could be taken for it: its value, and the panels before and behind."""
    # Of the header and of each event of the station that is asked about: is the panel in the range, the value, and the panel's low byte?
    rows = [[tuple(within(lo, hi, v) for v in (e.panel, e.value, e.panel % 256)) for e in log.reports(s)] for _, s, lo, hi in asked]
    first = [(row[0][0], row[1][0]) for row in rows if len(row) > 1]
    later = [(a[0], b[0]) for row in rows for a, b in zip(row[1:], row[2:])]
    yield "panel of a station without events", any(len(row) == 1 for row in rows)
    yield "panel whose high byte decides", any(panel != low for row in rows for panel, _, low in row)
    yield "panel in the range and value not", any(panel > value for row in rows for panel, value, _ in row[1:])
    yield "value in the range and panel not", any(panel < value for row in rows for panel, value, _ in row[1:])
    yield "panel of the header in the range and its value not", any(row[0][0] > row[0][1] for row in rows)
    yield "value of the header in the range and its panel not", any(row[0][0] < row[0][1] for row in rows)
    yield "panel of the header in the range and the first event's not", any(a > b for a, b in first)
    yield "panel of the first event in the range and the header's not", any(a < b for a, b in first)
    yield "panel of an event in the range and the next one's not", any(a > b for a, b in later)
    yield "panel of an event in the range and not the one's before", any(a < b for a, b in later)


def under(data, names):
    """Names of what a log is one of, told apart by its header."""
    return [f"{name}, header {data[:2].decode(errors='replace')}" for name in names]


REFUSALS = {0x10: (4, 5, 6, 8, 9, 16), 0x11: (4, 5, 6, 7, 8, 9, 15, 16)}


def due():
    """All that has to be met under each header."""
    for kind, numbers in REFUSALS.items():
        data = log_of([[kind, 1] + [0] * HEADERS[kind]])
        yield from under(data, [name for name, _ in meets(read(data, OPERATIONS))] + [f"refused {k}" for k in numbers])


def as_by_hand(fault):
    """The log of a fault, which the listing refuses as is said by hand."""
    data = log_of(fault.frames)
    refused = met_by(data, lambda log: [])
    if refused != [f"refused {fault.number}"] * (fault.number > 0):
        sys.exit(f"{fault.name}: {fault.number} by hand, {refused} by the listing")
    return data


def counted(seed):
    """The logs, once each thing that they are for is met by enough of them."""
    d = Draw(seed)
    drawn, faults = list(logs(d)), list(made(d))
    all_of, named = drawn + [as_by_hand(fault) for fault in faults], [fault.name for fault in faults]
    met = Counter(name for data in all_of for name in under(data, met_by(data, meets)))
    enough("panels", [*due(), *named], met + Counter(named))
    return [*all_of, *large.with_panels(d)]


def cases(seed):
    return cases_of(counted(seed))
