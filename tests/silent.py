"""The corpus of logs with silent stations, and what is to come of each as of the other corpus.

A station that reports FFFF is silent: its value is neither inside a range nor outside it (document 02, ticket 7). In small computations
stations are silent throughout, at first, later, now and then, or never. Half have header 11, with panels of the same numbers, and one in
three has messages. Then one range behind every one, two or three signs; ranges that end at FFFF, as true and as false; two ranges joined
under every sign; stations that never speak; and values as panels, which have to be answered as the values were before the ticket. On all
these, listing and rule have to agree about truth and about falsity at each cut. What has to be met is counted, and so are the logs that are
answered otherwise than before the ticket. The last logs have up to the most events.
"""
import sys
from collections import Counter

import bases
from bases import Rule, questioned
from corpus import cases_of, enough, met_by, moments
from frames import (Draw, asked_of, atom, computation, formula, frames_of, log_of, panel, panelled, respelled, turned, valued, with_clear,
                    with_panel, word)
from large import MOST, coupled
from listing import ATOMS, HEADERS, OPERATIONS, SILENT, Listing, Refused, contained, read, silences, verdict, within, workable
from panels import SIGNS, computed, under, uses

SMALL, SIGNED, ENDING, JOINED, MUTE, TURNED = 400, 60, 32, 60, 30, 24
MANY = 80  # the least number of logs of either header that are answered otherwise than before the ticket
SPOKEN = [0, 1, 2, SILENT - 1]
ENDS = [0, 1, 2, 3, SILENT - 2, SILENT - 1, SILENT]
NUMBERS = [0, 1, SILENT - 1, SILENT]  # panels
WAYS = ["throughout", "never"] + ["at first", "later"] * 2 + ["now and then"] * 4


def muted(d, frames, ways=WAYS):
    """Frames of header 10 with stations that are silent in one of these ways, and the values seen at each."""
    seen, turn = [[] for _ in range(frames[0][1])], 1 + d.below(2)
    ways = [d.pick(ways) for _ in seen]

    def value(s):
        k, now, spoken = len(seen[s]), d.below(2), d.pick(SPOKEN)
        silent = {"throughout": True, "never": False, "at first": k < turn, "later": k >= turn, "now and then": now}[ways[s]]
        seen[s].append(SILENT if silent else spoken)
        return seen[s][-1]

    return valued(frames, value), seen


def ranged(d, values):
    """The ends of a range: about FFFF and 0, and values that were seen; mostly any two, else FFFF and one, one alone, or every value."""
    one, other = d.pick(ENDS + values), d.pick(ENDS + values)
    return d.pick([(one, other)] * 5 + [(one, SILENT), (SILENT, one), (one, one), (0, SILENT), (one, (one - 1) % 65536)])


def question(d, seen):
    """Values that were spoken at all stations at once, or any formula with such ranges."""
    if d.below(3) == 0:
        return moments(d, [[v for v in values if v != SILENT] or SPOKEN for values in seen])
    return respelled(formula(d, len(seen), 1 + d.below(5)), lambda a, _: atom(a[1], *ranged(d, seen[a[1]])))


def numbered(d, frames):
    """Frames of header 10 as frames of header 11, with panels of which some are FFFF."""
    return panelled(frames, lambda s: d.pick(NUMBERS))


def frames(d):
    """Header of either kind, events, messages and questions, with 08 in one in four logs of header 10 too; a question may be too large, or
    have a 07 that is worked out as false."""
    out, _, messages = computed(d)
    out, seen = muted(d, out)
    pairs, panels = asked_of(d, out + messages), d.below(2)
    questions = [question(d, seen) for _ in range(1 + d.below(3))]
    questions = [with_clear(d, q, pairs) if messages else q for q in questions]
    questions = [with_panel(d, q) for q in questions] if panels or d.below(4) == 0 else questions
    return (numbered(d, out) if panels else out) + messages + [[0x30] + q for q in questions]


# SIXTEEN QUESTIONS

LEADS = [[], [2], [2, 2], [5], [6], [2, 5], [2, 6], [5, 2], [6, 2], [2, 5, 2], [2, 6, 2], [5, 6], [6, 5]]


def signed(d, seen, token):
    """One range behind every one, two or three signs, and joined with its own negation."""
    s = d.below(len(seen))
    p = token(s, *ranged(d, seen[s]))
    return [lead + p for lead in LEADS] + [lead + p + [2] + p for lead in ([3], [4], [6, 4])]


def ending(d, seen, token):
    """Ranges that end at FFFF or beside it, or that hold every value, as true and as false."""
    s, v = d.below(len(seen)), d.pick(SPOKEN)
    ends = [(SILENT, v), (v, SILENT), (SILENT, SILENT), (0, SILENT), (v + 1, v), (SILENT - 1, v), (v, SILENT - 1), (0, 1)]
    return [lead + token(s, lo, hi) for lo, hi in ends for lead in ([], [2])]


def joined(d, seen, token):
    """Two ranges, mostly of two stations, joined by "and" and by "or" under every sign."""
    s = d.below(len(seen))
    other = d.pick([s, *[(s + 1) % len(seen)] * 3])
    ends = lambda s: d.pick([ranged(d, seen[s]), (d.pick(SPOKEN),) * 2, (0, d.below(2))])
    p, r = token(s, *ends(s)), atom(other, *ends(other))
    return [lead + [t] + p + r for t in (3, 4) for lead in ([], [2], [5], [6], [5, 2], [6, 2], [2, 5], [2, 6])]


def sixteen(d, asking, ways):
    """A computation of up to three stations and such questions about it; half have header 11, and one in four of these asks about panels."""
    out, seen = muted(d, computation(d, 1 + d.below(3), 2 + d.below(5), 4, 3)[0], ways)
    if d.below(2):
        return out + [[0x30] + q for q in asking(d, seen, atom)]
    return numbered(d, out) + [[0x30] + q for q in asking(d, seen, d.pick([atom, atom, atom, panel]))]


# VALUES AS PANELS, AND LARGE LOGS

def as_panels(d):
    """Values as panels, where FFFF is a number as any other; the values beside them are silent now and then."""
    out, seen = muted(d, computation(d, 1 + d.below(2), 2 + d.below(4), 4, 3)[0])
    log = log_of(out + [[0x30] + q for q in d.pick([signed, ending])(d, seen, atom)])
    as_values, as_numbers = Listing(read(log, OPERATIONS)), read(turned(log, lambda: d.pick(NUMBERS)), OPERATIONS)
    for f, g in zip(as_values.log.questions, as_numbers.questions):
        if before(as_values, f) != {*Listing(as_numbers).true(g)}:
            sys.exit(f"not as before with its values as panels: {log}, {f}")
    return log_of(as_numbers.frames)


def last_words(d, n, s, spoken, number=None):
    """The most events, all at one station, which speaks in one report alone; and questions about that. With panels if there is a number."""
    clocks = ([k if j == s else 0 for j in range(n)] for k in range(1, MOST + 1))
    out = [[0x10, n] + [0, 0] * n] + [[0x20, s, 0, 0] + clock for clock in clocks]
    v, reports = d.pick(SPOKEN), iter(range(MOST + 1))
    out = valued(out, lambda j: SILENT if j != s or next(reports) != spoken else v)
    p, wrong = atom(s, v, v), atom(s, v + 1, v - 1 if v else SILENT)
    questions = [lead + q for q in (p, wrong) for lead in ([], [2], [5], [6], [6, 2], [2, 5])]
    questions += [[t] + p + [2] + wrong for t in (3, 4)] + [[6, 4] + p + [2] + p, [3] + p + panel(s, SILENT, SILENT)]
    return log_of((panelled(out, number) if number else out) + [[0x30] + q for q in questions])


def silenced(log):
    """A log whose numbers 6 and 7 are FFFF, in values, panels and ranges, and whose 5 are FFFE."""
    other = lambda v: {5: SILENT - 1, 6: SILENT, 7: SILENT}.get(v, v)
    words = lambda b: [x for at in range(0, len(b), 2) for x in word(other(b[at] * 256 + b[at + 1]))]
    spelled = lambda a, _: [7, *a[1:]] if a[0] == 7 else [*a[:2], *word(other(a[2])), *word(other(a[3]))]
    header, *rest = frames_of(log)
    fields = 2 + HEADERS[header[0]]
    out = [header[:2] + words(header[2:])]
    for f in rest:
        out.append(f[:2] + words(f[2:fields]) + f[fields:] if f[0] == 0x20 else [0x30] + respelled(f[1:], spelled) if f[0] == 0x30 else f)
    return log_of(out)


def large_logs(d):
    """Up to the most events: all at one station that speaks once, or of stations that know of most before or of some."""
    for n, s, spoken in [(1, 0, MOST), (1, 0, 0), (1, 0, MOST // 2), (2, 1, 1), (8, 7, MOST)]:
        yield last_words(d, n, s, spoken)
    yield last_words(d, 2, 0, MOST, lambda s: d.pick(NUMBERS))
    for n, k in [(2, 127), (3, 200), (5, 127), (8, MOST)]:
        yield silenced(questioned(d, coupled(d, n, k), 4))
    for n, k, messages, panels in [(3, 127, 12, False), (4, 60, 0, True), (8, MOST, 64, True)]:
        yield silenced(bases.drawn(d, n, k, 4, messages, panels))


def logs(d):
    for _ in range(SMALL):
        yield log_of(frames(d))
    for asking, times in [(signed, SIGNED), (ending, ENDING), (joined, JOINED)]:
        for _ in range(times):
            yield log_of(sixteen(d, asking, WAYS[2:]))
    for _ in range(MUTE):
        yield log_of(sixteen(d, d.pick([signed, signed, joined]), ["throughout"]))
    for _ in range(TURNED):
        yield as_panels(d)


# COUNTED

def before(listing, f):
    """The cuts at which a formula was true before the ticket: FFFF is a number as any other, and what is not true is false."""
    t, log, cuts = f[0], listing.log, listing.cuts
    if t == 1:
        return {c for c in cuts if within(*f[2:], log.event(f[1], c[f[1]]).value)}
    if t in ATOMS:
        return {c for c in cuts if verdict(log, f, c)}
    one = before(listing, f[1])
    if t == 2:
        return {*cuts} - one
    if t in (3, 4):
        two = before(listing, f[2])
        return one & two if t == 3 else one | two
    if t == 5:
        return {c for c in cuts if any(contained(c, d) for d in one)}
    return {c for c in cuts if all(d in one for d in cuts if contained(c, d))}


KINDS = {
    "FFFF as lo": lambda lo, hi: hi < lo == SILENT,
    "FFFF as hi": lambda lo, hi: lo < hi == SILENT,
    "FFFF as lo and hi": lambda lo, hi: lo == hi == SILENT,
    "0000 to FFFF": lambda lo, hi: (lo, hi) == (0, SILENT),
    "through zero": lambda lo, hi: hi < lo,
    "lo one above hi": lambda lo, hi: lo == hi + 1,
    "short of FFFF": lambda lo, hi: lo <= hi < SILENT,
}
NESTED = {(2, 2): "not not", (2, 5): "not possibly", (2, 6): "not always", (5, 2): "possibly not", (6, 2): "always not",
          (5, 6): "possibly always", (6, 5): "always possibly"}


def of_ranges(log, asked):
    """By which ranges stations that are silent somewhere are asked about, in which sign, and under which tokens."""
    for name, kind in KINDS.items():
        yield f"{name}, as true", any(sign and kind(*a[2:]) for a, sign, _ in asked)
        yield f"{name}, as false", any(not sign and kind(*a[2:]) for a, sign, _ in asked)
    for token, name in SIGNS.items():
        yield f"silent under {name}", any(token in above for *_, above in asked)
    for tokens, name in NESTED.items():
        yield f"silent under {name}", any(tokens in zip(above, above[1:]) for *_, above in asked)
    beside = [within(*a[2:], SILENT - 1) for a, *_ in asked if any(e.value == SILENT - 1 for e in log.reports(a[1]))]
    yield "FFFE inside", any(beside)
    yield "FFFE outside", not all(beside)


def of_reports(log, asked):
    """When the stations that are asked about are silent."""
    rows = [[e.value == SILENT for e in log.reports(s)] for s in {a[1] for a, *_ in asked}]
    first, later = [row[:2] for row in rows if len(row) > 1], [pair for row in rows for pair in zip(row[1:], row[2:])]
    yield "silent without events", any(row == [True] for row in rows)
    yield "silent throughout, with events", any(all(row) for row in rows if len(row) > 1)
    yield "silent in the header and not at the first event", any(a > b for a, b in first)
    yield "silent at the first event and not in the header", any(a < b for a, b in first)
    yield "silent at an event and not at the next", any(a > b for a, b in later)
    yield "silent at an event and not at the one before", any(a < b for a, b in later)


def of_panels(log, used):
    """Which panels are asked for where a station is silent, and by which ranges panel FFFF is, where there is one."""
    tested = [(within(*a[2:], e.panel), e) for a, *_ in used if a[0] == 8 for e in log.reports(a[1])]
    for name, wanted in {"in the range": True, "not in the range": False}.items():
        yield f"panel of a silent station {name}", any(inside == wanted for inside, e in tested if e.value == SILENT)
        if log.header == 0x11:
            yield f"panel FFFF {name}", any(inside == wanted for inside, e in tested if e.panel == SILENT)
            yield f"panel FFFF of a station that speaks {name}", any(inside == wanted for inside, e in tested if e.panel == SILENT > e.value)


def verdicts(listing, f):
    """Of each cut whether a formula is true there, or false, or None where it is neither."""
    true, false = {*listing.true(f)}, {*listing.false(f)}
    if true & false:
        sys.exit(f"true and false at one cut: {f}")
    return [True if c in true else False if c in false else None for c in listing.cuts]


def sides(listing, f):
    """What the operands of a formula are at each cut."""
    return [*zip(*(verdicts(listing, g) for g in f[1:]))]


OTHERWISE = "answered otherwise than before"


def of_truth(log):
    """How the questions are answered, and how they would have been before."""
    listing, quiet = Listing(log), silences(log)
    now = [verdicts(listing, f) for f in log.questions]
    was = [[c in held for c in listing.cuts] for held in (before(listing, f) for f in log.questions)]
    changed = [(v, w) for vs, ws in zip(now, was) for v, w in zip(vs, ws)]
    yield OTHERWISE, any((v is True) != w for v, w in changed)
    yield "answered as before", quiet and not any((v is True) != w for v, w in changed)
    yield "true no more", any(v is not True and w for v, w in changed)
    yield "true and not so before", any(v and not w for v, w in changed)
    yield "true no more at the start", any(vs[0] is not True and ws[0] for vs, ws in zip(now, was))
    yield "true at the start and not so before", any(vs[0] and not ws[0] for vs, ws in zip(now, was))
    yield "neither true nor false", any(v is None for v, _ in changed)
    yield "false and not so before", any(v is False and w for v, w in changed)
    lifted = [(f[0], vs[0], [v for (v,) in sides(listing, f)]) for f, vs in zip(log.questions, now) if f[0] in (5, 6)]
    yield "always true, its operand nowhere", any(t == 6 and v and True not in operand for t, v, operand in lifted)
    yield "always false, its operand silent somewhere", any(t == 6 and not v and None in operand for t, v, operand in lifted)
    yield "possibly true, its operand silent somewhere", any(t == 5 and v and None in operand for t, v, operand in lifted)
    yield "possibly false, its operand nowhere", any(t == 5 and not v and False not in operand for t, v, operand in lifted)
    for token in (3, 4):
        met = {frozenset(pair) for f in log.questions if f[0] == token for pair in sides(listing, f)}
        for side, name in {True: "true", False: "false", None: "silent"}.items():
            yield f"{SIGNS[token]} of a silent side and one that is {name}", {side, None} in met


def meets(log):
    """What an accepted log of either header is one of."""
    used = [use for f in log.questions for use in uses(f, True)]
    asked = [use for use in used if use[0][0] == 1 and use[0][1] in silences(log)]
    yield from of_ranges(log, asked)
    yield from of_reports(log, asked)
    yield "07 beside a silent station", asked and any(a[0] == 7 for a, *_ in used)
    yield from of_panels(log, used)
    yield from of_truth(log)


def agreed(data):
    """A log on whose questions, if it is accepted, listing and rule agree: on the answers, and on truth and falsity at each cut."""
    try:
        log = read(data, OPERATIONS)
    except Refused:
        return data
    listing, rule = Listing(log), Rule(log)
    for f in log.questions:
        for sign, held in ((True, listing.true(f)), (False, listing.false(f))):
            basis = rule.basis(f, sign) if workable(f, sign) else None
            if basis is not None and held != [c for c in listing.cuts if any(s.has(c) for s in basis)]:
                sys.exit(f"rule and listing differ as {sign}: {data}, {f}")
        if rule.answer(f) != listing.answer(f):
            sys.exit(f"rule and listing differ: {data}, {f}")
    return data


def counted(seed):
    """The logs, once each thing that they are for is met by enough of them."""
    d = Draw(seed)
    all_of = [agreed(data) for data in logs(d)]
    met = Counter(name for data in all_of for name in under(data, met_by(data, meets)))
    for kind, each in HEADERS.items():
        data = log_of([[kind, 1] + [0] * each])
        enough("silent stations", under(data, [name for name, _ in meets(read(data, OPERATIONS))]), met)
        enough("silent stations", under(data, [OTHERWISE]), met, MANY)
    return [*all_of, *large_logs(d)]


def cases(seed):
    return cases_of(counted(seed))
