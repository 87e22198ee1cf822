"""The cases of document 01's bench section and limits for Forecast, Answer, Holds and the program, and what is to come of each."""
import sys

from frames import ONE, WORKSPACE, atom, case, clear, in_turn, log_of, message, panel
from listing import OPERATIONS, Listing, Refused, answer_line, encode, forecast, printed, read

Q = [3] + atom(0, 5, 5) + atom(1, 1, 1)
QUESTIONS = [
    Q,
    [5] + Q,
    [6, 2] + Q,
    atom(0, 5, 5),
    atom(0, 6, 9),
    [6] + atom(0, 0, 5),
    [4, 3] + atom(0, 5, 5) + atom(1, 0, 0) + [3] + atom(0, 0, 0) + atom(1, 1, 1),
    [4] + Q + Q,
    [3] + atom(0, 6, 9) + Q,
    [3] + atom(0, 0, 0) + atom(1, 2, 2),
    [3] + atom(0, 0, 5) + [6, 2] + Q,
    [5, 3] + atom(0, 5, 5) + atom(1, 0, 0),
    [2, 5] + Q,
    [2, 6] + atom(0, 0, 5),
    [3] * 3 + ([4] + atom(0, 0, 5) + atom(1, 0, 1)) * 4,
    [6, 4] + [2] + atom(0, 5, 5) + [5] + atom(1, 2, 2),
]
# Ranges through zero: the values 2 and 0 of station 1 and not 1; its three values at either end; every value, and none.
THROUGH_ZERO = [
    atom(1, 2, 0),
    [2] + atom(1, 2, 0),
    [5, 2] + atom(1, 2, 0),
    [6] + atom(1, 2, 0),
    atom(1, 3, 0),
    [2] + atom(1, 3, 0),
    atom(0, 65535, 0),
    atom(0, 5, 4),
    [2] + atom(0, 5, 4),
    [6] + atom(0, 6, 5),
    atom(0, 65535, 65534),
    [2] + atom(1, 1, 0),
    [3] + atom(0, 5, 1) + atom(1, 2, 0),
    [3] + atom(0, 6, 0) + [2] + atom(1, 2, 0),
    [4] + atom(0, 6, 1) + atom(1, 65535, 0),
    [3] + [2] + atom(0, 5, 4) + atom(1, 2, 0),
]
HEAD = b"100200000000EE\n200000050100DA\n200100010001DD\n200100020102DA\n"
BENCH = HEAD + b"3003010000050005010100010001BE\n"
ALL = HEAD + log_of([0x30] + q for q in QUESTIONS)
ZERO = HEAD + log_of([0x30] + q for q in THROUGH_ZERO)
WIDE18 = HEAD + encode([0x30, 3, 3] + [4, 4] + atom(0, 0, 5) * 3 + [4, 4] + atom(1, 0, 5) * 3 + [4] + atom(0, 0, 5) * 2)
HEADER = encode(ONE)

# Questions about messages between two stations.
CLEAR = [
    clear(0, 1),
    clear(1, 0),
    clear(1, 1),
    [2, 2] + clear(),
    [5] + clear(),
    [2, 5] + clear(),
    [6, 2] + clear(),
    [2, 6, 2] + clear(),
    [6, 5] + clear(),
    [3] + atom(0, 5, 5) + clear(),
    [3] + clear() + atom(1, 0, 2),
    [3] + clear() + clear(1, 0),
    [4] + clear() + atom(0, 5, 5),
    [5, 3] + clear() + atom(0, 5, 5),
    [2, 4, 2] + clear() + [2] + atom(1, 1, 1),
    [3] + clear() + [6, 2] + Q,
]
RECEIVED, NEVER = message(0, 1, 1, 2), message(0, 1, 1)
# Two sendings of station 0, of which event 2 of station 1 has seen both.
BOTH_SEEN = log_of([[0x10, 2, 0, 0, 0, 0], [0x20, 0, 0, 5, 1, 0], [0x20, 0, 0, 6, 2, 0], [0x20, 1, 0, 1, 0, 1], [0x20, 1, 0, 2, 2, 2],
                    [0x20, 1, 0, 3, 2, 3]])
# Header and events, and messages: none, received, never, and both with one of them named twice; received in turn, so that the first's
# receiving brings in the second's sending, received the other way about, at one event, and the second never.
SENT = [
    (HEAD, []),
    (HEAD, [RECEIVED]),
    (HEAD, [NEVER]),
    (HEAD, [RECEIVED, NEVER, RECEIVED]),
    (BOTH_SEEN, [message(0, 1, 1, 2), message(0, 2, 1, 3)]),
    (BOTH_SEEN, [message(0, 1, 1, 3), message(0, 2, 1, 2)]),
    (BOTH_SEEN, [message(0, 2, 1, 2), message(0, 1, 1, 2)]),
    (BOTH_SEEN, [message(0, 1, 1, 2), message(0, 2, 1)]),
]
CONVEYORS = [log + log_of(messages + [[0x30] + q for q in CLEAR]) for log, messages in SENT]
# The bench log with panels, which are of the same numbers as its values: 5 and then 0 at station 0, 2 twice and then 0 at station 1.
HEADER11, EVENTS11 = [0x11, 2, 0, 0, 0, 5, 0, 0, 0, 2], [[0x20, 0, 0, 5, 0, 0, 1, 0], [0x20, 1, 0, 1, 0, 2, 0, 1], [0x20, 1, 0, 2, 0, 0, 1, 2]]
HEAD11 = log_of([HEADER11] + EVENTS11)
# Header 11 of the length of 10, header 10 of the length of 11, and each header with the other one's events.
SHORT_HEADER, LONG_HEADER = log_of([HEADER11[:-4]] + EVENTS11), log_of([[0x10] + HEADER11[1:]] + EVENTS11)
SHORT_EVENT, LONG_EVENT = encode(HEADER11) + HEAD.partition(b"\n")[2], log_of([[0x10, 2, 0, 0, 0, 0]] + EVENTS11)
# Questions about panels: of the header, of an event, of two stations, beside values and messages, and through zero.
PANELS = [
    panel(0, 5, 5),
    [2] + panel(0, 5, 5),
    panel(1, 2, 2),
    [2] + panel(1, 0, 1),
    [5] + panel(1, 0, 0),
    [6] + panel(1, 2, 2),
    [2, 6] + panel(0, 0, 0),
    [2, 5] + panel(0, 5, 5),
    [3] + atom(0, 5, 5) + panel(1, 2, 2),
    [3] + panel(0, 0, 0) + panel(1, 0, 0),
    [4, 3] + panel(0, 5, 5) + atom(1, 1, 1) + [3] + panel(0, 0, 0) + [2] + panel(1, 2, 2),
    [3] + panel(0, 0, 4) + [3] + clear() + atom(1, 1, 2),
    panel(1, 5, 1),
    [2] + panel(1, 5, 1),
    [6, 4] + panel(0, 5, 4) + panel(1, 1, 0),
    [3] + panel(1, 2, 2) + [6, 2] + Q,
]
# Header and events, and messages, with every panel 0 and with panels.
PANELLED = [(HEAD, []), (HEAD11, []), (HEAD11, [RECEIVED]), (HEAD11, [NEVER])]
OUTLINES = [log + log_of(messages + [[0x30] + q for q in PANELS]) for log, messages in PANELLED]
# Header and events, messages and a question of the bench log, and what is printed, worked out by hand.
BY_HAND = [(HEAD, *worked_out) for worked_out in [
    ([], clear(), b"400101010200000000BB\n"),
    ([RECEIVED], clear(), b"400101010200000000BB\n"),
    ([NEVER], clear(), b"400101000100000000BD\n"),
    ([RECEIVED], [3] + atom(0, 5, 5) + [2, 2] + clear(), b"400001010200000007B5\n"),
    ([NEVER], [3] + atom(0, 5, 5) + clear(), b"40000000000004BC\n"),
    ([NEVER], [3] + atom(0, 5, 5) + clear(1, 0), b"400001010200000006B6\n"),
    ([RECEIVED], [6, 2] + clear(), b"40000000000000C0\n"),
    ([RECEIVED], [6] + clear(), b"501000069A\n"),
    ([RECEIVED], [5, 2] + clear(), b"501000069A\n"),
    ([RECEIVED], clear(0, 2), b"50080006A2\n"),
    ([message(0, 1, 1, 1)], clear(), b"500F00059C\n"),
    ([message(0, 0, 1, 2)], clear(), b"500F00059C\n"),
]]
PANELS_BY_HAND = [
    (HEAD, [], panel(0, 0, 0), b"400101010200000000BB\n"),
    (HEAD, [], panel(0, 5, 5), b"40000000000000C0\n"),
    (HEAD, [], [2] + panel(1, 1, 2), b"400101010200000000BB\n"),
    (HEAD, [], [3] + atom(0, 5, 5) + panel(1, 5, 4), b"400001010200000006B6\n"),
    (HEAD, [], panel(2, 0, 0), b"50080005A3\n"),
    (HEAD11, [], Q, b"400001010100000007B6\n"),
    (HEAD11, [], panel(0, 5, 5), b"400101000100000000BD\n"),
    (HEAD11, [], [2] + panel(0, 5, 5), b"400001010200000000BC\n"),
    (HEAD11, [], [3] + atom(0, 5, 5) + panel(1, 2, 2), b"400001010100000006B7\n"),
    (HEAD11, [], [3] + panel(0, 0, 0) + panel(1, 0, 0), b"400001010200000007B5\n"),
    (HEAD11, [], panel(1, 5, 1), b"400001010200000000BC\n"),
    (HEAD11, [], [2] + panel(1, 5, 1), b"400101010100000000BC\n"),
    (HEAD11, [], [6] + panel(1, 2, 2), b"40000000000000C0\n"),
    (HEAD11, [], panel(2, 0, 0), b"50080005A3\n"),
    (HEAD11, [], panel()[:-1], b"50080005A3\n"),
    (HEAD11, [NEVER], [3] + panel(0, 5, 5) + clear(), b"400101000100000004B9\n"),
    (HEAD11, [RECEIVED], [3] + panel(0, 5, 5) + [2] + clear(), b"501000069A\n"),
    (HEAD11, [message(0, 1, 1, 1)], panel(), b"500F00059C\n"),
    (SHORT_HEADER, [], panel(), b"50050001AA\n"),
    (LONG_HEADER, [], panel(), b"50050001AA\n"),
    (SHORT_EVENT, [], panel(), b"50060002A8\n"),
    (LONG_EVENT, [], panel(), b"50060002A8\n"),
    (HEAD11 + encode(HEADER11), [], panel(), b"50040005A7\n"),
    (HEAD + encode(HEADER11), [], panel(), b"50040005A7\n"),
]


def chain(k):
    """One station with k events, and a question that holds after every third."""
    return log_of([ONE] + in_turn(1, k, lambda i: i % 3) + [[0x30] + atom(0, 2, 2)])


def ladder(stations, k):
    """Stations that send on in turn, with a question of width 16 and one with bars."""
    ways = [[4] + atom(j % stations, j % 4, j % 4) + atom((j + 1) % stations, 1, 2) for j in range(4)]
    wide, barred = [3] * 3 + [b for w in ways for b in w], [6, 4, 4] + atom(0, 0, 1) + [5] + atom(1, 3, 3) + atom(0, 2, 3)
    return log_of([[0x10, stations] + [0, 0] * stations] + in_turn(stations, k, lambda i: i % 4) + [[0x30] + wide, [0x30] + barred])


def deep(stations, k):
    """Stations that send on in turn, with a question that holds 36 structures and has the highest ceiling, the most that there can be."""
    parts = [atom(stations - 1, 0, 3)] * 4 + [[4] + atom(j % stations, 0, j % 4) + atom((j + 1) % stations, 1, 3) for j in range(4)]
    question = [b for p in parts[:-1] for b in [3] + p] + parts[-1]
    return log_of([[0x10, stations] + [0, 0] * stations] + in_turn(stations, k, lambda i: i % 4) + [[0x30] + question])


def asked(data, q):
    """The log, and its question of a number."""
    log = read(data, OPERATIONS)
    if q >= len(log.questions):
        raise Refused(10)
    return log, log.questions[q]


def foretold(data, q):
    """What Forecast prints."""
    try:
        return " ".join(["", *map(str, forecast(*asked(data, q)))]) + "\n"
    except Refused as r:
        return f" refused {r.number} {r.line}\n"


def replied(data, q, cut=None, cells=WORKSPACE, short=0, size=300):
    """What Answer, or Holds at a cut, prints."""
    letter = "A" if cut is None else "H"
    try:
        log, f = asked(data, q)
        if cut is not None and tuple(cut) not in Listing(log).cuts:
            raise Refused(13)
        if short or cells < forecast(log, f)[3]:
            raise Refused(11)
        if cut is None and size < 273:
            raise Refused(12)
    except Refused as r:
        return f"{letter} refused {r.number} {r.line} kept\n"
    listing = Listing(log)
    if cut is None:
        return "A kept\n" + answer_line(*listing.answer(f)).decode()
    return "H yes\n" if tuple(cut) in listing.true(f) else "H no\n"


def program(data):
    return case("P", data), b"P\n" + printed(data)


def foretells(data, q):
    return case("F", data, q), f"F{foretold(data, q)}".encode()


def answer(data, q, cells=WORKSPACE, short=0, size=300):
    return case("A", data, q, (), short, cells, size), replied(data, q, None, cells, short, size).encode()


def holds(data, q, cut, cells=WORKSPACE, short=0):
    return case("H", data, q, cut, short, cells), replied(data, q, cut, cells, short).encode()


def about(data, q):
    """The cells that are forecast for a question, one less and one more."""
    cells = forecast(*asked(data, q))[3]
    return cells - 1, cells, cells + 1


LOGS = (BENCH, ALL, ZERO, HEAD, b"", b"\n", WIDE18, chain(127), chain(128), chain(0), HEADER, b"0" * 8193, ladder(3, 24), ladder(2, 40),
        chain(254), chain(255))
LACKING, NEGATED = HEAD + log_of([message(0, 1, 1, 1), [0x30] + Q]), HEAD + log_of([RECEIVED, [0x30] + Q, [0x30, 2] + clear()])
MESSAGES_65 = HEAD + log_of([RECEIVED] * 65 + [[0x30] + Q])
REFUSED = (BENCH[:-1], b"", BENCH.lower(), WIDE18, chain(255), LACKING, NEGATED, MESSAGES_65, SHORT_HEADER, SHORT_EVENT)


def forecasts():
    """Every question of the bench's logs and of some larger ones, and numbers past the last; logs that are refused."""
    for data in (*LOGS, deep(1, 127), deep(8, 127), deep(8, 0), ladder(8, 127)):
        for q in range(17):
            yield foretells(data, q)
            if "refused" in foretold(data, q):
                break
    for data in (ALL, *REFUSED, chain(128)):
        yield foretells(data, 255)


def rooms():
    """Answer and Holds lent the cells that are forecast, one less and one more, none, or 65,535 of more; and a bar space one cell short."""
    for f in QUESTIONS + THROUGH_ZERO:
        data = HEAD + encode([0x30] + f)
        for cells in about(data, 0):
            yield answer(data, 0, cells)
            yield holds(data, 0, (0, 0), cells)
            yield holds(data, 0, (1, 1), cells)
    for short in (0, 1):
        for cells in (0, *about(BENCH, 0), WORKSPACE):
            for size in (0, 272, 273, 300):
                yield answer(BENCH, 0, cells, short, size)
                yield answer(BENCH, 1, cells, short, size)
            for cut in [(1, 1), (1, 0), (0, 2), (1,), (2, 0)]:
                yield holds(BENCH, 0, cut, cells, short)
                yield holds(BENCH, 7, cut, cells, short)
    for data in (*REFUSED, chain(128)):
        yield answer(data, 0, 0, 1, 0)
        yield holds(data, 0, (9,), 0, 1)
    for data in (chain(0), chain(127), chain(254), deep(1, 0), deep(1, 127), deep(2, 40), deep(3, 24)):
        for cells in about(data, 0):
            yield answer(data, 0, cells)
    yield answer(deep(8, 127), 0, about(deep(8, 127), 0)[0])
    yield answer(deep(8, 254), 0)
    yield holds(deep(8, 254), 0, [0] * 8)


def by_hand(worked_out):
    """The logs that were worked out by hand, which the listing has to agree with."""
    for head, messages, q, line in worked_out:
        data = head + log_of(messages + [[0x30] + q])
        if printed(data) != line:
            sys.exit(f"{line} by hand, {printed(data)} by the listing: {messages}, {q}")
        yield data, line


def one_by_one(logs, questions, closely):
    """Questions one by one: Answer, and Holds at every consistent cut and at one that is not; of one log Forecast, which depends on no
    message and no panel, and the cells about it."""
    for log, messages in logs:
        for f in questions:
            data = log + log_of(messages + [[0x30] + f])
            yield answer(data, 0)
            for cut in [*Listing(asked(data, 0)[0]).cuts, (0, 2)]:
                yield holds(data, 0, cut)
            if (log, messages) == closely:
                yield foretells(data, 0)
                for cells in about(data, 0):
                    yield answer(data, 0, cells)
                    yield holds(data, 0, (1, 2), cells)


def in_each_way(logs, worked_out):
    """What the program prints for logs, and each operation besides for those that were worked out by hand."""
    for data in logs:
        yield program(data)
    for data, _ in by_hand(worked_out):
        yield program(data)
        yield foretells(data, 0)
        yield answer(data, 0)
        yield holds(data, 0, (1, 1))


def cases():
    for data in LOGS:
        yield program(data)
    for data in (ALL, ZERO):
        for q in range(len(QUESTIONS) + 1):
            yield answer(data, q)
            for cut in [(a, b) for a in range(3) for b in range(4)] + [(), (0,), (0, 0, 0)]:
                yield holds(data, q, cut)
    yield from forecasts()
    yield from rooms()
    for q in (0, 1):
        yield answer(ladder(3, 24), q)
    yield from one_by_one(SENT, CLEAR, (HEAD, [RECEIVED]))
    yield from in_each_way(CONVEYORS, BY_HAND)
    yield from one_by_one(PANELLED, PANELS, (HEAD11, [RECEIVED]))
    yield from in_each_way(OUTLINES, PANELS_BY_HAND)
