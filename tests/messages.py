"""The corpus of logs with messages, and what is to come of each as of the other corpus.

Small computations whose messages are of one or two pairs of stations, with questions about what is on the way; about two in five are
damaged as in the other corpus. Then computations in which receiving one message mostly brings in the sending of the next. Some more have
each fault of a message frame and of a question with 07, frames out of place, and 64 or 65 messages. The last are about the most events.
What has to be met is counted.
"""
from collections import Counter

import large
from bases import Rule
from corpus import cases_of, enough, met_by, partly_damaged, question
from frames import Draw, asked_of, clear, computation, drawn_atom, log_of, message, receivers, sendings, with_clear, word
from listing import OPERATIONS, atoms, on_the_way, read

SMALL, BELTS, EACH, SIGNED, FULL = 420, 90, 20, 10, 14


def sent(d, events, most):
    """Header, events and at most so many messages of 2 to 4 stations, one of them received; and the values seen at each station."""
    while True:
        out, seen = computation(d, 2 + d.below(3), events, 4, 2)
        messages = sendings(d, out, most)
        if any(m[4] for m in messages):
            return out, messages, seen


def frames(d):
    """Header, events, messages and questions; a question may be too large, or have a 07 that is worked out as false."""
    out, messages, seen = sent(d, 3 + d.below(6), 1 + d.below(8))
    pairs = asked_of(d, out + messages)
    return out + messages + [[0x30] + with_clear(d, question(d, seen), pairs) for _ in range(1 + d.below(3))]


def belt(d):
    """Pieces that one station sends on and another receives in turn, mostly with the sending of the next one seen; the last may never come.
    Their messages stand in turn or, mostly, from the last to the first."""
    k, seen = 2 + d.below(4), 0
    out = [[0x10, 2] + [0, 0] * 2] + [[0x20, 0] + word(d.below(4)) + [e, 0] for e in range(1, k + 1)]
    for r in range(1, k + 1):
        seen = max(seen, min(r + d.pick([0, 1, 1, 2]), k))
        out.append([0x20, 1] + word(d.below(4)) + [seen, r])
    messages = [message(0, e, 1, e) for e in range(1, k)] + [message(0, k, 1, d.pick([0, k, k]))]
    messages = d.pick([messages, messages[::-1], messages[::-1]])
    some = lambda: d.pick([clear(0, 1), clear(0, 1), drawn_atom(d, 2, 4)])
    questions = [d.pick([[3], [4], [5, 3], [2, 5, 3]]) + clear(0, 1) + some() for _ in range(1 + d.below(3))]
    return out + messages + [[0x30] + q for q in questions]


# FAULTS

def faults(d, out, m):
    """A received message with one thing wrong, in each way that there is; at the receiver an event has not seen the sending."""
    n, (i, k, j, r) = out[0][1], m[1:]
    count = lambda s: sum(f[:2] == [0x20, s] for f in out)
    seen = [f[4 + i] for f in out if f[:2] == [0x20, j]]
    lacking = d.pick([e for e, entry in enumerate(seen, 1) if entry < k])
    beyond = lambda least: d.pick([least] * 6 + [least + 1, 255])
    yield m[:1 + d.below(4)]
    yield m + [d.below(3) for _ in range(1 + d.below(3))]
    yield message(beyond(n), k, j, d.pick([0, r]))
    yield message(i, k, beyond(n), r)
    yield message(i, k, beyond(n))
    yield message(i, 0, j, d.pick([0, r]))
    yield message(i, beyond(count(i) + 1), j)
    yield message(i, k, j, beyond(count(j) + 1))
    yield message(i, k, i, d.pick([0, k, count(i)]))
    yield message(i, k, j, lacking)
    yield message(i, seen[lacking - 1] + 1, j, lacking)


def to_spoil(d):
    """Header and events, and messages, the last of which is received at a station of which some event has not seen the sending."""
    while True:
        out, messages, _ = sent(d, 5 + d.below(4), 1 + d.below(3))
        m = messages[-1]
        events = sum(f[:2] == [0x20, m[3]] for f in out)
        if m[4] and len(receivers(out, *m[1:4])) < events:
            return out, messages


def asking(d, n, i, j):
    """A question about a pair of stations."""
    return [0x30] + d.pick([clear(i, j), [3] + clear(i, j) + drawn_atom(d, n, 4), [3] + drawn_atom(d, n, 4) + clear(i, j)])


def faulty(d):
    """A message at fault in each way, before the others or behind them, and one that has no fault."""
    out, messages = to_spoil(d)
    m = messages[-1]
    q = asking(d, out[0][1], m[1], m[3])
    for wrong in [*faults(d, out, m), m]:
        yield log_of(out + d.pick([[wrong] + messages, messages + [wrong]]) + [q])


def out_of_place(d):
    """A message before the header, after a question or before an event or a header, in order but for that or of a wrong length."""
    out, messages = to_spoil(d)
    m = messages[-1]
    q, last = asking(d, out[0][1], m[1], m[3]), d.pick([out[-1], out[-1][:-1]])
    yield log_of([d.pick([m, m[:-1]])] + out + [q])
    yield log_of(out + messages + [q, d.pick([m, m[:-1]])])
    yield log_of(out[:-1] + [message(m[1], 1, m[3])] + [last, q])
    yield log_of(out + messages + [out[0], q])


def at_limit(d):
    """64 messages, and a 65th in order and at fault."""
    out, messages = to_spoil(d)
    m, full = messages[-1], (messages * 64)[:63] + [messages[0]]
    q = asking(d, out[0][1], m[1], m[3])
    yield log_of(out + full + [q])
    yield log_of(out + full + [m, q])
    yield log_of(out + full + [d.pick([*faults(d, out, m)]), q])


def questions_at_fault(d):
    """A station of 07 that is not there, 07 cut short, and 12 and 13 atoms, some of them 07, as true and as false."""
    out, messages = to_spoil(d)
    n, (i, _, j, _) = out[0][1], messages[-1][1:]
    some = lambda k: [b for _ in range(k) for b in drawn_atom(d, n, 4)]
    way, k = d.pick([[], [5], [3] + some(1), [2, 2]]), 1 + d.below(12)
    twelve = d.pick([clear(i, j) * k + some(12 - k), some(12 - k) + clear(i, j) * k])
    not_there = [way + clear(n, j), way + clear(i, n), way + clear(i, j)[:1 + d.below(2)]]
    for q in not_there + [[4] * 11 + twelve, [4] * 12 + twelve + some(1), [2] + [4] * 12 + twelve + some(1)]:
        yield log_of(out + messages + [[0x30] + q])


FINE = [[], [2, 2], [5], [2, 5], [6, 2], [6, 5], [2, 6, 2]]
UNWORKABLE = [[2], [6], [2, 6], [5, 2], [5, 6], [2, 2, 2], [6, 2, 2]]


def signed(d):
    """A 07 behind every two or three signs, alone and as one side of "and" and "or"."""
    out, messages = to_spoil(d)
    n, (i, _, j, _) = out[0][1], messages[-1][1:]
    for lead in FINE + UNWORKABLE:
        one, other = clear(i, j), drawn_atom(d, n, 4)
        yield log_of(out + messages + [[0x30] + lead + d.pick([one, [3] + one + other, [4] + other + one])])


def logs(seed):
    d = Draw(seed)
    yield from partly_damaged(d, frames, SMALL)
    for _ in range(BELTS):
        yield log_of(belt(d))
    for made, times in [(faulty, EACH), (out_of_place, EACH), (questions_at_fault, EACH), (signed, SIGNED), (at_limit, FULL)]:
        for _ in range(times):
            yield from made(d)
    yield from large.with_messages(d)


# COUNTED

def one_pass(log, i, j, c):
    """A cut joined with the clocks of all events that receive what is on the way; None where something never came."""
    due = on_the_way(log, i, j, c)
    if not all(m.received for m in due):
        return None
    return tuple(map(max, c, *(log.clock(j, m.received) for m in due))) if due else c


def meets(log):
    """What an accepted log is one of."""
    asked = [a for f in log.questions for a in atoms(f) if a[0] == 7]
    starts = [(i, j, c) for _, i, j in set(asked) for c in Rule(log).starts]
    raised = [(i, j, c, one_pass(log, i, j, c)) for i, j, c in starts]
    yield "accepted, with 07", asked
    yield "07 of one station", any(i == j for _, i, j in asked)
    yield "never received", any(m.received == 0 for m in log.messages)
    yield "named twice", len(set(log.messages)) < len(log.messages)
    yield "64 messages", len(log.messages) == OPERATIONS.messages
    yield "nothing on the way", any(c == d for *_, c, d in raised)
    yield "received in one pass", any(d not in (c, None) and not on_the_way(log, i, j, d) for i, j, c, d in raised)
    yield "one pass not enough", any(d is not None and on_the_way(log, i, j, d) for i, j, c, d in raised)
    yield "on the way for ever", any(d is None for *_, d in raised)


NAMES = [*(name for name, _ in meets(read(log_of([[0x10, 1, 0, 0]]), OPERATIONS))), *(f"refused {k}" for k in (4, 8, 9, 15, 16))]


def counted(made):
    """The logs, once each thing that they are for is met by enough of them."""
    made = list(made)
    enough("messages", NAMES, Counter(name for data in made for name in met_by(data, meets)))
    return made


def cases(seed):
    return cases_of(counted(logs(seed)))
