"""Logs about the most events and bytes, those of the program and those of the operations, for the corpus; and Holds on such logs.

Where all events are of one station, or each has seen most before it, the cuts are few enough to list.
"""
from bases import Rule, drawn, questioned
from bench_cases import asked, deep, holds, ladder
from frames import (ONE, Draw, atom, case, clear, computation, drawn_panels, in_turn, log_of, message, padded, panel, receivers, sendings,
                    turned, word, wrong_check)
from listing import OPERATIONS, PROGRAM, atoms, encode, verdict
from read_write import FRAMES, LONGEST, OLD_LOG, full_log

MOST = OPERATIONS.events


def all_at(d, n, s):
    """The most events, all at one station, the last value the only one of its kind; and questions about it, and about one never seen."""
    values = [d.below(4) for _ in range(MOST - 1)] + [4]
    clock = lambda k: [k if j == s else 0 for j in range(n)]
    events = [[0x20, s] + word(v) + clock(k) for k, v in enumerate(values, 1)]
    last, never = atom(s, 4, 4), atom(d.below(n), 5, 9)
    some = lambda: d.pick([[], [2], [5], [6], [2, 5], [6, 2]]) + d.pick([last, last, never, atom(s, 0, d.below(4)), atom(d.below(n), 0, 3)])
    questions = [last, [2] + last, [6] + last, [2, 5] + last, [2, 5] + never]
    questions += [[4] + never + last, [3] + last + never, [3] + last + [2, 5] + never]
    questions += [d.pick([[3], [4], [2, 3], [2, 4]]) + some() + some() for _ in range(4)]
    return log_of([[0x10, n] + [0, 0] * n] + events + [[0x30] + q for q in questions])


def coupled(d, n, events):
    """Stations in any order, each event of which has seen all before it but at most two."""
    frames = [[0x10, n] + [b for _ in range(n) for b in word(d.below(8))]]
    seen, last = [[0] * n], [[0] * n for _ in range(n)]
    for i in range(events):
        s = d.below(n)
        last[s] = list(map(max, last[s], seen[max(i - d.pick([0, 0, 1, 2]), 0)]))
        last[s][s] += 1
        seen.append([k + (j == s) for j, k in enumerate(seen[-1])])
        frames.append([0x20, s] + word(d.below(8)) + last[s])
    return frames


def chain(d, k):
    """Header and k events of one station."""
    return [ONE] + in_turn(1, k, lambda i: d.below(4))


def at_limit(d, most):
    """As many events as there may be, and then one more: in order, at fault besides in each way that there is, or with faults behind."""
    more, question = [0x20, 0, 0, 1, most + 1], [0x30] + atom()
    yield log_of(chain(d, most) + [question])
    at_fault = [more[:-1], [0x20], more + [0], [0x20, 1] + more[2:], more[:-1] + [most]]
    for tail in [[more], [more, question], *([f] for f in at_fault), [more, [0x20]], [more, ONE], [more, [0x30]]]:
        yield log_of(chain(d, most) + tail)
    yield log_of(chain(d, most) + [more]) + b"\n"
    yield log_of(chain(d, most)) + wrong_check(more)
    yield log_of(chain(d, most)) + b"G\n"


def faulty(d, way):
    """A log of more events than the program takes, with a wrong clock, station or check byte behind them."""
    frames = chain(d, MOST - d.below(100))
    i = len(frames) - 1 - d.below(20)
    line = [encode([0x20, 0, 0, 1, i + 1]), encode([0x20, 1, 0, 1, i]), wrong_check([0x20, 0, 0, 1, i])][way]
    return log_of(frames[:i]) + line + log_of(frames[i + 1:])


def logs(d):
    for n, s in [(1, 0)] * 9 + [(2, 0), (2, 1), (3, 2), (8, 0), (8, 7)]:
        yield all_at(d, n, s)
    for n, k in [(2, 128), (2, MOST), (3, 200), (4, MOST), (5, 129), (6, 192), (7, 253), (8, MOST)]:
        yield questioned(d, coupled(d, n, k), 4)
    for n, k in [(2, MOST), (3, 160), (5, 228), (8, 128), (8, MOST)]:
        yield drawn(d, n, k, 8)
    for k in (226, 227, MOST):  # up to 226 events a question takes at most 65,536 cells
        yield deep(8, k)
    yield ladder(3, MOST)
    for most in (PROGRAM.events, MOST):
        yield from at_limit(d, most)
    yield log_of([[0x10, 2] + [0, 0] * 2] + in_turn(2, 300, lambda i: d.below(4)))
    for way in (0, 1, 2) * 2:
        yield faulty(d, way)
    yield full_log(OLD_LOG, 7)
    yield full_log(OLD_LOG + 1, 8)
    yield padded(LONGEST, OPERATIONS.log)


def sent_at_the_ends(d, sends):
    """The most events, so many of station 0 and then those of station 1; a message of the last sending, and of the first; and questions."""
    last = MOST - sends
    events = [[0x20, 0] + word(d.below(4)) + [k, 0] for k in range(1, sends + 1)]
    events += [[0x20, 1] + word(d.below(4)) + [sends, k] for k in range(1, last + 1)]
    messages = [message(0, sends, 1, last), message(0, 1, 1, d.pick([0, 1, last]) if last else 0)][:1 + d.below(2)]
    value = d.pick([atom(0, 0, d.below(4)), atom(1, 0, d.below(4))])
    questions = [clear(0, 1), clear(1, 0), [2, 5] + clear(0, 1), [6, 2] + clear(0, 1), [3] + clear(0, 1) + value, [3] + value + clear(0, 1)]
    return log_of([[0x10, 2, 0, 0, 0, 0]] + events + messages + [[0x30] + q for q in questions])


def with_messages(d):
    """Such logs with messages, as many as there may be among them."""
    for sends in (1, MOST - 1, MOST) * 2:
        yield sent_at_the_ends(d, sends)
    for n, k, messages in [(2, 127, 64), (2, MOST, 64), (3, 200, 30), (4, MOST, 64), (6, 192, 10), (8, MOST, 64)]:
        frames = coupled(d, n, k)
        yield questioned(d, frames + sendings(d, frames, messages), 4)
    for n, k, messages in [(2, MOST, 20), (3, 127, 64), (8, MOST, 64)]:
        yield drawn(d, n, k, 6, messages)


def at_panels(d, n, s):
    """The most events, all at one station, the last panel the only one of its kind, and values as other panels."""
    return turned(all_at(d, n, s), lambda: d.below(5))


def with_panels(d):
    """Such logs with panels: the most events, with the most messages and without, one more in order and of the length without panels."""
    for n, s in [(1, 0), (2, 1), (8, 7)]:
        yield at_panels(d, n, s)
    for n, k, messages in [(2, 127, 64), (3, 200, 0), (8, MOST, 64)]:
        frames = coupled(d, n, k)
        frames += sendings(d, frames, messages) if messages else []
        yield questioned(d, drawn_panels(d, frames, 8)[0], 4)
    for n, k, messages in [(3, 127, 64), (8, MOST, 64)]:
        yield drawn(d, n, k, 6, messages, True)
    for most in (PROGRAM.events, MOST):
        (*all_of, more), question = drawn_panels(d, chain(d, most + 1), 4)[0], [0x30] + panel(0, 1, 2)
        for tail in [[question], [more, question], [more[:4] + more[6:]]]:
            yield log_of(all_of + tail)
    for name in ("the longest of 127 events with panels", "the longest with panels"):
        yield log_of(FRAMES[name])


# HOLDS

def at_the_end(d, n, s, questions, log=all_at):
    """Questions at the last count that there can be, and the first one at the counts beside it."""
    data, cut = log(d, n, s), lambda k: [k if j == s else 0 for j in range(n)]
    for q in range(questions):
        yield holds(data, q, cut(MOST))
    yield holds(data, 0, cut(MOST - 1))
    yield holds(data, 0, cut(MOST + 1))


def at_ends(data):
    """A question that is "and" over atoms, at the empty and the full cut, and at the least and the greatest where it is true by the rule."""
    log, f = asked(data, 0)
    [structure] = Rule(log).basis(f, True)
    for cut in [(0,) * len(log.history), tuple(map(len, log.history)), structure.least, structure.top]:
        yield case("H", data, 0, cut), b"H yes\n" if all(verdict(log, a, cut) for a in atoms(f)) else b"H no\n"


def among_many(d):
    """A log with too many cuts to list them."""
    frames, seen = computation(d, 4, MOST, 8, 2)
    yield from at_ends(log_of(frames + [[0x30, 3] + atom(0, seen[0][30], seen[0][30]) + atom(3, seen[3][30], seen[3][30])]))


def on_the_way_among_many(d):
    """Another one, and the question whether nothing is on the way between two stations while a third has a value. The last never came."""
    frames, seen = computation(d, 4, MOST, 8, 2)
    last, value = len(seen[0]) - 1, seen[2][30]
    messages = [message(0, k, 1, receivers(frames, 0, k, 1)[0]) for k in (last // 4, last // 2)] + [message(0, last, 1)]
    yield from at_ends(log_of(frames + messages + [[0x30, 3] + atom(2, value, value) + clear(0, 1)]))


def panels_among_many(d):
    """Another one, and the question whether two stations are at one panel each while the first of them has a value."""
    frames, values = computation(d, 4, MOST, 8, 2)
    frames, panels = drawn_panels(d, frames, 8)
    at = lambda token, s, seen: token(s, seen[s][30], seen[s][30])
    yield from at_ends(log_of(frames + [[0x30, 3] + at(panel, 0, panels) + [3] + at(atom, 0, values) + at(panel, 3, panels)]))


def cases(seed):
    d = Draw(seed)
    yield from at_the_end(d, 1, 0, 8)
    yield from at_the_end(d, 2, 1, 2)
    yield from among_many(d)
    yield from on_the_way_among_many(d)
    yield from at_the_end(d, 1, 0, 3, at_panels)
    yield from panels_among_many(d)
