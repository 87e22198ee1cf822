"""Logs for tests/browser.py, and what the pages of `floor picture` have to show of a log, worked out from it without the product's code."""
from bases import Rule, questioned
from frames import Draw, atom, computation, drawn_panels, frames_of, log_of, message, sendings, valued, word
from listing import OPERATIONS, SILENT, encode, on_the_way, read

NUMBERED = [f"s{s}" for s in range(8)]  # what stations are called that were given no names


class Day:
    """A log, and what its page has to show."""

    def __init__(self, data, names):
        self.log, self.names, rule = read(data, OPERATIONS), names, Rule(read(data, OPERATIONS))
        self.answers = [rule.answer(f) for f in self.log.questions]
        self.moments = {f"{q},{i}": cut for q, (_, cuts, _) in enumerate(self.answers) for i, cut in enumerate(cuts)}
        self.events = [(s, k) for s, events in enumerate(self.log.history) for k in range(1, len(events) + 1)]
        self.lines, numbers = {}, [0] * len(names)
        for line, frame in enumerate(frames_of(data), 1):
            if frame[0] == 0x20:
                numbers[frame[1]] += 1
                self.lines[frame[1], numbers[frame[1]]] = line

    def before(self, a, b):
        return a != b and self.log.clock(*b)[a[0]] >= a[1]

    def direct(self):
        """The events of two stations that one knows of the other and that have none between them."""
        for b in self.events:
            seen = [a for a in self.events if self.before(a, b)]
            yield from ((a, b) for a in seen if a[0] != b[0] and not any(self.before(a, c) for c in seen))

    def messages(self):
        return [((m.sender, m.sent), (m.receiver, m.received)) for m in self.log.messages]

    def arrows(self):
        """What is drawn as an arrow: what no message is drawn for."""
        return sorted(f"{i},{k} {j},{m}" for (i, k), (j, m) in set(self.direct()) - set(self.messages()))

    def label(self, s, k):
        """What stands in the mark of an event."""
        event = self.log.event(s, k)
        return [reported(event)] + ([f"panel {event.panel}"] if self.log.header == 0x11 else [])

    def table(self, cut):
        """The cells of a moment's table."""
        for s, k in enumerate(cut):
            event, line = self.log.event(s, k), str(self.lines[s, k]) if k else "1 (header)"
            yield [self.names[s], str(k), line, reported(event)] + ([str(event.panel)] if self.log.header == 0x11 else [])

    def waiting(self, cut):
        """The lines of the messages that are on the way."""
        stations = range(len(cut))
        first = 2 + len(self.events)
        way = {m for i in stations for j in stations for m in on_the_way(self.log, i, j, cut)}
        return [first + number for number, m in enumerate(self.log.messages) if m in way]


def reported(event):
    return "silent" if event.value == SILENT else str(event.value)


def implied():
    """Station 0 is at 9 only after it knows, by way of station 1 alone, that station 2 is past 5: its clock's entry has no arrow."""
    events = [[2, *word(5), 0, 0, 1], [2, *word(0), 0, 0, 2], [1, *word(1), 0, 1, 2], [0, *word(9), 1, 1, 2]]
    return log_of([[0x10, 3] + [0] * 6, *([0x20, *event] for event in events), [0x30, 3] + atom(0, 9, 9) + atom(2, 5, 5)])


def made_up():
    """8 stations, 254 events, panels, silent stations, messages, some of which join what an arrow would, 16 questions; the last asks for
    one value or another, each reported once in the middle of the day, so that it has several moments."""
    d = Draw(20261117)
    frames = valued(computation(d, 8, 254, 8, 4)[0], lambda s: SILENT if d.below(20) == 0 else d.below(8))
    for s in range(4):
        [f for f in frames if f[:2] == [0x20, s]][12][2:4] = word(1000 + s)
    direct = Day(log_of(frames), NUMBERED).direct()
    frames += sendings(d, frames, 40) + [message(*a, *b) for a, b in [*direct][:10]]
    ways = [4] * 3 + [b for s in range(4) for b in atom(s, 1000 + s, 1000 + s)]
    return questioned(d, drawn_panels(d, frames, 4)[0], 15) + encode([0x30] + ways)
