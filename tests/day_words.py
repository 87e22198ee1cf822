"""A day, its words by docs/FLOOR.md, and its log by docs/FORMAT.md: clocks come from what each event is after.

A day is written in two ways. Its canonical words are those that `floor explain --words` gives back. As it is spoken there are comments,
blank lines, brackets and afters more than are needed, numbers in place of their names, and lines in any order that is allowed.
"""
import re
from collections import namedtuple

from chains import spelled
from frames import frames_of, log_of, word
from listing import SILENT, parse

Station = namedtuple("Station", "name value panel")  # panel None: none is given
Event = namedtuple("Event", "station value panel after")  # after: stations and numbers of their events
USES = re.compile(r"([\w-]+)\s+(?:(?:initially|is)\s+|in\s+(?:([\w-]+)\s*\.\.\s*)?)([\w-]+)|^\s*event\s+([\w-]+)\s+([\w-]+)", re.M)
SIGNS = {2: "not", 3: "and", 4: "or", 5: "possibly", 6: "always"}


def digits(v, _):
    return str(v)


def join(c, d):
    return [*map(max, c, d)]


class Day:
    """Stations, names of values, events, messages and questions; and the clock of each event of each station."""

    def __init__(self, stations, values, events, messages=(), questions=()):
        self.stations, self.values, self.events = stations, values, events
        self.messages, self.questions = list(messages), list(questions)
        self.uses = {}
        self.panels = any(r.panel is not None for r in stations + events)
        n = len(stations)
        self.history = [[[0] * n] for _ in stations]
        self.held = [[s.panel or 0] for s in stations]
        for e in events:
            clock = list(self.history[e.station][-1])
            for j, k in e.after:
                clock = join(clock, self.history[j][k])
            clock[e.station] += 1
            self.history[e.station].append(clock)
            self.held[e.station].append(self.held[e.station][-1] if e.panel is None else e.panel)

    def numbered(self):
        """The events in order, each with its number at its station."""
        count = [0] * len(self.stations)
        for e in self.events:
            count[e.station] += 1
            yield e, count[e.station]

    def report(self, value, panel):
        return word(value) + (word(panel) if self.panels else [])

    def log(self):
        """The day's log, to the byte."""
        header = [0x11 if self.panels else 0x10, len(self.stations)]
        frames = [header + [b for s in self.stations for b in self.report(s.value, s.panel or 0)]]
        for e, k in self.numbered():
            frames.append([0x20, e.station] + self.report(e.value, self.held[e.station][k]) + self.history[e.station][k])
        frames += [[0x25, *m] for m in self.messages]
        return log_of(frames + [[0x30, *spelled(f)] for f in self.questions])

    def value(self, v, s):
        return "silent" if v == SILENT else self.number(v, s)

    def number(self, v, s):
        """The first name of a number that is used at a station, or nowhere; else its digits."""
        return next((name for name, named in self.values if named == v and s in self.uses.get(name, [s])), str(v))

    def shown(self, v, s):
        """A value in an answer: its number, and the name that it has."""
        return self.value(v, s) if self.value(v, s) in ("silent", str(v)) else f"{v} ({self.number(v, s)})"

    def name(self, s):
        return self.stations[s].name

    def just_seen(self, s, k):
        """What an event has seen that nothing else it has seen tells it of: stations and numbers of their events."""
        clock = self.history[s][k]
        seen = {j: self.history[j][count - (j == s)] for j, count in enumerate(clock)}
        told = lambda j: any(seen[i][j] >= clock[j] for i in seen if i != j)
        return [(j, clock[j]) for j in seen if j != s and clock[j] and not told(j)]

    def words(self):
        """The canonical words."""
        lines = [f"value {name} = {v}" for name, v in self.values]
        for k, s in enumerate(self.stations):
            lines.append(f"station {s.name} initially {self.value(s.value, k)}{self.with_panel(s.panel or 0)}")
        for e, k in self.numbered():
            after = "".join(f" after {self.name(j)} {i}" for j, i in self.just_seen(e.station, k))
            panel = self.with_panel(self.held[e.station][k])
            lines.append(f"event {self.name(e.station)} {self.value(e.value, e.station)}{panel}{after}")
        for i, sent, j, received in self.messages:
            lines.append(f"message {self.name(i)} {sent} to {self.name(j)} {received or 'never'}")
        lines += ["question " + self.asked(f) for f in self.questions]
        return "".join(line + "\n" for line in lines)

    def with_panel(self, p):
        return f" panel {p}" if self.panels else ""

    def asked(self, f, number=None):
        """A question's canonical words: brackets only where it would read two ways without. Number writes a value."""
        words = lambda g, needs: f"({self.asked(g, number)})" if needs else self.asked(g, number)
        if f[0] in (3, 4):
            row = rows(f)
            needs = [g[0] in (3, 4) or g[0] in SIGNS and k + 1 < len(row) for k, g in enumerate(row)]
            return f" {SIGNS[f[0]]} ".join(map(words, row, needs))
        if f[0] in SIGNS:
            return f"{SIGNS[f[0]]} {words(f[1], f[1][0] in (3, 4))}"
        return self.atom(f, number or self.number, False)

    def atom(self, f, number, long):
        """A question's atom; number writes a value, and long has both ends of a range that are equal."""
        if f[0] == 7:
            return f"nothing from {self.name(f[1])} to {self.name(f[2])}"
        _, s, lo, hi = f
        one, many, number = ("is", "in", number) if f[0] == 1 else ("panel", "panel", digits)
        lo, hi, short = number(lo, s), number(hi, s), lo == hi and not long
        return f"{self.name(s)} {one} {lo}" if short else f"{self.name(s)} {many} {lo}..{hi}"

    def spoken(self, d):
        """The day as somebody may write it; which name is used at which station counts from then on."""
        named = lambda v: [name for name, number in self.values if number == v]
        some = lambda v, s: d.pick(named(v)) if named(v) and d.below(2) else str(v)
        report = lambda v: "silent" if v == SILENT else some(v, 0)
        panel = lambda p: "" if p is None else f" panel {p}"
        first = ["# " + "".join(d.pick("aé# \tquestion") for _ in range(d.below(20)))]
        first += [f"station {s.name} initially {report(s.value)}{panel(s.panel)}" for s in self.stations]
        events, last = [], [0] * len(self.stations)
        for e, k in self.numbered():
            after = [f" after {self.name(j)}" + ("" if i == last[j] and d.below(2) else f" {i}") for j, i in e.after]
            events.append(f"event {self.name(e.station)} {report(e.value)}{panel(e.panel)}{''.join(after)}")
            last[e.station] = k
        messages = [f"message {self.name(i)} {a} to {self.name(j)} {b or 'never'}" for i, a, j, b in self.messages]
        questions = ["question " + self.said(d, f, some) for f in self.questions]
        values = [f"value {name} = {v}" for name, v in self.values]
        lines = first + (merged(d, events, messages, questions, values) if d.below(4) == 0 else values + events + messages + questions)
        self.use("\n".join(lines))
        return "".join(d.pick(["", "", "", "", "\n", "  # so far\n"]) + loosely(d, line) + "\n" for line in lines)

    def use(self, text):
        """Takes from a day's text at which stations each name of a value is used."""
        pairs = [(s or e, v) for s, *ends, e, value in USES.findall(re.sub("#.*", "", text)) for v in [*ends, value]]
        names = [s.name for s in self.stations]
        self.uses = {v: {names.index(s) for s, used in pairs if used == v} for v, _ in self.values if v in {used for _, used in pairs}}

    def said(self, d, f, number):
        """A question with brackets that are not needed."""
        if f[0] in (3, 4):
            row = rows(f)
            text = f" {SIGNS[f[0]]} ".join(self.said_in(d, g, number, g[0] in SIGNS and (k + 1 < len(row) or g[0] in (3, 4)))
                                           for k, g in enumerate(row))
        elif f[0] in SIGNS:
            text = f"{SIGNS[f[0]]} " + self.said_in(d, f[1], number, f[1][0] in (3, 4))
        else:
            text = self.atom(f, number, d.below(4) == 0)
        return text

    def said_in(self, d, f, number, needs):
        text = self.said(d, f, number)
        return f"({text})" if needs or d.below(6) == 0 else text


def merged(d, *rows):
    """The items of some rows, those of each in order."""
    left = [list(row) for row in rows if row]
    out = []
    while left:
        row = d.pick(left)
        out.append(row.pop(0))
        left = [row for row in left if row]
    return out


def loosely(d, line):
    """A line with blanks and a comment more."""
    if line.startswith("#"):
        return line
    blanks = "".join(d.pick(["  ", "\t"]) if c == " " and d.below(8) == 0 else c for c in line)
    return d.pick(["", "", " "]) + blanks + d.pick(["", "", "", " ", "  # that is it"])


def rows(f):
    """What one sign joins from the left."""
    return (rows(f[1]) if f[1][0] == f[0] else [f[1]]) + [f[2]]


def of_log(data, names=None, values=()):
    """The day of a log that is accepted: each event comes after all that its clock counts."""
    (kind, n, *first), *rest = frames_of(data)
    each = 4 if kind == 0x11 else 2
    report = lambda b: (b[0] * 256 + b[1], b[2] * 256 + b[3] if each == 4 else None)
    stations = [Station(names[s] if names else f"s{s}", *report(first[each * s:])) for s in range(n)]
    after = lambda s, clock: [(j, k) for j, k in enumerate(clock) if j != s and k]
    events = [Event(f[1], *report(f[2:]), after(f[1], f[2 + each:])) for f in rest if f[0] == 0x20]
    messages, questions = [tuple(f[1:]) for f in rest if f[0] == 0x25], [parse(f[1:])[0] for f in rest if f[0] == 0x30]
    return Day(stations, list(values), events, messages, questions)
