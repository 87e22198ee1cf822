"""The words of a why-never chain: every event, line, clock, message and value that they name has to be as the log has it, every way has
to be told, and where reports are listed none may be left out.
"""
import itertools
import re
from collections import Counter

from chains import Case, Wrong
from damaged import whys

EVENT = re.compile(r"(\S+)'s event (\d+) \(line (\d+)")
OWN = re.compile(r"is (?:first|last) .*?at (?:its|\S+'s) event (\d+) \(line (\d+)")
SEEN = re.compile(r"has seen (\S+)'s event (\d+) \(line \d+\): its clock says ([0-9A-F]+), so (\S+) is (.*?)[;.]$")
SENT = re.compile(r"the message that (\S+) sent with its event (\d+) \(line (\d+); message: line (\d+)\)"
                  r" (?:(never came)|.*comes with (\S+)'s event (\d+))?")
REPORTS = re.compile(r"(?:is|then|or) (at panel \d+|\S+ at panel \d+|\S+) \(([^()]*line[^()]*|before its first event|it has no event)\)")
THERE = re.compile(r"\(line (\d+), where it is ([^()]*)\)")
MOMENT = re.compile(r"(at the end )?\(events: ([^;()]*); proved: ([0-9A-F]+)\)")
PROVED, ONE_OF = re.compile(r"\(proved: ([0-9A-F]+)\)"), re.compile(r"^ *moment (\d+) \(events: ([^;()]*)\)")
QUOTED = re.compile(r'"([^"]*)"')
CLAIM = re.compile(r"(?:^ *| on | there )([\w-]+) is (?:never|not|first|last) (at panel [\d.]+|in \S+|\S+?)(?=:| at | before )")
FROM = re.compile(r"from its event (\d+) on")
FIRST, NO_EVENT = "before its first event", "it has no event"
LIMITED, UP_TO = "go no further than", "up to "  # what the words have where a chain rests on a greatest moment that was chosen


def parts(f, sign=True):
    """The ways of a formula as formulas that all have to be true."""
    t = f[0]
    if t == 2:
        return parts(f[1], not sign)
    if t in (3, 4):
        left, right = parts(f[1], sign), parts(f[2], sign)
        return [p + q for p in left for q in right] if (t == 3) == sign else left + right
    return [[f if sign else (2, f)]]


def joined(row):
    return row[0] if len(row) == 1 else (3, joined(row[:-1]), row[-1])


def operands(f):
    """What a part with possibly or always is about, as true and as false."""
    inner = f[1] if f[0] == 2 else f
    if inner[0] not in (5, 6):
        return []
    return [inner[1], (2, inner[1])] + ([inner[1][1]] if inner[1][0] == 2 else [])


def about(f):
    """The station that a part is a range of, or None."""
    atom = f[1] if f[0] == 2 else f
    return atom[1] if atom[0] in (1, 8) else None


class Told:
    """The words of one question's chain, as lines, against a log's events and messages with their lines."""

    def __init__(self, day, log):
        self.day, self.log = day, log
        self.names = {s.name: k for k, s in enumerate(day.stations)}
        self.lines = {(e.station, k): line for line, (e, k) in enumerate(day.numbered(), 2)}
        self.events = {line: event for event, line in self.lines.items()}
        self.faults, self.facts = [], Counter()
        self.quotable, self.claims = set(), set()

    def allow(self, f):
        """What the words may quote and claim of a question: its parts, some ranges of one station in a way, and what parts are about."""
        for way in parts(f):
            for s in {about(p) for p in way} - {None}:
                ranges = list(dict.fromkeys(p for p in way if about(p) == s))
                some = [row for k in range(1, len(ranges) + 1) for row in itertools.combinations(ranges, k)]
                self.quotable |= {self.day.asked(joined(row)) for row in some}
                self.claims |= {self.day.asked(p).replace(" is ", " ", 1).replace(" panel ", " at panel ", 1) for p in ranges}
            for p in way:
                self.quotable.add(self.day.asked(p))
                for of in operands(p):
                    self.quotable.add(self.day.asked(of))
                    self.allow(of)

    def need(self, kind, so, told):
        self.facts[f"told: {kind}"] += 1
        if not so:
            self.faults.append(told)

    def event(self, name, number, line):
        """An event by its station's name, its number and its line."""
        event = self.names.get(name), int(number)
        self.need("event", self.lines.get(event) == int(line), f"{name}'s event {number} is not on line {line}")
        return event

    def chain(self, lines, f, why):
        """The faults of a chain's words."""
        last, proved = None, []
        self.allow(f)
        for line in lines:
            for quoted in QUOTED.findall(line):
                self.need("quoted", quoted in self.quotable, f"not a part: {quoted}")
            for claim in CLAIM.findall(line):
                self.need("claim", " ".join(claim) in self.claims, f"not a range: {' '.join(claim)}")
            named, own = [self.event(*found) for found in EVENT.findall(line)], OWN.search(line)
            named_first = next((word for word in re.findall(r"[\w-]+", line) if word in self.names), None)
            last = self.event(named_first, *own.groups()) if own else last
            for found in SEEN.findall(line):
                self.seen(last if "that event has seen" in line else named[0], *found, line)
            for found in SENT.findall(line):
                self.message(*found)
            proved = PROVED.findall(line)[-1:] or proved
            for found in MOMENT.findall(line):
                self.moment(*found, why)
            for number, counts in ONE_OF.findall(line):
                self.moment("", counts, proved[0], why, int(number))
            for at, value in THERE.findall(line):
                self.report(value, int(at))
            if REPORTS.search(line):
                self.listed(line, self.names[named_first], last[1] if own else None)
        self.ways(lines, f)
        self.alike(lines, why)
        self.limits(lines, why)
        return self.faults

    def seen(self, seer, other, number, clock, bound, where, line):
        """An event that has seen another by its clock, and the bound that follows: on what was seen, or on what cannot be there."""
        due = self.log.clock(*seer) if seer in self.lines else None
        self.need("clock", due and bytes(due).hex().upper() == clock and due[self.names[other]] >= int(number), f"not that clock: {line}")
        later = bound == other and where == f"at its event {number} or later"
        earlier = f"at its event {seer[1] - 1} or earlier" if seer[1] > 1 else FIRST
        self.need("clock", later or (self.names[bound] == seer[0] and where == earlier), f"that does not follow: {line}")

    def message(self, sender, sent, line, at, never, receiver, received):
        self.event(sender, sent, line)
        number = int(at) - 2 - len(self.day.events)
        m = self.log.messages[number] if 0 <= number < len(self.log.messages) else None
        self.need("message", m and (m.sender, m.sent) == (self.names[sender], int(sent)), f"no such message on line {at}")
        if m and (never or receiver):
            so = m.received == 0 if never else (m.receiver, m.received) == (self.names[receiver], int(received))
            self.need("message", so, f"not where the message on line {at} came")

    def report(self, value, line):
        """A value or a panel that a line has; the event there."""
        event = self.events.get(line)
        e = event and self.log.event(*event)
        panel, shown = (f"at panel {e.panel}", self.day.value(e.value, event[0])) if e else (None, None)
        self.need("value", value in (shown, panel, f"{shown} {panel}"), f"not {value} on line {line}")
        return event

    def before(self, value, where, station):
        """What a station reports before its first event, where that is named."""
        if FIRST not in where and NO_EVENT not in where:
            return set()
        e = self.log.initial[station]
        shown, panel = self.day.value(e.value, station), f"at panel {e.panel}"
        so = value in (shown, panel, f"{shown} {panel}") and (FIRST in where or not self.log.history[station])
        self.need("value", so, f"not {value} before the first event, or there is one")
        return {(station, 0)}

    def moment(self, end, counts, line, why, number=None):
        """A greatest moment, which its proved line has to list, at a number, and the chain to have; the end is that of all events."""
        named = [pair.rsplit(" ", 1) for pair in counts.split(", ")]
        cut, n = [int(k) for _, k in named], len(self.names)
        listed = bytes.fromhex(line[6:-10])
        moments = [[*listed[k:k + n]] for k in range(0, len(listed), n)]
        so = [name for name, _ in named] == [*self.names] and cut in (moments[number - 1:number] if number else moments)
        lines = {part.get("line") for inner in whys(why) for way in inner["ways"] for part in way["parts"]}
        self.need("moment", so and line in lines and (not end or cut == [*map(len, self.log.history)]), f"no such moment: {counts}, {line}")

    def numbers(self, where, station):
        """The lines that are named; "3 to 9" are those of the station's events from the one on line 3 to the one on line 9."""
        for first, last in re.findall(r"(\d+)(?: to (\d+))?", where):
            yield from {int(first), int(last or first)}
            yield from (line for line, (s, _) in self.events.items() if s == station and int(first) < line < int(last or first))

    def listed(self, line, station, number):
        """Reports of a station, none left out between two of them; before an event that fits first, after one that fits last, or up to the
        end."""
        found = set()
        for value, where in REPORTS.findall(line):
            found |= {self.report(value, at) for at in self.numbers(where, station)} | self.before(value, where, station)
        counts = sorted(k for _, k in found)
        so = {s for s, _ in found} == {station} and counts == [*range(counts[0], counts[-1] + 1)]
        self.need("list", so, f"not all of one station: {line}")
        if "is never" in line and UP_TO not in line:
            self.need("list", counts[-1] == len(self.log.history[station]), f"not up to the end: {line}")
        start = FROM.search(line)
        if start:
            self.need("list", counts[0] == int(start[1]), f"not from event {start[1]} on: {line}")
        if number is not None:
            self.need("list", number in (counts[-1] + 1, counts[0] - 1), f"not next to event {number}: {line}")

    def ways(self, lines, f):
        """The headings of the ways, where there are several."""
        due = parts(f)
        headings = [f"    way {k} of {len(due)}: {self.day.asked(joined(way))}" for k, way in enumerate(due, 1)] if len(due) > 1 else []
        said = [line for line in lines if line.startswith("    way ")]
        self.need("ways", said == headings, f"{said} in place of {headings}")

    def alike(self, lines, why):
        """A way that is told to be ruled out as another one has to have its steps."""
        at = None
        for line in lines:
            heading, other = re.match(r"    way (\d+) of ", line), re.fullmatch(r"      ruled out just as way (\d+) is\.", line)
            at = int(heading[1]) if heading else at
            if other:
                one, two = ({str(case["steps"]) + case["end"]["end"] for case in why["ways"][k - 1]["cases"]} for k in (at, int(other[1])))
                self.need("alike", int(other[1]) < at and one == two, f"way {at} is not ruled out as way {other[1]}")

    def limits(self, lines, why):
        """A chain that rests on the greatest moments chosen has to say so."""
        if any(LIMITED in line for line in lines):
            return
        for way in [way for inner in whys(why) for way in inner["ways"]]:
            for case in way["cases"]:
                try:
                    free = Case(self.log, way["parts"], [])
                    for step in case["steps"]:
                        free.step(step)
                    free.end(case["end"])
                except Wrong as wrong:
                    self.need("limit", False, f"a moment that was chosen is not told of: {wrong}")
