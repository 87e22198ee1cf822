"""What floor shows of a day's questions, as JSON and in words, held against the plain listing and the proved operations.

Every moment shown has to be one at which Holds says yes and the listing has the question as true, every "never" one of which the listing
has no cut, and every chain has to pass chains.py. Where there are too many cuts to list, the line is that of the proved Answer, and a
"never" rests on its chain.
"""
import json
import re
from collections import Counter
from functools import cache

from chains import Checker, Wrong, spelled
from damaged import forged, tried
from day_words import digits
from frames import Draw, frames_of, log_of
from listing import OPERATIONS, Listing, answer_line, cuts, forecast, on_the_way, read
from told import Told

LISTED = 400  # the most cuts that are listed
STATION = re.compile(
    r"    (\S+) +(\d+) of (\d+) events? +(?:the last on line (\d+)|(before the first|it has none)) +(\S+(?: \(\S+\))?)(?: +panel (\d+))?")
ON_THE_WAY = re.compile(
    r"    on the way from (\S+) to (\S+) \(line (\d+)\): sent with \1's event (\d+), (?:comes with \2's event (\d+)|never came)")


class Answers:
    """A day and its log, what is due for each question, and the differences found."""

    def __init__(self, day, data, proved):
        self.day, self.data, self.proved = day, data, proved
        self.log = read(data, OPERATIONS)
        self.listing = Listing(self.log) if cuts(self.log, LISTED) is not None else None
        self.met, self.wrong, self.chains = Counter(), [], {}
        self.operand = cache(self.operand)
        self.due = [self.answered(q, f) for q, f in enumerate(self.log.questions)]

    def differ(self, told):
        self.wrong.append(told)

    def same(self, said, due, told):
        """A difference where two things are not the same; of lists and texts, where they part."""
        if said == due:
            return
        if isinstance(due, (list, str, bytes)):
            at = next((k for k, pair in enumerate(zip(said, due)) if pair[0] != pair[1]), min(len(said), len(due)))
            about = slice(at, at + 1) if isinstance(due, list) else slice(max(at - 40, 0), at + 120)
            said, due = said[about], due[about]
        self.differ(f"{told}: {said!r}\n  in place of {due!r}")

    def answered(self, q, f):
        """The line and the moments of a question, by the proved Answer, confirmed by Holds and by the listing."""
        start, moments, _, line = answer = self.proved.answer(self.data, q)
        yes = lambda cut: self.proved.holds(self.data, q, cut)
        if not all(map(yes, moments)) or yes((0,) * len(self.log.initial)) != start:
            self.differ(f"question {q}: Holds does not confirm {line}")
        if self.listing:
            self.same(line, answer_line(*self.listing.answer(f)).decode().strip(), f"question {q}, the proved line against the listing")
        self.met["listed" if self.listing else "not listed"] += 1
        self.met["moments"] += len(moments)
        self.met["never"] += not moments
        return answer

    def operand(self, f):
        """The line and the moments of a formula that is part of a question: the same log asked that alone."""
        data = log_of([g for g in frames_of(self.data) if g[0] != 0x30] + [[0x30, *spelled(f)]])
        _, moments, _, line = self.proved.answer(data, 0)
        if self.listing and line != answer_line(*self.listing.answer(f)).decode().strip():
            raise Wrong(f"the proved line {line} against the listing")
        if not all(self.proved.holds(data, 0, cut) for cut in moments):
            raise Wrong(f"Holds does not confirm {line}")
        return line, moments

    def as_json(self, text):
        """The answers as JSON: everything but the chains by what is due, the chains by the checker."""
        said = json.loads(text)
        self.same([*said], ["stations", "questions"], "names of the JSON")
        self.same(said["stations"], [s.name for s in self.day.stations], "stations")
        self.same(len(said["questions"]), len(self.due), "questions")
        first = len(self.data.splitlines()) - len(self.due) + 1
        for q, (one, f, (start, moments, rounds, line)) in enumerate(zip(said["questions"], self.log.questions, self.due)):
            figures = self.proved.forecast(self.data, q)
            self.same(tuple(figures), forecast(self.log, f), f"question {q}, forecast")
            due = {"line": first + q, "words": self.day.asked(f), "bytes": spelled(f).hex().upper(), "forecast": figures._asdict(),
                   "proved": line, "start": start, "moments": [list(c) for c in moments], "rounds": rounds}
            why, no_chain = one.pop("why", "none"), one.pop("no_chain", "none")
            self.same(json.dumps(one), json.dumps(due), f"question {q}")
            self.same(no_chain, None, f"question {q}, no chain")
            if moments:
                self.same(why, None, f"question {q}, a chain where there are moments")
                self.forge(f)
            elif no_chain is None:
                self.chains[q] = why
                self.chain(f, why)

    def chain(self, f, why):
        """A chain, and the same one damaged."""
        try:
            Checker(self.log, self.operand, self.met).question(f, why)
        except Wrong as wrong:
            return self.differ(f"{self.day.asked(f)}: a chain that is wrong: {wrong}\n  {json.dumps(why)}")
        if self.listing:
            checker = Checker(self.log, self.operand, Counter())
            for name, _, outcome in tried(Draw(len(self.data)), checker, f, why, self.listing.cuts):
                self.met[f"damaged: {outcome}"] += 1
                if outcome == "wrong":
                    self.differ(f"{self.day.asked(f)}: the checker takes a chain with {name}")
        return None

    def forge(self, f):
        """No chain is to be taken for a question that was true."""
        why = forged(Draw(len(self.data)), self.log, self.operand, f)
        try:
            Checker(self.log, self.operand, Counter()).question(f, why)
            self.differ(f"{self.day.asked(f)}: was true, and the checker takes a chain: {json.dumps(why)}")
        except Wrong:
            self.met["forged: refused"] += 1

    def in_words(self, text, line_of, own=False):
        """The answers in words. Line_of gives the line that a frame of the log, numbered from 1, is shown with; own: that is just it."""
        blocks = re.split(r"^(?=question \d+ \()", text, flags=re.M)[1:]
        self.same(len(blocks), len(self.due), "questions in words")
        first = len(self.data.splitlines()) - len(self.due) + 1
        for q, (block, f, (start, moments, _, line)) in enumerate(zip(blocks, self.log.questions, self.due)):
            lines = block.rstrip("\n").split("\n")
            self.same(lines[0], f"question {q + 1} (line {line_of(first + q)}): {self.day.asked(f)}", f"question {q} in words")
            if own:
                self.why_in_words(q, lines)
            numbers = self.day.asked(f, digits)
            self.same(any(x.endswith(numbers) for x in lines[1:3]), numbers != self.day.asked(f), f"question {q} in numbers")
            for due in (f"  at the start: {'yes' if start else 'no'}", f"  proved: {line}"):
                self.same([x for x in lines if x.startswith(due.split(":")[0] + ":")], [due], f"question {q} in words")
            self.same("  never, in any order that the messages allow" in lines, not moments, f"question {q}, never in words")
            rows = [row for c in moments for row in self.rows(c, line_of)]
            if moments:
                said = [STATION.fullmatch(x) or ON_THE_WAY.fullmatch(x) for x in lines if re.match("    .*( of | sent )", x)]
                self.same([found and found.groups() for found in said], rows, f"question {q}, moments in words")
                quiet = len(moments) - sum(any(self.on_the_way(c)) for c in moments) if self.log.messages else 0
                self.same(lines.count("    nothing is on the way"), quiet, f"question {q}, nothing on the way")

    def why_in_words(self, q, lines):
        """The words of a chain, where there is one as JSON."""
        found = [k for k, x in enumerate(lines) if x == "  why:"]
        self.same(len(found), int(q in self.chains), f"question {q}, why in words")
        if found and q in self.chains:
            block = [x for x in lines[found[0] + 1:] if x.startswith("    ")]
            told = Told(self.day, self.log)
            for fault in told.chain(block, self.log.questions[q], self.chains[q]):
                self.differ(f"question {q}, why in words: {fault}")
            self.met += told.facts

    def on_the_way(self, c):
        among = {m for i in range(len(c)) for j in range(len(c)) for m in on_the_way(self.log, i, j, c)}
        return [(k, m) for k, m in enumerate(self.log.messages) if m in among]

    def rows(self, c, line_of):
        """What is due for a moment, station by station, and then the messages on the way."""
        day = self.day
        for s, k in enumerate(c):
            lines = [number for number, (e, of) in enumerate(day.numbered(), 2) if (e.station, of) == (s, k)]
            e, count = self.log.event(s, k), len(self.log.history[s])
            place = (str(line_of(lines[0])), None) if lines else (None, "before the first" if count else "it has none")
            yield (day.name(s), str(k), str(count), *place, day.shown(e.value, s), str(e.panel) if day.panels else None)
        for number, m in self.on_the_way(c):
            came = str(m.received) if m.received else None
            yield (day.name(m.sender), day.name(m.receiver), str(line_of(2 + len(day.events) + number)), str(m.sent), came)
