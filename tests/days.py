"""Made-up days, from a seed: stations, events and messages of every number up to the limits, and questions about what they report."""
from chains import spelled
from day_words import Day, Event, Station
from frames import Draw
from listing import SILENT, atoms, size, tokens, workable

LATIN = ["desk", "table", "breakout", "grinder", "rack", "kiln", "saw-2", "x_1", "B", "n0t", "order", "island", "andy", "tool"]
OTHER = ["Größe", "été", "стол", "切断台", "Ωmega", "ñ-1", "שולחן", "İz_2"]
NAMES = ["old", "new", "wide", "zéro", "höchst", "w60", "V_1", "off"]


def acceptable(f):
    """Does the proved code take the question? By the limits on tokens, atoms, width and bars, and the sign of each 07."""
    seen = []
    size(f, True, seen)
    return tokens(f) <= 32 and len(atoms(f)) <= 12 and all(w <= 16 and b <= 16 for w, b in seen) and workable(f, True)


def shuffled(d, items):
    left = list(items)
    return [left.pop(d.below(len(left))) for _ in range(len(left))]


class Made:
    """Draws a day: stations, events and messages first, then questions about what they report."""

    def __init__(self, d, stations, events, messages, panels):
        self.d, self.n, self.panels = d, stations, panels
        names = shuffled(d, LATIN + (OTHER if d.below(3) == 0 else []))
        self.values = shuffled(d, [0, 1, 2, 3, 50, 60, 255, 256, 35000, 65534])[:2 + d.below(4)]
        self.values += [d.below(SILENT) for _ in range(events // 8)]
        values = [(name, d.pick(self.values)) for name in shuffled(d, NAMES)[:d.pick([0, 1, 2, 4])]]
        first = [Station(names[s], self.reported(), self.panel()) for s in range(stations)]
        self.day = Day(first, values, self.drawn_events(events))
        self.day.messages = self.drawn_messages(messages)
        self.told = [[s.value] + [e.value for e in self.day.events if e.station == k] for k, s in enumerate(first)]

    def reported(self):
        return SILENT if self.d.below(12) == 0 else self.d.pick(self.values)

    def panel(self):
        return self.d.pick([12, 13, 65535, 0]) if self.panels and self.d.below(3) else None

    def drawn_events(self, events):
        d, count, out = self.d, [0] * self.n, []
        often = d.pick([1, 1, 2, 4])
        for _ in range(events):
            s = d.below(self.n)
            others = [j for j in range(self.n) if j != s and count[j]]
            known = shuffled(d, others)[:d.pick([1, 1, 1, 2, 3])] if d.below(often) == 0 else []
            after = [(j, count[j] if d.below(3) else 1 + d.below(count[j])) for j in known]
            out.append(Event(s, self.reported(), self.panel(), after))
            count[s] += 1
        return out

    def drawn_messages(self, most):
        """Messages that came at an event which has seen their sending, or never: of few pairs of stations, so that questions meet them."""
        d, history, out = self.d, self.day.history, []
        pairs = [(i, j) for i in range(self.n) for j in range(self.n) if i != j and len(history[i]) > 1]
        pairs = shuffled(d, pairs)[:2] if most < 64 else pairs
        while pairs and len(out) < most:
            i, j = d.pick(pairs)
            sent = 1 + d.below(len(history[i]) - 1)
            came = [k for k in range(1, len(history[j])) if history[j][k][i] >= sent]
            out.append((i, sent, j, d.pick(came) if came and d.below(8) else 0))
        return out

    def drawn_atom(self, sign):
        d, day, kind = self.d, self.day, self.d.below(10)
        if kind < 3 and self.n > 1 and (day.messages and sign or d.below(40) == 0):
            return (7, *(d.pick(day.messages)[0:3:2] if day.messages and d.below(8) else (d.below(self.n), d.below(self.n))))
        s = d.below(self.n)
        if kind < 5 and (self.panels or d.below(10) == 0):
            lo, hi = d.pick(day.held[s]), d.pick([12, 13, SILENT, 0])
            return (8, s, lo, lo if d.below(2) else hi)
        lo, hi = d.pick(self.told[s]) if d.below(4) else d.pick(self.values), d.pick(self.values)
        return (1, s, lo, d.pick([lo, lo, lo, hi, hi, SILENT, min(lo + 1, SILENT)]))

    def formula(self, depth, sign=True):
        """A formula whose 07 are mostly worked out as true."""
        t = self.d.pick([1, 1, 2, 3, 3, 3, 4, 4, 5, 6]) if depth > 1 else 1
        if t == 1:
            return self.drawn_atom(sign)
        if t in (3, 4):
            return (t, self.formula(depth - 1, sign), self.formula(depth - 1, sign))
        return (t, self.formula(depth - 1, {2: not sign, 5: True, 6: False}[t]))

    def row(self):
        """An "and" of parts of every kind, which is seldom true."""
        d = self.d
        kinds = [lambda: self.drawn_atom(True)] * 3
        kinds += [lambda: (2, self.drawn_atom(False)), lambda: (6, self.formula(2, False)), lambda: (5, self.formula(2))]
        kinds += [lambda: (2, (5, self.formula(2)))]
        return self.joined([d.pick(kinds)() for _ in range(2 + d.below(4))])

    def joined(self, parts):
        """An "and" of parts, mostly joined from the left."""
        f = parts[0]
        for g in parts[1:]:
            f = (3, f, g) if self.d.below(4) else (3, g, f)
        return f

    def meeting(self):
        """An "and" of reports that some stations made, and of nothing on the way: each is true by itself, and the orders decide."""
        d, day = self.d, self.day
        some = shuffled(d, range(self.n))[:2 + d.below(3)]
        parts = [(1, s, v, v) for s, v in ((s, d.pick(self.told[s])) for s in some)]
        if day.messages and d.below(2):
            i, sent, j, received = d.pick(day.messages)
            early = self.told[j][d.below(received)] if received else self.told[j][0]
            others = [p for p in parts if p[1] != i][:1 + d.below(2)] if d.below(2) else [(5, (1, j, early, early))]
            parts = [(1, i, self.told[i][sent], self.told[i][sent]), (7, i, j)] + others
        if d.below(3) == 0:
            s = d.below(self.n)
            one, two = ((1, j, v, v) for j, v in ((j, d.pick(self.told[j][:-1] or self.told[j])) for j in (s, (s + 1) % self.n)))
            other = d.pick([(5, self.formula(2)), (2, (5, self.formula(2))), (6, self.formula(1, False))])
            parts.append(d.pick([(5, one), (5, (4, one, two)), (5, (4, one, two)), other, other]))
        return self.joined(parts)

    def cornered(self):
        """A report that has seen two others, and possibly what one of these or the other reported before: a case for each."""
        d, history = self.d, self.day.history
        seers = [(s, k) for s in range(self.n) for k in range(1, len(history[s])) if sum(map(bool, history[s][k])) > 2]
        if not seers:
            return self.meeting()
        s, k = d.pick(seers)
        one, two = shuffled(d, [j for j, count in enumerate(history[s][k]) if count and j != s])[:2]
        early = [(1, j, v, v) for j, v in ((j, self.told[j][d.below(history[s][k][j])]) for j in (one, two))]
        return self.joined([(5, (4, *early)), (1, s, self.told[s][k], self.told[s][k])])

    def question(self, taken=True):
        """One that the proved code takes, or one that it does not."""
        while True:
            kinds = [self.row] * 3 + [self.meeting] * 6 + [self.cornered] + [lambda: self.formula(self.d.pick([1, 2, 3, 4, 5, 6]))] * 3
            f = self.d.pick(kinds)()
            if len(spelled(f)) <= 98 and acceptable(f) == taken:
                return f


def made(seed, stations, events, messages=0, panels=False, questions=16):
    """A day of so many of each, with questions that are taken."""
    m = Made(Draw(seed), stations, events, messages, panels)
    m.day.questions = [m.question() for _ in range(questions)]
    return m.day


def refused(seed):
    """A day whose last question is not taken, by its limits or the sign of a 07."""
    m = Made(Draw(seed), 3, 4, 2, False)
    m.day.questions = [m.question(), m.question(False)]
    return m.day
