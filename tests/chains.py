"""Why-never chains, checked against the bytes of a log by code that did not make them.

The ways of a question are worked out from its bytes. Every part, every case and every step of a chain has to be said as the log has it,
and each step may use the bounds of those before it only. The greatest moments of a part with possibly or not possibly come from whoever
checks; a chain that is at fault raises Wrong.
"""
import itertools
import json

from listing import contained, tested, within


class Wrong(Exception):
    pass


def need(so, told):
    if not so:
        raise Wrong(told)


def same(said, due, told):
    """Are two pieces of JSON the same, 1 and true told apart?"""
    need(json.dumps(said, sort_keys=True) == json.dumps(due, sort_keys=True), f"{told}: {said} in place of {due}")


def fields(said, kind, *names):
    """The values of an object of a kind, with these names and no others."""
    need(isinstance(said, dict) and [*said] == [kind, *names], f"a {kind} with the names {[*said] if isinstance(said, dict) else said}")
    numbers = [said[name] for name in names]
    need(all(type(v) is int and v >= 0 for v in numbers), f"no number in {said}")
    return numbers


def spelled(f):
    """A formula's bytes."""
    if f[0] == 7:
        return bytes(f)
    if f[0] in (1, 8):
        return bytes(f[:2]) + f[2].to_bytes(2, "big") + f[3].to_bytes(2, "big")
    return bytes(f[:1]) + b"".join(map(spelled, f[1:]))


def ways(f, sign=True):
    """The ways in which a formula is true, or false: rows of parts, each a part as it is said with the formula of its operand, or None."""
    t = f[0]
    if t in (1, 8):
        aspect = "value" if t == 1 else "panel"
        return [[({"part": "range", "inside": sign, "aspect": aspect, "station": f[1], "lo": f[2], "hi": f[3]}, None)]]
    if t == 7:
        need(sign, "a 07 worked out as false")
        return [[({"part": "clear", "from": f[1], "to": f[2]}, None)]]
    if t == 2:
        return ways(f[1], not sign)
    if t in (3, 4):
        left, right = ways(f[1], sign), ways(f[2], sign)
        return [p + q for p in left for q in right] if (t == 3) == sign else left + right
    of = f[1] if t == 5 else (2, f[1])
    return [[({"part": "possibly" if (t == 5) == sign else "not possibly", "of": spelled(of).hex().upper()}, of)]]


class Case:
    """The bounds known so far in one case of a way."""

    def __init__(self, log, parts, chosen):
        self.log, self.parts = log, parts
        self.least, self.most = [0] * len(log.initial), [len(events) for events in log.history]
        for cut in chosen:
            self.most = [*map(min, self.most, cut)]

    def station(self, s):
        need(s < len(self.log.initial), f"no station {s}")
        return s

    def event(self, s, k):
        need(k <= len(self.log.history[self.station(s)]), f"no event {k} of station {s}")
        return self.log.event(s, k)

    def fits(self, s, k):
        """Is every range of a station true at its event k?"""
        e = self.event(s, k)
        about = [p for p in self.parts if p["part"] == "range" and p["station"] == s]
        so = [within(p["lo"], p["hi"], e.panel) if p["aspect"] == "panel" else tested(p["lo"], p["hi"], e.value) for p in about]
        return all(found is p["inside"] for found, p in zip(so, about))

    def awaited(self, number):
        """A message that may not be on the way."""
        need(number < len(self.log.messages), f"no message {number}")
        m = self.log.messages[number]
        asked = {"part": "clear", "from": m.sender, "to": m.receiver}
        need(asked in self.parts, f"message {number} may be on the way")
        return m

    def rises(self, s, k):
        self.least[s] = max(self.least[s], k)

    def falls(self, s, k):
        self.most[s] = min(self.most[s], k)

    def step(self, said):
        kind = said.get("step") if isinstance(said, dict) else None
        need(kind in STEPS, f"no step: {said}")
        STEPS[kind](self, *fields(said, "step", *NUMBERS[kind]))

    def end(self, said):
        kind = said.get("end") if isinstance(said, dict) else None
        need(kind in ENDS, f"no end: {said}")
        ENDS[kind](self, *fields(said, "end", *NUMBERS[kind]))

    def fit_from(self, s, first, to):
        need(first < to and self.fits(s, to), f"station {s}: {to} does not fit")
        need(not any(self.fits(s, k) for k in range(first, to)), f"station {s}: {to} does not fit first")
        need(self.least[s] >= first, f"station {s}: at least {first} is not known")
        self.rises(s, to)

    def seen(self, s, k, other, count):
        need(self.station(other) != s and k > 0 and self.event(s, k).clock[other] == count, f"event {k} of {s}: not {count} of {other}")
        need(self.least[s] >= k, f"station {s}: at least {k} is not known")
        self.rises(other, count)

    def received(self, number):
        m = self.awaited(number)
        need(m.received > 0 and self.least[m.sender] >= m.sent, f"message {number}: not received, or not known to be sent")
        self.rises(m.receiver, m.received)

    def fit_last(self, s, last, to):
        need(to < last and self.fits(s, to), f"station {s}: {to} does not fit")
        need(not any(self.fits(s, k) for k in range(to + 1, last + 1)), f"station {s}: {to} does not fit last")
        need(self.most[s] <= last, f"station {s}: at most {last} is not known")
        self.falls(s, to)

    def not_seen(self, s, k, other, count):
        need(self.station(other) != s and k > 0 and self.event(s, k).clock[other] > count, f"event {k} of {s}: {count} of {other}")
        need(self.most[other] <= count, f"station {other}: at most {count} is not known")
        self.falls(s, k - 1)

    def not_sent(self, number):
        m = self.awaited(number)
        need(m.received == 0 or self.most[m.receiver] < m.received, f"message {number} may be received")
        self.falls(m.sender, m.sent - 1)

    def none_fits(self, s, first, last):
        need(first <= last, f"station {s}: no event from {first} to {last}")
        need(not any(self.fits(s, k) for k in range(first, last + 1)), f"station {s}: one of {first} to {last} fits")
        need(self.least[s] >= first and self.most[s] <= last, f"station {s}: {first} to {last} is not known")

    def never_came(self, number):
        m = self.awaited(number)
        need(m.received == 0 and self.least[m.sender] >= m.sent, f"message {number}: it came, or is not known to be sent")

    def past(self, s, least, most):
        need(most < least, f"station {s}: at least {least} and at most {most} leaves some")
        need(self.least[self.station(s)] >= least and self.most[s] <= most, f"station {s}: {least} and {most} is not known")

    def barred(self, part, number):
        need(part < len(self.parts) and self.parts[part]["part"] == "not possibly", f"part {part} bars nothing")
        moments = self.parts[part]["moments"]
        need(number < len(moments) and contained(self.most, moments[number]), f"moment {number} of part {part} does not bar all")


STEPS = {"fits": Case.fit_from, "seen": Case.seen, "received": Case.received, "fits last": Case.fit_last, "not seen": Case.not_seen,
         "not sent": Case.not_sent}
ENDS = {"none fits": Case.none_fits, "never came": Case.never_came, "past": Case.past, "barred": Case.barred}
NUMBERS = {"fits": ["station", "from", "to"], "seen": ["station", "event", "other", "count"], "received": ["message"],
           "fits last": ["station", "from", "to"], "not seen": ["station", "event", "other", "count"], "not sent": ["message"],
           "none fits": ["station", "from", "to"], "never came": ["message"], "past": ["station", "least", "most"],
           "barred": ["part", "moment"]}


class Checker:
    """Checks chains about a log. Proved gives the answer line of a formula's bytes and its greatest moments; met counts the kinds of parts,
    steps and ends, and the steps that tell nothing new."""

    def __init__(self, log, proved, met):
        self.log, self.proved, self.met = log, proved, met

    def question(self, f, why):
        """Is this why a formula was never true?"""
        need(isinstance(why, dict) and [*why] == ["ways"], "no ways")
        due = ways(f)
        need(len(why["ways"]) == len(due), f"{len(why['ways'])} ways in place of {len(due)}")
        self.met["several ways"] += len(due) > 1
        for said, parts in zip(why["ways"], due):
            self.way(said, parts)

    def way(self, said, due):
        need([*said] == ["parts", "cases"] and len(said["parts"]) == len(due), "parts missing, or too many")
        for part, (what, of) in zip(said["parts"], due):
            self.part(part, what, of)
        chosen = [[(p, m) for m in range(len(part["moments"]))] for p, part in enumerate(said["parts"]) if part["part"] == "possibly"]
        every = [[list(choice) for choice in row] for row in itertools.product(*chosen)]
        same([case.get("before") for case in said["cases"]], every, "cases")
        self.met["several cases"] += len(every) > 1
        for case in said["cases"]:
            need([*case] == ["before", "steps", "end"], "a case without steps or end")
            self.case(said["parts"], case)

    def part(self, said, what, of):
        self.met[what["part"]] += 1
        if of is None:
            return same(said, what, "part")
        line, moments = self.proved(of)
        due = {**what, "line": line, "moments": [list(c) for c in moments]}
        same({name: v for name, v in said.items() if name != "why"}, due, "part")
        if what["part"] == "not possibly":
            return need("why" not in said, "a why where nothing was to be true")
        need("why" in said and (said["why"] is None) == bool(moments), "a why, and there are moments, or the reverse")
        self.met["a why inside"] += not moments
        return moments or self.question(of, said["why"])

    def case(self, parts, said):
        known = Case(self.log, parts, [parts[p]["moments"][m] for p, m in said["before"]])
        for step in said["steps"]:
            before = known.least + known.most
            known.step(step)
            self.met[step["step"]] += 1
            self.met["steps that tell nothing new"] += before == known.least + known.most
        known.end(said["end"])
        self.met[said["end"]["end"]] += 1
