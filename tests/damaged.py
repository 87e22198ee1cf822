"""Why-never chains damaged in every way, and forged for questions that were true, to see that the checker of chains.py refuses them.

Some damage has to be refused whatever the chain. A step or an end that is changed can leave a chain that is right still, such as one
without a step that nothing rested on: what the checker takes of these is looked at again, claim by claim, over a listing of every cut.
A forged chain has the parts and cases that are due, steps that are right, and any end.
"""
import copy
import itertools
import json

from chains import ENDS, NUMBERS, STEPS, Case, Wrong, ways
from listing import contained, on_the_way, verdict

ABSENT = 300  # the number of no station, event, message, part or moment


def whys(why):
    """A chain and those inside it."""
    yield why
    for way in why["ways"]:
        for part in way["parts"]:
            if part.get("why"):
                yield from whys(part["why"])


def cases(why):
    return [case for inner in whys(why) for way in inner["ways"] for case in way["cases"]]


def steps(why):
    return [step for case in cases(why) for step in [*case["steps"], case["end"]]]


def numbers(said):
    return [name for name, v in said.items() if type(v) is int]


class Damage:
    """One damage at a time to a copy of a chain, at a place that is drawn. Each kind gives the chain, or None where it has no place."""

    def __init__(self, d, why):
        self.d, self.why = d, why

    def copied(self):
        return json.loads(json.dumps(self.why))

    def in_rows(self, rows_of, change):
        """A change to one of the rows that are not empty."""
        why = self.copied()
        rows = [row for row in rows_of(why) if row]
        if not rows:
            return None
        change(self.d.pick(rows))
        return why

    def drop(self, row):
        del row[self.d.below(len(row))]

    def double(self, row):
        row.append(copy.deepcopy(self.d.pick(row)))

    def turn(self, row):
        """Two neighbours that differ, exchanged."""
        k = self.d.below(len(row))
        row[k - 1], row[k] = row[k], row[k - 1]

    def one_of(self, things_of, change):
        why = self.copied()
        things = things_of(why)
        if not things:
            return None
        change(self.d.pick(things))
        return why

    def off_by_one(self, said):
        name = self.d.pick(numbers(said))
        said[name] += 1 if said[name] == 0 or self.d.below(2) else -1

    def absent(self, said):
        said[self.d.pick(numbers(said))] = ABSENT

    def another(self, said):
        name = self.d.pick([name for name in numbers(said) if name in ("station", "other", "message", "moment", "part")])
        said[name] = (said[name] + 1 + self.d.below(3)) % 4

    def part(self, said):
        """One thing of a part changed."""
        name = self.d.pick([name for name in said if name != "part"])
        v = said[name]
        if name == "why":
            said[name] = None if v else {"ways": []}
        elif name == "moments":
            v.append([0] * 9) if not v or self.d.below(2) else self.off_by_one_in(v)
        elif isinstance(v, str):
            said[name] = v[:-1] + ("0" if v[-1:] != "0" else "1") if name != "aspect" else {"value": "panel", "panel": "value"}[v]
        else:
            said[name] = not v if isinstance(v, bool) else (v + 1) % 65536

    def off_by_one_in(self, moments):
        cut = self.d.pick(moments)
        k = self.d.below(len(cut))
        cut[k] += 1 if cut[k] == 0 or self.d.below(2) else -1

    def kinds(self):
        """The kinds of damage that have to be refused, and those that may leave the chain right."""
        ways = lambda why: [inner["ways"] for inner in whys(why)]
        parts = lambda why: [way["parts"] for inner in whys(why) for way in inner["ways"]]
        rows = lambda why: [way["cases"] for inner in whys(why) for way in inner["ways"]]
        chains = lambda why: [case["steps"] for case in cases(why)]
        ends = lambda why: [case["end"] for case in cases(why)]
        yield True, "a way dropped", lambda: self.in_rows(ways, self.drop)
        yield True, "a way twice", lambda: self.in_rows(ways, self.double)
        yield True, "a part dropped", lambda: self.in_rows(parts, self.drop)
        yield True, "a part twice", lambda: self.in_rows(parts, self.double)
        yield True, "a part changed", lambda: self.one_of(lambda why: [p for row in parts(why) for p in row], self.part)
        yield True, "a case dropped", lambda: self.in_rows(rows, self.drop)
        yield True, "a case twice", lambda: self.in_rows(rows, self.double)
        yield True, "no end", lambda: self.one_of(ends, dict.clear)
        yield True, "an end of another kind", lambda: self.one_of(ends, other_kind)
        yield True, "a number of nothing", lambda: self.one_of(lambda why: [s for s in steps(why) if s.get("end") != "past"], self.absent)
        yield False, "a step dropped", lambda: self.in_rows(chains, self.drop)
        yield False, "no steps", lambda: self.in_rows(chains, list.clear)
        yield False, "steps exchanged", lambda: self.in_rows(chains, self.turn)
        yield False, "a number changed", lambda: self.one_of(steps, self.off_by_one)
        yield False, "another station or message", lambda: self.one_of(steps, self.another)
        yield False, "the end elsewhere", lambda: self.one_of(ends, self.another)


def other_kind(end):
    """The same numbers under another kind that they cannot be right for."""
    kind = end.pop("end")
    values = list(end.values())
    end.clear()
    if kind == "never came":
        end.update(end="barred", part=values[0], moment=ABSENT)
    else:
        names = {"none fits": ("past", "station", "least", "most"), "past": ("none fits", "station", "from", "to"),
                 "barred": ("never came", "message")}[kind]
        end.update(zip(("end", *names[1:]), (names[0], *values)))


# CLAIM BY CLAIM

def claim(log, parts, said):
    """What a step or an end rests on beside the bounds, and what it says, as tests of a cut."""
    kind = said.get("step") or said["end"]

    def ranges(c):
        about = [p for p in parts if p["part"] == "range" and p["station"] == said["station"]]
        return all(verdict(log, (1 if p["aspect"] == "value" else 8, p["station"], p["lo"], p["hi"]), c) is p["inside"] for p in about)

    always, never, m = lambda c: True, lambda c: False, log.messages[said["message"]] if "message" in said else None
    clear = lambda c: not on_the_way(log, m.sender, m.receiver, c)
    return {
        "fits": lambda: (ranges, lambda c: c[said["station"]] >= said["to"]),
        "seen": lambda: (always, lambda c: c[said["other"]] >= said["count"]),
        "received": lambda: (clear, lambda c: c[m.receiver] >= m.received),
        "fits last": lambda: (ranges, lambda c: c[said["station"]] <= said["to"]),
        "not seen": lambda: (always, lambda c: c[said["station"]] < said["event"]),
        "not sent": lambda: (clear, lambda c: c[m.sender] < m.sent),
        "none fits": lambda: (ranges, never),
        "never came": lambda: (clear, never),
        "past": lambda: (always, never),
        "barred": lambda: (always, lambda c: contained(c, parts[said["part"]]["moments"][said["moment"]])),
    }[kind]()


def right(log, cuts, why):
    """Is every claim of a chain so at every cut that those before it leave?"""
    for way in [way for inner in whys(why) for way in inner["ways"]]:
        for case in way["cases"]:
            left = [c for c in cuts if all(contained(c, way["parts"][p]["moments"][m]) for p, m in case["before"])]
            for said in [*case["steps"], case["end"]]:
                rests, says = claim(log, way["parts"], said)
                if any(rests(c) and not says(c) for c in left):
                    return False
                left = [c for c in left if says(c)]
    return True


def tried(d, checker, f, why, cuts):
    """Every kind of damage to a chain that is right, once: its name, whether it has to be refused, and what came of it: "refused", "right"
    or "wrong", the last where the checker takes what it may not."""
    for must, name, damage in Damage(d, why).kinds():
        made = damage()
        if made is None or made == why:
            continue
        try:
            checker.question(f, made)
            yield name, must, "wrong" if must or not right(checker.log, cuts, made) else "right"
        except Wrong:
            yield name, must, "refused"


# FORGED

def said(d, kind, name, most):
    """A step or an end with numbers that are drawn."""
    return {kind: name, **{number: d.below(most[number]) for number in NUMBERS[name]}}


def forged_case(d, log, parts, before):
    """A case with the steps among some that are right, and any end, one that is right if there is one."""
    events = max(map(len, log.history)) + 2
    most = {"station": len(log.initial), "other": len(log.initial), "message": len(log.messages) + 1, "part": len(parts), "moment": 3}
    most.update(dict.fromkeys(["from", "to", "event", "count", "least", "most"], events))
    known, steps = Case(log, parts, [parts[p]["moments"][m] for p, m in before]), []
    passes = lambda test, what: not fails(test, what)
    for step in [said(d, "step", d.pick([*STEPS]), most) for _ in range(60)]:
        if passes(known.step, step):
            steps.append(step)
    ends = [said(d, "end", d.pick([*ENDS]), most) for _ in range(40)]
    return {"before": before, "steps": steps, "end": next((end for end in ends if passes(known.end, end)), ends[0])}


def fails(test, what):
    try:
        test(what)
    except Wrong:
        return True
    return False


def forged(d, log, proved, f):
    """A chain for a question, right but for the ends that it may have to lie about."""
    why = {"ways": []}
    for way in ways(f):
        parts = []
        for what, of in way:
            line, moments = proved(of) if of else (None, [])
            parts.append({**what, "line": line, "moments": [list(c) for c in moments]} if of else what)
            if what["part"] == "possibly":
                parts[-1]["why"] = None if moments else forged(d, log, proved, of)
        chosen = [[[p, m] for m in range(len(part["moments"]))] for p, part in enumerate(parts) if part["part"] == "possibly"]
        why["ways"].append({"parts": parts, "cases": [forged_case(d, log, parts, list(row)) for row in itertools.product(*chosen)]})
    return why
