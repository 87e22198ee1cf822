"""Made-up days as logs of other tools, in any order of their events, and what floor makes of them: the same stations, values and clocks."""
import json
import re

from days import made, shuffled
from frames import Draw, log_of, word
from listing import OPERATIONS, SILENT, read
from runs import NotAnswered

OPTIONS = ["--value", r"*=reports (\d+)", "--value", "*=goes down=>silent"]
TEXTS = ["reports {} now", "it reports {}", 'at 10:15 "reports {}" #', "reports {}\\n"]


def text_of(d, value):
    return "rack goes down" if value == SILENT else d.pick(TEXTS).format(value)


def told(d, day):
    """An event's station, its clock by names and its text, for each event of a day."""
    for e, k in day.numbered():
        clock = {day.name(j): count for j, count in enumerate(day.history[e.station][k]) if count}
        yield day.name(e.station), dict(shuffled(d, clock.items())), text_of(d, e.value)


def shiviz(host, clock, text):
    return f"{host} {json.dumps(clock, ensure_ascii=False)}\n{text}\n"


def jsonl(host, clock, text):
    return json.dumps({"host": host, "clock": clock, "event": text}) + "\n"


def initially(day):
    words = [f"{s.name}={'silent' if s.value == SILENT else s.value}" for s in day.stations]
    return [word for pair in words for word in ("--initially", pair)] + ["--hosts", ",".join(s.name for s in day.stations)]


def meant(log):
    """Each station's values and clocks."""
    return [[(e.value, tuple(e.clock)) for e in log.reports(s)] for s in range(len(log.initial))]


def window(log, first, last):
    """The log of the events from one to another, in order; what is before them is their past."""
    events = [f for f in log.frames if f[0] == 0x20]
    n = len(log.initial)
    base, values = [0] * n, [e.value for e in log.initial]
    for f in events[:first - 1]:
        base[f[1]], values[f[1]] = base[f[1]] + 1, f[2] * 256 + f[3]
    kept = [[0x20, f[1], f[2], f[3]] + [max(k - b, 0) for k, b in zip(f[4:], base)] for f in events[first - 1:last]]
    return log_of([[0x10, n] + [b for v in values for b in word(v)]] + kept)


def drawn(d):
    """A day in which each station has an event."""
    while True:
        day = made(d.below(10**9), 1 + d.below(6), d.pick([1, 3, 8, 20, 60]), 0, False, 0)
        if all(len(clocks) > 1 for clocks in day.history):
            return day


def at_fault(d, day, events):
    """Events with one left out that others count, or one twice, or one that counts an event which is not there."""
    k = d.below(len(events))
    host, clock, text = events[k]
    yield "an event twice", events + [events[k]]
    yield "an event too many seen", events[:k] + [(host, {**clock, d.pick(day.stations).name: len(events) + 2}, text)] + events[k + 1:]
    if any(c.get(host, 0) >= clock[host] for j, (_, c, _) in enumerate(events) if j != k):
        yield "an event left out", events[:k] + events[k + 1:]


def tried(runs, seed):
    """The differences for one day, in one of both forms, for a part of it, and at fault."""
    d = Draw(seed)
    day = drawn(d)
    kind, form = d.pick([("shiviz", shiviz), ("jsonl", jsonl)])
    events, wrong = shuffled(d, told(d, day)), []
    data = "".join(form(*event) for event in events).encode()

    def compiled(*more):
        done = runs.run("import", kind, "-", *OPTIONS, *initially(day), *more, data)
        if done.returncode:
            raise NotAnswered(f"import {kind} {more}: exit code {done.returncode}, {done.stderr.decode()}")
        return runs.answered("compile", "-", done.stdout)

    log = read(compiled(), OPERATIONS)
    if meant(log) != meant(read(day.log(), OPERATIONS)):
        wrong.append(f"import {kind} gives another day: {data.decode()}")
    first = 1 + d.below(len(day.events))
    last = first + d.below(len(day.events) - first + 1)
    if compiled("--window", f"{first}..{last}") != window(log, first, last):
        wrong.append(f"import {kind} --window {first}..{last} gives another day: {data.decode()}")
    for name, others in at_fault(d, day, events):
        done = runs.run("import", kind, "-", *OPTIONS, *initially(day), "".join(form(*event) for event in others).encode())
        if done.returncode != 2 or done.stdout or not re.search(rb":\d+: |no host", done.stderr):
            wrong.append(f"import {kind} with {name}: exit code {done.returncode}, {done.stderr.decode()}")
    return wrong
