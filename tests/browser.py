#!/usr/bin/env python3
"""Opens the pages of `floor picture` in a real browser, and compares what is on them with what is worked out here from the logs.

Usage: browser.py [FLOOR] [--screenshot PNG]      FLOOR: the built program; exit code 1 on any difference
Events, arrows, messages, cut lines and tables are those of the log; arrows are worked out by looking for an event between every two, and
moments by the rule of tests/bases.py. Each cut line has to pass each station between the right two events, by what the browser draws.
Moments are chosen, stations folded, the picture zoomed, by mouse and by keyboard; dark, print and a browser without scripts are tried.
Chromium is installed from Debian's packages if it is not there.
"""
import pathlib
import subprocess
import sys
import tempfile
import time

import webdriver
from listing import answer_line
from page_days import NUMBERED, Day, implied, made_up
from page_scripts import BOXES, CHAIN, COLOURS, CROSSED, HIDDEN, OVERLAPS, PASSED, STATE, STATES, TIMES

ROOT = pathlib.Path(__file__).resolve().parent.parent
FIVE, THREE = ["desk", "table", "breakout", "grinder", "rack"], ["desk", "table", "breakout"]
EXAMPLES = {"lead-width": FIVE, "lead-width-never": FIVE, "conveyor": THREE, "panel-outlines": FIVE, "two-sashes": FIVE,
            "silent-station": ["desk", "table", "rack"]}
CHAINS = {"lead-width-never": ("1,2", "0,2"), "implied": ("2,2", "0,1")}  # an event that another has seen, in the chain
SMALL = 20  # events up to which no two texts may overlap
PATIENCE = 1000  # milliseconds for a choice, a fold or a zoom
WIDTH, HEIGHT = 1200, 900
NEVER = "never, in any order that the messages allow"
DAY = """station desk initially 50
station table initially 0
station rack initially 0
value new = 60

event table 50
event desk new
question desk is new and table is 50
"""


class Tally:
    """What was compared, and what differed."""

    def __init__(self):
        self.passed, self.failed, self.figures = 0, 0, {}

    def same(self, what, got, wanted):
        self.passed += got == wanted
        if got != wanted:
            self.failed += 1
            print(f"FAILED {what}:\n  got    {str(got)[:600]}\n  wanted {str(wanted)[:600]}")

    def true(self, what, got):
        self.same(what, bool(got), True)

    def count(self, what, number):
        self.figures[what] = self.figures.get(what, 0) + number


# EACH PAGE

def static(t, browser, day):
    """What the page has, whatever is chosen."""
    state = browser.run(STATE)
    came = [i for i, m in enumerate(day.log.messages) if m.received]
    lost = [i for i, m in enumerate(day.log.messages) if not m.received]
    t.same("events", state["events"], [[f"{s},{k}", day.label(s, k), str(k)] for s, k in day.events])
    t.same("initial values", state["initial"], [[str(s), day.label(s, 0)] for s in range(len(day.names))])
    t.same("stations", state["names"], day.names)
    t.same("arrows", sorted(state["arrows"]), day.arrows())
    t.same("messages", sorted(state["messages"]), came)
    t.same("messages that never came", sorted(state["lost"]), lost)
    t.same("cut lines", state["cuts"], [*day.moments])
    t.same("tables", state["tables"], [[id, [*day.table(cut)], day.waiting(cut)] for id, cut in day.moments.items()])
    t.same("proved lines", state["proved"], [answer_line(*a).decode().strip() for a in day.answers])
    t.same("at the start", state["start"], ["yes" if start else "no" for start, _, _ in day.answers])
    t.same("nevers", state["nevers"], [NEVER for _, cuts, _ in day.answers if not cuts])
    t.same("why never", state["told"], sum(not cuts for _, cuts, _ in day.answers))
    t.same("events in rows", sorted(state["rows"]), sorted(f"{s},{k}" for s, k in day.events))
    for what in ("events", "arrows", "cuts"):
        t.count(what, len(state[what]))
    t.count("cells", state["cells"])
    t.same("table cells", state["cells"], len(day.moments) * len(day.names) * (4 if day.log.header == 0x11 else 3))


def lines(t, browser, day):
    """No line goes through the mark of an event that it does not join."""
    ends = {f"message {i}": [f"{s},{k}" for s, k in ends] for i, ends in enumerate(day.messages())}
    t.same("lines through marks", [[line, mark] for line, mark in browser.run(CROSSED) if mark not in ends.get(line, line.split())], [])


def passes(t, browser, id, cut):
    """The line of a moment passes each station behind its last event in the moment and before the next; and how broad it is."""
    stations = browser.run(PASSED, id)
    for s, (places, marks) in enumerate(stations):
        k = cut[s]
        behind, before = marks[k][1], marks[k + 1][0] if k + 1 < len(marks) else float("inf")
        t.true(f"moment {id} passes station {s} between {k} and {k + 1}", places and behind < min(places) and max(places) < before)
    crossings = [x for places, _ in stations for x in places]
    return max(crossings) - min(crossings)


def moments(t, browser, day):
    """Each moment chosen in turn."""
    for id, cut in day.moments.items():
        browser.run("document.querySelector(`input[value='${arguments[0]}']`).click()", id)
        states = browser.run(STATES)
        side = lambda k, last: "before" if k < last else "last" if k == last else "after"
        wanted = [[side(k, cut[s])] for s, events in enumerate(day.log.history) for k in range(len(events) + 1)]
        t.same(f"marks at moment {id}", states["marks"], wanted)
        t.same(f"tables shown at moment {id}", states["tables"], [id])
        t.same(f"line emphasised at moment {id}", states["lines"], [id])
        question = id.split(",")[0]
        together = [other for other in day.moments if other.split(",")[0] == question]
        t.same(f"lines shown at moment {id}", states["shown"], together)
        for other in together:
            breadth = passes(t, browser, other, day.moments[other])
            t.true(f"the line of moment {id} is straight", other != id or breadth < 1)
        lines(t, browser, day)


def page(t, browser, path, day, file):
    """All that is looked at on every page."""
    text = path.read_text()
    for word in ("http:", "https:", "src=", "href=", "@import", "url(h", "url(/"):
        t.true(f"no {word} on the page", word not in text)
    browser.open(path)
    t.same("title", browser.run("return [document.title, document.querySelector('h1').textContent]"), [file, file])
    static(t, browser, day)
    first = next(iter(day.moments), None)
    chosen = browser.run("return document.querySelector('input:checked')?.value ?? null")
    t.same("chosen at first", chosen, first or ("0" if day.answers else None))
    lines(t, browser, day)
    if len(day.events) <= SMALL:
        t.same("overlapping texts", browser.run(OVERLAPS), [])
    moments(t, browser, day)
    t.same("requests", browser.run("return performance.getEntriesByType('resource').map((entry) => entry.name)"), [])
    t.same("console", browser.said(), [])


def chain(t, browser, path, seen, by):
    """The chain of the first question has this clock entry, and its events are ringed."""
    browser.open(path)
    marked = browser.run(CHAIN)
    t.true(f"events of the chain are ringed: {marked['rings']}", {seen, by} <= {*marked["rings"]})
    t.true(f"the clock's entry is an arrow: {marked['arrows']}", f"{seen} {by}" in marked["arrows"])


# BY HAND

def by_hand(t, browser, path, day):
    """Moments chosen by mouse and by keyboard, a station folded, the picture zoomed, on a page with two moments of one question or more."""
    browser.open(path)
    ids = [*day.moments]
    chosen = "return document.querySelector('input:checked').value"
    pair = next(id for id in ids if id.endswith(",1"))
    browser.run("document.querySelector(`input[value='${arguments[0]}']`).click()", pair.replace(",1", ",0"))
    browser.click(f".day .moment[data-moment='{pair}'] text")
    t.same("chosen by its line", [browser.run(chosen), browser.run(STATES)["tables"]], [pair, [pair]])
    browser.click("input[value='" + ids[0] + "']")
    t.same("chosen by mouse", [browser.run(chosen), browser.run(STATES)["lines"]], [ids[0], [ids[0]]])
    choices = browser.run("return [...document.querySelectorAll('input[name=chosen]')].map((input) => input.value)")
    browser.press("input:checked", webdriver.DOWN)
    below = choices[choices.index(ids[0]) + 1]
    t.same("chosen by keyboard", [browser.run(chosen), browser.run(STATES)["tables"]], [below, [below] if "," in below else []])
    browser.run("document.querySelector(`input[value='${arguments[0]}']`).click()", pair)
    fold(t, browser, pair, day)
    zoom(t, browser, pair, day)


def fold(t, browser, id, day):
    """One station by mouse and one by keyboard: their rows are thin and without texts, and lines still pass where they have to."""
    before = browser.run(BOXES)
    browser.click("[data-fold='1']")
    browser.press("[data-fold='2']", webdriver.SPACE)
    after = browser.run(BOXES)
    t.same("folded", after["folded"], [s in (1, 2) for s in range(len(day.names))])
    t.same("stations with texts", after["texts"], [s not in (1, 2) for s in range(len(day.names))])
    t.true("a folded picture is lower", after["height"] < before["height"] - 50)
    t.true("names stand at their lines", max(after["beside"]) < 2)
    passes(t, browser, id, day.moments[id])
    browser.click("[data-fold='1']")
    browser.click("[data-fold='2']")
    t.same("unfolded", browser.run(BOXES)["height"], before["height"])


def zoom(t, browser, id, day):
    """By buttons and by keys; lines still pass where they have to."""
    widths = [browser.run(BOXES)["width"]]
    for act in (lambda: browser.click("[data-zoom='1']"), lambda: browser.press(".scroller", "-"), lambda: browser.press(".scroller", "-"),
                lambda: browser.press(".scroller", "+"), lambda: browser.click("[data-zoom='0']")):
        act()
        widths.append(browser.run(BOXES)["width"])
        t.true("names stand at their lines", max(browser.run(BOXES)["beside"]) < 2)
        passes(t, browser, id, day.moments[id])
    start, larger, back, smaller, again, whole = widths
    t.true("zoomed in, out and back", larger > start and back == start and smaller < start and again == start and whole < smaller)
    browser.press(".scroller", "++++++++")


def quick(t, browser):
    """No choice, fold or zoom takes long."""
    times = browser.run(TIMES, ["[data-zoom='-1']", "[data-zoom='1']", "[data-fold='0']", "[data-fold='0']", ".question:last-child input"])
    t.count("ms at most", max(0, round(max(times)) - t.figures.get("ms at most", 0)))
    t.true(f"each under {PATIENCE} ms: {times}", max(times) < PATIENCE)
    t.true("a moderate number of elements", browser.run("return document.querySelectorAll('*').length") < 12000)


def ways_to_look(t, browser, path, day):
    """Light and dark, narrow, in print, and without scripts."""
    for scheme, dark in (("light", False), ("dark", True)):
        browser.media(scheme=scheme)
        browser.open(path)
        colours = browser.run(COLOURS)
        t.same(f"{scheme} paper", colours["paper"] < 0.2, dark)
        t.true(f"contrasts in {scheme}: {colours['contrasts']}", min(colours["contrasts"].values()) >= 4.5)
    browser.media()
    browser.size(390, 800)
    t.true("no scrolling sideways when narrow", browser.run("return document.documentElement.scrollWidth <= innerWidth"))
    browser.size(1040, 720)
    browser.media("print", "dark")
    everything = {"day": False, "tools": False, "rows": True, "inputs": 0, "tables": len(day.moments), "proofs": len(day.answers)}
    t.same("in print", browser.run(HIDDEN), everything)
    t.true("light in print", browser.run(COLOURS)["paper"] > 0.8)
    t.true("not wider than the sheet", browser.run("return document.documentElement.scrollWidth <= innerWidth"))
    browser.media()
    pdf = browser.printed()
    t.true("printed", pdf.startswith(b"%PDF") and len(pdf) > 10000)
    browser.size(WIDTH, HEIGHT)
    browser.scripts(False)
    browser.open(path)
    t.same("without scripts", browser.run(HIDDEN), everything)
    browser.scripts(True)


# PAGES

def floor(program, *args):
    return subprocess.run([program, "picture", *map(str, args)], capture_output=True, timeout=60)


def made(t, program, folder, log, names):
    """The page of a log, which is the same when it is made again."""
    given, out = folder / "names.txt", folder / f"{log.stem}.html"
    given.write_text("".join(f"station {name}\n" for name in names))
    run = floor(program, log, given, "-o", out)
    t.same(f"{log.name} makes a page", (run.returncode, run.stdout, run.stderr), (0, b"", b""))
    t.same("the same page again", floor(program, log, given, "-o", "-").stdout, out.read_bytes())
    return out


def of_words(t, program, folder, browser):
    """The page of a day in words: lines are the day's, and values have their names."""
    day, out = folder / "day.txt", folder / "day.html"
    day.write_text(DAY)
    t.same("day.txt makes a page", floor(program, day, "-o", out).returncode, 0)
    browser.open(out)
    rows = [["desk", "1", "7", "60 (new)"], ["table", "1", "6", "50"], ["rack", "0", "start", "0"]]
    state = browser.run(STATE)
    t.same("the day's table", state["tables"], [["0,0", rows, []]])
    t.same("the day's events", state["events"], [["0,1", ["new"], "1"], ["1,1", ["50"], "1"]])
    question = browser.run("return [...document.querySelectorAll('.which, h2, .numbers')].map((part) => part.textContent)")
    t.same("the day's question", question, ["Question 1, line 8", "desk is new and table is 50", "in numbers: desk is 60 and table is 50"])


def wrong_words(t, program, folder):
    """What is wrong, in one line or with the usage in two, and the exit code that belongs to it; and no page."""
    log, out = ROOT / "examples" / "lead-width.log", folder / "none.html"
    (folder / "bad.log").write_bytes(b"100200000000EF\n")
    usage = [[log], [log, "-o"], ["-o", out], [log, "-x", "-o", out], [log, log, log, "-o", out]]
    words = [[log, "-o", out, "-o", out], ["day.txt", log, "-o", out], ["-", "-", "-o", out], [log, "-o", log]]
    files = [[folder / "no.log", "-o", out], [log, folder / "no.txt", "-o", out], [log, "-o", folder / "no" / "a"], [log, "-o", folder]]
    for cases, code, told in ((usage, 2, 2), (words, 2, 1), (files, 3, 1), ([[folder / "bad.log", "-o", out]], 1, 1)):
        for args in cases:
            run = floor(program, *args)
            t.same(f"{args}", (run.returncode, run.stdout, run.stderr.count(b"\n"), out.exists()), (code, b"", told, False))


def screenshot(program, folder, browser, png):
    """The customer's day as it opens, down to the table."""
    path = folder / "shown.html"
    floor(program, ROOT / "examples" / "lead-width.txt", "-o", path)
    browser.size(WIDTH, HEIGHT)
    browser.media()
    browser.open(path)
    bottom = browser.run("return document.querySelector('.shown .found').getBoundingClientRect().bottom")
    pathlib.Path(png).write_bytes(browser.picture(0, 0, WIDTH, bottom + 16))


def main(program, png):
    start, t = time.time(), Tally()
    webdriver.install()
    with tempfile.TemporaryDirectory() as name, webdriver.Browser() as browser:
        folder = pathlib.Path(name)
        odd = folder / "8 of \"<b>\" & 'c'.log"
        odd.write_bytes(made_up())
        (folder / "implied.log").write_bytes(implied())
        logs = {ROOT / "examples" / f"{log}.log": names for log, names in EXAMPLES.items()}
        logs |= {folder / "implied.log": NUMBERED[:3], odd: NUMBERED}
        browser.size(WIDTH, HEIGHT)
        browser.media()
        for log, names in logs.items():
            day, path = Day(log.read_bytes(), names), made(t, program, folder, log, names)
            page(t, browser, path, day, log.name)
            if log.stem in CHAINS:
                chain(t, browser, path, *CHAINS[log.stem])
            if log == odd:
                by_hand(t, browser, path, day)
            if len(day.events) > SMALL:
                quick(t, browser)
            ways_to_look(t, browser, path, day)
            t.count("pages", 1)
        of_words(t, program, folder, browser)
        wrong_words(t, program, folder)
        if png:
            screenshot(program, folder, browser, png)
    figures = ", ".join(f"{number} {what}" for what, number in t.figures.items())
    print(f"browser: {figures}; {t.passed} passed, {t.failed} failed in {time.time() - start:.0f} s")
    return 1 if t.failed else 0


def given(words):
    """The program and the file for a screenshot, or a line about usage."""
    program, png, usage = ROOT / "target" / "cargo" / "release" / "floor", None, __doc__.split("\n\n")[1].split("\n")[0]
    if "--screenshot" in words:
        at = words.index("--screenshot")
        png = words[at + 1] if at + 1 < len(words) else sys.exit(usage)
        words = words[:at] + words[at + 2:]
    if len(words) > 1 or any(word.startswith("-") for word in words):
        sys.exit(usage)
    program = pathlib.Path(words[0]) if words else program
    return (program, png) if program.exists() else sys.exit(f"{program}: not there; `cargo build --release -p floor` makes it")


if __name__ == "__main__":
    sys.exit(main(*given(sys.argv[1:])))
