#!/usr/bin/env python3
"""The dining philosophers of examples/: made again from their seed, replayed in the file's order, and asked over all orders.

Usage: dining.py [FLOOR]        (FLOOR: the built command, target/cargo/release/floor by default)

In the file's order no two neighbours eat at the same time, in any of the days tried. Over all orders none do where the forks are sound,
and two do where one fork was kept and sent. Exit code 1 if one of these is not so.
"""
import json
import pathlib
import re
import subprocess
import sys

ROOT = pathlib.Path(__file__).resolve().parent.parent
EXAMPLES = ROOT / "examples"
sys.path.insert(0, str(EXAMPLES))
from dining import EATING, SEATS, day  # noqa: E402

SEEDS = range(1, 13)


def replayed(text):
    """How often somebody eats, and how often two neighbours do at the same time, after each event in the file's order."""
    does, meals, together = {}, 0, 0
    for who, what in re.findall(r"^event p(\d) (\w+)", text, re.M):
        does[int(who)] = what
        meals += what == EATING
        together += any(does.get(w) == does.get((w + 1) % SEATS) == EATING for w in range(SEATS))
    return meals, together


def eating(text, moment):
    """Who eats at a moment, which counts each one's events."""
    did = [re.findall(rf"^event p{who} (\w+)", text, re.M) for who in range(SEATS)]
    return [who for who, count in enumerate(moment) if count and did[who][count - 1] == EATING]


def main(floor):
    wrong, moments = [], 0
    for kind in ("sound", "kept"):
        if day(kind, 1) != (EXAMPLES / f"dining-{kind}.txt").read_text():
            wrong.append(f"examples/dining-{kind}.txt is not what examples/dining.py makes")
        for seed in SEEDS:
            text = day(kind, seed)
            meals, together = replayed(text)
            if meals < 2 * SEATS or together:
                wrong.append(f"{kind}, seed {seed}: in the file's order {meals} meals, {together} times two neighbours at once")
            told = subprocess.run([floor, "ask", "--json", "-"], input=text, capture_output=True, text=True, check=True).stdout
            [question] = json.loads(told)["questions"]
            if bool(question["moments"]) != (kind == "kept") or (question["why"] is None) != (kind == "kept"):
                wrong.append(f"{kind}, seed {seed}: {question['moments']}")
            for moment in question["moments"]:
                eat = eating(text, moment)
                moments += 1
                if not any((who + 1) % SEATS in eat for who in eat):
                    wrong.append(f"{kind}, seed {seed}: no two neighbours eat at {moment}")
    print("\n".join(wrong) or f"{2 * len(SEEDS)} tables of philosophers: nothing in the file's order, {moments} moments over all orders")
    return 1 if wrong else 0


if __name__ == "__main__":
    sys.exit(main(sys.argv[1] if len(sys.argv) > 1 else str(ROOT / "target/cargo/release/floor")))
