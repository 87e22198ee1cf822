#!/usr/bin/env python3
"""Eight dining philosophers as a day in words, made from a seed: forks are messages.

Usage: dining.py sound|kept [SEED]

A fork lies between each two neighbours. Who has both of his forks eats, and then sends both on, one to each neighbour. `kept` has one
fault: after his first meal a philosopher sends a fork and keeps it as well, so that his second does not wait for it to come back. The
file's order is one in which this does not show: no two neighbours ever eat at the same time in it.
"""
import sys

SEATS = 8
MEALS = 3
THINKING, HUNGRY, EATING = "thinking", "hungry", "eating"


class Draw:
    """Numbers from a seed, the same on every machine."""

    def __init__(self, seed):
        self.state = seed % 2**32

    def pick(self, of):
        self.state = (self.state * 1664525 + 1013904223) % 2**32
        return of[(self.state >> 16) % len(of)]


class Table:
    """Fork f lies between philosophers f and f + 1. At first each is with the even one of the two, so that these can begin."""

    def __init__(self, keeper):
        self.does = [THINKING] * SEATS
        self.has = [set() for _ in range(SEATS)]
        for fork in range(SEATS):
            self.has[fork if fork % 2 == 0 else (fork + 1) % SEATS].add(fork)
        self.on_the_way = []  # fork, sender, number of the sender's event, receiver
        self.events = [0] * SEATS
        self.meals = [0] * SEATS
        self.keeper = keeper  # the philosopher who keeps a fork once, or none
        self.kept = None  # that fork, while he has it and has sent it
        self.lines = []
        self.messages = []

    def event(self, who, does, after=None):
        self.does[who] = does
        self.events[who] += 1
        self.lines.append(f"event p{who} {does}" + (f" after p{after[0]} {after[1]}" if after else ""))

    def neighbours(self, who):
        return (who - 1) % SEATS, (who + 1) % SEATS

    def can(self, who):
        """What a philosopher can do next: put down, take a fork that comes, eat."""
        if self.does[who] == EATING:
            return [self.put_down]
        kept = {self.kept} if who == self.keeper and self.kept is not None else set()
        comes = [lambda who, m=m: self.take(who, m) for m in self.on_the_way if m[3] == who and m[0] not in kept]
        ready = len(self.has[who] | kept) == 2 and self.meals[who] < MEALS
        # By the forks no neighbour can be eating, but for one fork that is in two hands: the file's order waits for that one.
        seen = any(self.does[n] == EATING for n in self.neighbours(who))
        return comes + [self.eat] * (ready and not seen)

    def take(self, who, message):
        fork, sender, sent, _ = message
        self.on_the_way.remove(message)
        self.has[who].add(fork)
        self.event(who, HUNGRY, (sender, sent))
        self.messages.append(f"message p{sender} {sent} to p{who} {self.events[who]}")

    def eat(self, who):
        self.meals[who] += 1
        self.event(who, EATING)

    def put_down(self, who):
        self.event(who, THINKING)
        forks = sorted(self.has[who])
        self.has[who].clear()
        for fork in forks:
            receiver = fork if fork != who else (fork + 1) % SEATS
            self.on_the_way.append((fork, who, self.events[who], receiver))
        if who == self.keeper:
            self.kept = forks[0] if self.meals[who] == 1 else None

    def play(self, draw):
        while True:
            can = [(who, act) for who in range(SEATS) for act in self.can(who)]
            if not can:
                break
            who, act = draw.pick(can)
            act(who)
            assert not any(self.does[w] == self.does[(w + 1) % SEATS] == EATING for w in range(SEATS)), "the file's order shows it"
        self.messages += [f"message p{sender} {sent} to p{receiver} never" for _, sender, sent, receiver in self.on_the_way]


def question():
    """Two neighbours eat at the same time: of each two neighbours one has an even number."""
    def pairs(who):
        left, right = (who - 1) % SEATS, (who + 1) % SEATS
        return f"(p{who} is {EATING} and (p{left} is {EATING} or p{right} is {EATING}))"
    return "question " + " or ".join(pairs(who) for who in range(0, SEATS, 2))


def day(kind, seed):
    draw = Draw(seed)
    table = Table(draw.pick(range(SEATS)) if kind == "kept" else None)
    table.play(draw)
    head = [f"# Eight dining philosophers, {kind}, seed {seed}: made by examples/dining.py."]
    values = [f"value {name} = {number}" for number, name in enumerate((THINKING, HUNGRY, EATING))]
    stations = [f"station p{who} initially {THINKING}" for who in range(SEATS)]
    return "\n".join(head + values + stations + table.lines + table.messages + [question()]) + "\n"


def main(words):
    if not words or words[0] not in ("sound", "kept") or len(words) > 2 or not all(w.isdecimal() for w in words[1:]):
        sys.exit("usage: dining.py sound|kept [SEED]")
    sys.stdout.write(day(words[0], int(words[1]) if len(words) == 2 else 1))


if __name__ == "__main__":
    main(sys.argv[1:])
