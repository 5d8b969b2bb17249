#!/usr/bin/env python3
"""Writes random sequences of a diagram's calls, each call with what it is to be answered.

    python3 tools/other/sequences.py SEED COUNT > FILE

One call a line, and its answer after an equals sign. A performance is its two words, as in model files, and a state a
performance and a weight; the numbers stand apart by a blank each:

    diagram KIND                      a new diagram of flow, first, delay (or out), grade or first-or-out; weights are parts
    add STATE.. = NODE
    series CHILD.. = NODE
    parallel CHILD.. = NODE
    bridge ARM.. = NODE
    restate NODE STATE.. = TERMS
    collect NODE = TERMS
    size NODE = TERMS
    term NODE PLACE = STATE
    total NODE = WEIGHT
    availability NODE DEMAND = MET TOTAL

A call that is refused has the answer `no NUMBER`. A call that begins with `short` is lent 3,199 terms, and refused with 1.
What was covered is told on standard error; for kinds with out also how many bridges were collected, after a change, in
which such arms are out and the others work, in some combination of their terms; and, in brackets, how many of them would
have another row if that combination went by the paths, joined in their order, and not by its formula.
"""

import argparse
import random
import sys
from collections import Counter
from itertools import product

from diagrams import Diagram, Refusal
from kinds import OUT, TOP32, Delay, FirstFault, Flow, Grade, OrOut, Parts, through_paths
from rows import LONGEST_ARM, Finder, row_by_convolution

KINDS = {"flow": Flow(), "first": FirstFault(), "delay": OrOut(Delay()), "grade": Grade(), "first-or-out": OrOut(FirstFault())}
WAYS = {"S": "series", "L": "parallel", "B": "bridge"}
OFTEN = {"delay": (TOP32, 0.1), "first-or-out": (0, 0.3)}  # a value that is drawn more often than others: never, healthy
MOST_WORK = 5_000  # combinations of rows at a joined node


def arms_out(arms):
    return "".join(name for name, arm in zip("abcde", arms) if arm == OUT)


class Sequence:
    def __init__(self, rng, name):
        self.rng, self.name, self.kind = rng, name, KINDS[name]
        self.diagram = Diagram(self.kind, Parts(), Finder(2_000))
        self.most = rng.choice([2, 3, 3, 4, 9])
        self.step = 1 if name == "grade" else rng.choice([1, 1, 2, 1000, 2**30])
        self.lines = ["diagram " + name]
        self.seen = Counter()
        self.bridges, self.shown = Counter(), Counter()  # collected, by the arms that are out

    def has_out(self):
        return isinstance(self.kind, OrOut)

    def working(self, value):
        return (1, value) if self.has_out() else value

    def performance(self):
        if self.has_out() and self.rng.random() < 0.2:
            return OUT
        value = min(TOP32, self.step * self.rng.randint(0, self.most))
        often, chance = OFTEN.get(self.name, (value, 0))
        return self.working(often if self.rng.random() < chance else value)

    def states(self):
        roll = self.rng.random()
        if roll < 0.03:
            count = self.rng.choice([0, 65, 70])
        elif roll < 0.08 and self.name != "grade":
            return [(self.working(i), 1) for i in range(self.rng.choice([24, 25, 40, 64]))]
        else:
            count = self.rng.choice([1, 2, 2, 3, 3, 4])
        heavy = self.rng.random() < 0.05
        return [(self.performance(), self.rng.choice([0, TOP32, 65536]) if heavy else self.rng.randint(0, 5)) for _ in range(count)]

    def node(self):
        """Mostly a node, sometimes the number of none."""
        nodes = len(self.diagram.made)
        return self.rng.randrange(nodes) if nodes and self.rng.random() < 0.95 else self.rng.choice([nodes, nodes + 1, 48, 255, TOP32])

    def children(self, count):
        free = [k for k in range(len(self.diagram.made)) if not self.diagram.is_used(k)]
        if len(free) < count or self.rng.random() < 0.12:
            return [self.node() for _ in range(count)]
        return self.rng.sample(free, count)

    def written(self, performance):
        return "%d %d" % self.kind.words(performance)

    def listed(self, states):
        return "".join(f" {self.written(performance)} {w}" for performance, w in states)

    def record(self, call, answer):
        """Notes the call with its answer, a function that makes it on the model and writes what it answers."""
        if self.rng.random() < 0.01:
            call, told = "short " + call, "no 1"
        else:
            try:
                told = answer()
            except Refusal as refusal:
                told = f"no {refusal.number}"
        self.seen[call.split()[0], told if told.startswith("no") else "accepted"] += 1
        self.lines.append(f"{call} = {told}")

    def add(self):
        states = self.states()
        self.record("add" + self.listed(states), lambda: str(self.diagram.add(states)))

    def join(self):
        letter = self.rng.choice("SLSLB")
        count = 5 if letter == "B" else self.rng.choice([2, 2, 2, 3, 3, 4, 8])
        if letter != "B" and self.rng.random() < 0.04:
            count = self.rng.choice([0, 1, 9])
        self.join_these(letter, self.children(count))

    def join_these(self, letter, children):
        self.record(WAYS[letter] + "".join(f" {child}" for child in children), lambda: str(self.diagram.join(letter, children)))

    def restate(self, k):
        states = self.states()
        self.record(f"restate {k}" + self.listed(states), lambda: str(self.diagram.restate(k, states)))

    def bridge(self):
        """Restates arms of a bridge of parts, collects it and asks for its row; while there is none, makes one."""
        made = self.diagram.made
        of_parts = [k for k in range(len(made)) if self.is_bridge(k) and all(map(self.diagram.is_part, made[k][1]))]
        if not of_parts:
            for _ in range(5):
                self.add()
            self.join_these("B", self.children(5))
            return
        k = self.rng.choice(of_parts)
        for arm in self.rng.sample(made[k][1], self.rng.choice([0, 1, 2, 3, 5])):
            self.restate(arm)
        self.collect_this(k)
        if self.diagram.answers(k):
            self.every_term(k)

    def is_bridge(self, k):
        diagram = self.diagram
        return diagram.is_node(k) and not diagram.is_part(k) and diagram.made[k][0] == "B"

    def collect(self):
        diagram = self.diagram
        joined = [n for n in range(len(diagram.made)) if not diagram.is_part(n)]
        k = self.rng.choice(joined) if joined and self.rng.random() < 0.8 else self.node()
        stale = [n for n in range(len(diagram.made)) if not diagram.answers(n)]
        if stale and self.rng.random() < 0.85:
            ready = [n for n in stale if all(diagram.answers(child) for child in diagram.made[n][1])]
            k = self.rng.choice(ready if self.rng.random() < 0.9 else stale)
        self.collect_this(k)

    def collect_this(self, k):
        if self.is_much_work(k):
            return
        stale = self.is_bridge(k) and not self.diagram.answers(k)
        self.record(f"collect {k}", lambda: str(self.diagram.collect(k)))
        if stale and self.has_out() and self.diagram.answers(k):
            self.cover(k)

    def cover(self, k):
        """Notes which arms are out of a bridge that was stale and is collected."""
        rows = [self.diagram.row(child) for child in self.diagram.made[k][1]]
        row = self.diagram.row(k)
        for out in {arms_out(arms) for arms in product(*rows)}:
            self.bridges[out] += 1
            self.shown[out] += row_by_convolution(self.diagram.weight, self.by_paths_where(out), rows) != row

    def by_paths_where(self, out):
        """The bridge, but by its paths where exactly these arms are out."""

        def bridge(*arms):
            return through_paths(self.kind, *arms) if arms_out(arms) == out else self.kind.bridge(*arms)

        return bridge

    def is_much_work(self, k):
        """A bridge whose arms have many terms, each few enough."""
        diagram = self.diagram
        if not self.is_bridge(k):
            return False
        children = diagram.made[k][1]
        if not all(diagram.answers(child) for child in children):
            return False
        work, sizes = 1, [len(diagram.row(child)) for child in children]
        for size in sizes:
            work *= size
        return work > MOST_WORK and max(sizes) <= LONGEST_ARM

    def question(self):
        k, diagram = self.node(), self.diagram
        roll = self.rng.randrange(4)
        if roll == 0:
            self.record(f"size {k}", lambda: str(diagram.size(k)))
        elif roll == 1:
            i = self.rng.choice([0, 0, 1, 1, 2, 3, 5, 63, 64, TOP32])
            self.record(f"term {k} {i}", lambda: self.listed([diagram.term(k, i)]).strip())
        elif roll == 2:
            self.record(f"total {k}", lambda: str(diagram.total(k)))
        else:
            demand = self.performance()
            self.record(f"availability {k} {self.written(demand)}", lambda: "%d %d" % diagram.availability(k, demand))

    def everything(self):
        """All that can be asked of each node."""
        for k in range(len(self.diagram.made)):
            self.record(f"size {k}", lambda: str(self.diagram.size(k)))
            self.every_term(k)
            demand = self.performance()
            self.record(f"availability {k} {self.written(demand)}", lambda: "%d %d" % self.diagram.availability(k, demand))

    def every_term(self, k):
        """And one more than there are."""
        for i in range(len(self.diagram.row(k)) + 1 if self.diagram.answers(k) else 1):
            self.record(f"term {k} {i}", lambda: self.listed([self.diagram.term(k, i)]).strip())


def sequence(seed, number):
    rng = random.Random(f"{seed}/{number}")
    made = Sequence(rng, list(KINDS)[number % len(KINDS)])
    calls = rng.choice([20, 60, 120])
    full = number // len(KINDS) % 3 == 0  # all 48 nodes, and more
    nodes = 48 if full else rng.randint(4, 16)
    while len(made.lines) < calls or full and (2 not in refusals(made) or len(made.lines) < 2 * calls):
        growing = len(made.diagram.made) < nodes or full and rng.random() < 0.1
        if growing and rng.random() < 0.5:
            made.add() if rng.random() < 0.65 else made.join()
            continue
        roll = rng.random()
        if made.has_out() and rng.random() < 0.5:  # other arms out each time
            made.bridge()
        elif roll < 0.2:
            made.restate(made.node())
        elif roll < 0.65:
            made.collect()
        else:
            made.question()
    if rng.random() < 0.3:
        made.everything()
    return made


def refusals(made):
    return {int(told.split()[1]) for _, told in made.seen if told.startswith("no")}


def calls_covered(seen):
    for call in sorted({call for call, _ in seen}):
        told = sorted((key for key in seen if key[0] == call), key=lambda key: (key[1] != "accepted", len(key[1]), key[1]))
        yield f"{call:<12} " + ", ".join(f"{key[1]} {seen[key]}" for key in told)


def bridges_covered(name, bridges, shown):
    for length in range(6):
        told = [f"{out or 'none'} {bridges[out]} ({shown[out]})" for out in sorted(bridges) if len(out) == length]
        if told:
            yield f"{name}: bridges with {length} arms out: " + ", ".join(told)


def main():
    arguments = argparse.ArgumentParser(description="write sequences of a diagram's calls")
    arguments.add_argument("seed")
    arguments.add_argument("count", type=int)
    chosen = arguments.parse_args()
    seen = Counter()
    bridges, shown = ({name: Counter() for name in KINDS} for _ in range(2))
    for number in range(chosen.count):
        made = sequence(chosen.seed, number)
        seen += made.seen
        bridges[made.name] += made.bridges
        shown[made.name] += made.shown
        print("\n".join(made.lines))
    covered = list(calls_covered(seen))
    for name in KINDS:
        covered += bridges_covered(name, bridges[name], shown[name])
    print("\n".join(covered), file=sys.stderr)


if __name__ == "__main__":
    main()
