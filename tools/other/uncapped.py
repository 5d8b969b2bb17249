#!/usr/bin/env python3
"""Holds reports against rows that are worked out without a cap, on generated files whose weights are parts.

    python3 tools/other/uncapped.py SEED COUNT                      this program's reports
    python3 tools/other/uncapped.py SEED COUNT --command COMMAND    and the engine's: the program `analyse`
    python3 tools/other/uncapped.py SEED COUNT --library LIBRARY    and the engine's: the C call

The true row of a file is that of all the combinations of the last node's parts, with whole numbers for weights. Of each
file its report has to be that of the true row, where what is printed of a weight is the smaller of it and the top,
4294967295: the weight of each term, what meets each need, and the total. Nothing is stopped on the way there.

So where the total that is printed is below the top, all that is printed is true; and where it is the top, a weight that is
printed below it is true.

The options are those of compare.py. The table tells of each model how many files have a printed total below the top and
at it, and how many a true total at the top or one off; of the weights that are printed how many are stopped, how many are
true ones below the top beside a total at it, and how many are truly at the top or one off; and how many files differ. The
first that differs is written, and a difference ends with status 1.
"""

import argparse
import random
import sys
from collections import Counter

from compare import Differs, Library, Program, numbers, with_engine
from files import Fault, collect, drawings_of, file_of, joined, needs, part, read, report, written
from generate import knobs_of, sound_plant, with_knobs
from kinds import TOP32, UNCAPPED, WITH_PARTS, capped
from rows import Disagreement, Finder, parts_beneath

EDGES = [0, 1, 2, 3, 255, 256, 65535, 65536, 65537, 2**31 - 1, 2**31, 2**31 + 1, TOP32 - 1, TOP32]


def split(rng, whole, count):
    """So many weights that come to the whole, as far as each has 32 bits."""
    cuts = sorted(rng.choice([0, whole, rng.randint(0, whole), rng.randint(0, whole)]) for _ in range(count - 1))
    return [min(TOP32, above - below) for below, above in zip([0, *cuts], [*cuts, whole])]


def factors(whole):
    found, divisor = [], 2
    while divisor * divisor <= whole:
        while whole % divisor == 0:
            found.append(divisor)
            whole //= divisor
        divisor += 1
    return found + [whole]


def shares(rng):
    """Each part's weights come to ten, or a hundred, and so on, as shares do."""
    whole = rng.choice([10, 100, 1000, 10**4])
    return lambda count: split(rng, whole, count)


def each(draw):
    return lambda count: [draw() for _ in range(count)]


def near_top(rng, parts):
    """The weights of each of these parts, so that their total is at the top or about it."""
    wholes = {k: 1 for k in parts}
    for factor in factors(TOP32 + rng.choice([-2, -1, 0, 0, 1, 1, 2])):
        k = rng.choice([k for k in parts if wholes[k] * factor <= TOP32] or parts)
        wholes[k] *= factor
    return lambda k, count: split(rng, wholes[k], count)


def weights(rng, nodes):
    """A function that draws the weights of a part, given its number and how many: one file draws in one manner."""
    manner = rng.choice(["few", "shares", "shares", "near", "near", "edges", "wide", "sizes"])
    beneath = parts_beneath(drawings_of(nodes)[-1])
    if manner == "near":
        near, other = near_top(rng, beneath), shares(rng)
        return lambda k, count: near(k, count) if k in beneath else other(count)
    ways = {
        "few": each(lambda: rng.randint(0, 9)),
        "shares": shares(rng),
        "edges": each(lambda: rng.choice(EDGES)),
        "wide": each(lambda: rng.getrandbits(32)),
        "sizes": each(lambda: rng.getrandbits(rng.randint(0, 32))),
    }
    return lambda k, count: ways[manner](count)


def weighed_anew(rng, data):
    """The file, with other weights."""
    kind, _, nodes, demands = read(data)
    draw = weights(rng, nodes)
    records = []
    for k, (letter, what) in enumerate(nodes):
        if letter == "P":
            what = part([(*kind.words(p), w) for (p, _), w in zip(what, draw(k, len(what)))])
        records.append(what if letter == "P" else joined(letter, what))
    return file_of(data[0], records + [needs([kind.words(demand) for demand in demands])])


def generated(seed, number, knobs):
    """The file of this number: the first that has a report, of those that are drawn."""
    rng = random.Random(f"{seed}/{number}")
    while True:
        plant = sound_plant(rng, knobs, rng.choice(WITH_PARTS))
        if plant.records[-1][:1] == b"P" and rng.random() < 0.9:
            continue  # a part alone shows little
        plant.needs()
        data = weighed_anew(rng, plant.file())
        try:
            report(data, None, Finder(0))
            return data
        except Fault:
            continue


def printed_weights(text):
    """The total, and the weights that meet needs or are those of terms."""
    lines = [line.split() for line in text.splitlines()]
    some = [int(line[4 if line[0] == b"need" else 3]) for line in lines]
    return int(lines[0][6]), some


class Table:
    COLUMNS = "files, total below, total at top, total within 1, weights stopped, true beside top, weights within 1, files differ".split(", ")

    def __init__(self):
        self.counts = Counter()

    def add(self, model, truth):
        """Counts a file, given the report with the true weights."""
        total, some = printed_weights(truth)
        found = [
            1,
            total < TOP32,
            total >= TOP32,
            abs(total - TOP32) <= 1,
            sum(w > TOP32 for w in [total, *some]),
            sum(w < TOP32 for w in some) if total >= TOP32 else 0,
            sum(abs(w - TOP32) <= 1 for w in some),
        ]
        self.counts.update({(model, column): many for column, many in zip(self.COLUMNS, found)})

    def lines(self):
        yield "model  " + "  ".join(self.COLUMNS)
        for model in [*WITH_PARTS, "all"]:
            yield f"{model:<5}  " + "  ".join(f"{self.count(model, column):>{len(column)}}" for column in self.COLUMNS)

    def count(self, model, column):
        models = WITH_PARTS if model == "all" else [model]
        return sum(self.counts[m, column] for m in models)


def check(data, engine, finder, table):
    """Raises Differs unless this program and the engine print what follows from the true row."""
    kind, whole, nodes, demands = read(data, UNCAPPED)
    try:
        row = collect(kind, whole, nodes, finder)
    except Fault as fault:
        raise Differs(f"a report, but without a cap {fault.line()!r}") from fault
    truth = written(kind, whole, row, demands)
    table.add(data[0], truth)
    stopped, told = written(kind, whole, row, demands, capped), report(data, None, finder)
    if told != stopped or not is_true_below(told, truth):
        raise Differs(f"this program reports:\n{told!r}\nshould be:\n{stopped!r}\nthe truth is:\n{truth!r}")
    engine.check(data, stopped)


def is_true_below(told, truth):
    """Whether a report says the truth wherever it says so: everywhere if its total is below the top, else where a weight is."""
    (told_total, told_some), (true_total, true_some) = printed_weights(told), printed_weights(truth)
    if told_total < TOP32:
        return told_total == true_total and told_some == true_some
    return all(w == true for w, true in zip(told_some, true_some) if w < TOP32)


def main():
    arguments = with_knobs(argparse.ArgumentParser(description="hold reports against rows without a cap"))
    chosen = with_engine(arguments, {"command": Program, "library": Library}).parse_args()
    finder, table = Finder(chosen.feasible, both=True), Table()
    for number in numbers(chosen):
        data = generated(chosen.seed, number, knobs_of(chosen))
        try:
            check(data, chosen.engine, finder, table)
        except (Differs, Disagreement) as difference:
            if not table.count("all", "files differ"):
                chosen.save.write_bytes(data)
                print(f"file {number} of seed {chosen.seed} differs, and is written to {chosen.save}")
                print(difference)
            table.counts[data[0], "files differ"] += 1
    print("\n".join(table.lines()))
    print(f"rows enumerated: {finder.enumerated}, found child by child: {finder.convolved}, found alike in both ways: {finder.agreed}")
    differ = table.count("all", "files differ")
    print(f"{chosen.count} files, {differ or 'no'} difference{'s' if differ > 1 else ''}")
    sys.exit(1 if differ else 0)


if __name__ == "__main__":
    main()
