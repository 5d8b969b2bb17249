#!/usr/bin/env python3
"""A seeded generator of model files, sound and damaged.

    python3 tools/other/generate.py SEED COUNT [--nodes N] [--states N] [--demands N] [--cost N] [--into FOLDER]

File i of a seed is the same whatever the count. Without --into, only the table of what is covered is printed; with it, the
files are written to FOLDER too, as SEED-0.model and so on. --cost bounds the combinations of rows that a joined node may
have, for the sake of time.
"""

import argparse
import pathlib
import random
import struct

from coverage import Coverage
from files import answer, file_of, joined, needs, part
from kinds import FAULT_SET, FIRST_FAULT, MODELS, PAIR, TOP32, WITH_OUT
from rows import Finder, LONGEST_ARM, row_of_states, running_by_convolution


class Knobs:
    """How large the files are: the most nodes, states of a part, demands, and combinations of rows at a joined node."""

    def __init__(self, nodes=14, states=7, demands=16, cost=5_000):
        self.nodes, self.states, self.demands, self.cost = nodes, states, demands, cost


def some_words(rng, model):
    """A function that draws one word of a performance: one file draws all of its words in one manner."""
    manner = rng.choice(["few", "few", "steps", "caps", "wide", "bits"])
    if model == FAULT_SET and rng.random() < 0.6:
        manner = "bits"
    most, step = rng.randint(1, 5), rng.choice([1, 2, 3, 8, 1000, 2**28, 2**31 - 1])
    if manner == "few":
        return lambda: rng.randint(0, most)
    if manner == "steps":
        return lambda: min(TOP32, step * rng.randint(0, most))
    if manner == "caps":
        caps = [0, 1, 2, TOP32, TOP32 - 1, TOP32 - 2, 2**31, 2**31 - 1]
        chosen = rng.sample(caps, rng.randint(3, len(caps)))
        return lambda: rng.choice(chosen)
    if manner == "wide":
        chosen = [rng.getrandbits(32) for _ in range(most + 1)]
        return lambda: rng.choice(chosen)
    bits = [1 << bit for bit in rng.sample(range(32), most)]
    return lambda: sum(bit for bit in bits if rng.random() < 0.4)


def some_weight(rng, model):
    manner = rng.choice(["few", "few", "wide", "caps"])
    nothing = MODELS[model][1].nothing
    often = rng.choice([0, 0.02, 0.2, 0.6])
    bits = [1 << bit for bit in rng.sample(range(32), rng.randint(2, 8))]
    caps = [0, 1, 2, 65535, 65536, 65537, TOP32, TOP32 - 1, 2**31, 2**31 - 1]

    def draw():
        if rng.random() < often:
            return nothing
        if model == FAULT_SET and manner == "few":
            return sum(bit for bit in bits if rng.random() < 0.7)
        if manner == "few":
            return rng.randint(0, 9)
        return rng.choice(caps) if manner == "caps" else rng.getrandbits(32)

    return draw


def performances(rng, model):
    """A function that draws the two words of a performance."""
    high, low = some_words(rng, model), some_words(rng, model)
    out = rng.choice([0, 0.1, 0.4])

    def draw():
        if model == PAIR:
            return (high(), low())
        if model in WITH_OUT and rng.random() < out:
            return (1, 0)
        return (0, low())

    return draw


class Plant:
    """A file in the making: records, and what is known of their nodes, to keep the work within bounds."""

    def __init__(self, rng, knobs, model):
        self.rng, self.knobs, self.model = rng, knobs, model
        self.kind, self.weight = MODELS[model]
        self.records, self.rows, self.free, self.used = [], [], [], []
        self.performance, self.weigh = performances(rng, model), some_weight(rng, model)

    def add(self, states):
        values = [(self.kind.of_words(high, low), w) for high, low, w in states]
        self.put(part(states), row_of_states(self.weight, values))

    def put(self, record, row):
        self.free.append(len(self.records))
        self.records.append(record)
        self.rows.append(row)

    def add_some(self):
        count = self.rng.randint(1, self.knobs.states)
        if self.rng.random() < 0.02:
            count = self.rng.choice([24, 25, 63, 64])
        states = [(*self.performance(), self.weigh()) for _ in range(count)]
        if self.rng.random() < 0.3:
            states += [self.rng.choice(states)]  # a like one
        self.add(states[:64])

    def join(self, letter, children):
        """Joins them if the work is within bounds. The first node that is too long ends the file."""
        rows = [self.rows[child] for child in children]
        if letter == "B":
            if max(len(row) for row in rows) > LONGEST_ARM:
                return False
            cost = 1
            for row in rows:
                cost *= len(row)
            if cost > self.knobs.cost:
                return False
        result = running_by_convolution(self.kind, self.weight, letter, rows)[-1]
        if result is None and self.rng.random() < 0.9:
            return False
        for child in children:
            self.free.remove(child)
        self.used += children
        self.put(joined(letter, children), result or {})
        return True

    def join_some(self, most=8):
        letter = self.rng.choice("SSLLB")
        count = 5 if letter == "B" else min(self.rng.choice([2, 2, 2, 3, 3, 4, 5, 6, 7, 8]), most)
        return len(self.free) >= count and self.join(letter, self.rng.sample(self.free, count))

    def needs(self, count=None):
        count = count or self.rng.choice([1, 2, 3, self.rng.randint(1, self.knobs.demands)])
        shown = sorted(self.rows[-1]) or [None]
        demands = []
        for _ in range(count):
            p = self.rng.choice(shown)
            near = p is not None and self.rng.random() < 0.5
            demands.append(self.kind.words(p) if near else self.performance())
        self.records.append(needs(demands))

    def file(self):
        return file_of(self.model, self.records)


def sound_plant(rng, knobs, model):
    plant = Plant(rng, knobs, model)
    nodes = rng.randint(1, knobs.nodes)
    if rng.random() < 0.01:
        nodes = 48
    parts_first = rng.random() < 0.3
    while len(plant.records) < nodes:
        left = nodes - len(plant.records)
        if left == 1 and rng.random() < 0.85 and any(plant.join_some() for _ in range(4)):
            continue
        eager = 0.1 if parts_first and left > nodes // 3 else 0.55
        if rng.random() < eager and plant.join_some():
            continue
        plant.add_some()
    return plant


def distinct_states(rng, plant, count):
    """States of so many different performances, none of nothing: a part with as many terms."""
    found = {(0, 0): 1} if plant.model == FIRST_FAULT else {}  # healthy, so that what comes after it shows
    while len(found) < count:
        high, low = 0, rng.getrandbits(32) if plant.model == FAULT_SET else rng.randint(0, 10**9)
        if plant.model == PAIR:
            high = rng.randint(0, 10**9)
        elif plant.model in WITH_OUT and rng.random() < 0.02:
            high, low = 1, 0
        found[high, low] = rng.choice([TOP32, 1]) if plant.model == FAULT_SET else 1
    return [(*words, w) for words, w in found.items()]


def long_plant(rng, knobs, model):
    """Rows near the bounds of 11 and 12: arms of 23 to 26 terms, results near 64, and a long result that becomes short."""
    plant = Plant(rng, knobs, model)
    manner = rng.choice(["arm", "arm", "result", "product", "running"])
    if manner == "arm":
        sizes = [rng.choice([23, 24, 25, 26, 40]), 1, 1, rng.randint(1, 3), rng.randint(1, 2)]
        rng.shuffle(sizes)
        for size in sizes:
            plant.add(distinct_states(rng, plant, size))
        plant.put(joined("B", rng.sample(range(5), 5)), {})
    elif manner == "result":
        least = 28 if model == FIRST_FAULT else 20
        sizes = [rng.randint(least, 40) for _ in range(rng.randint(2, 3))]
        for size in sizes:
            plant.add(distinct_states(rng, plant, size))
        letter = "S" if model == FIRST_FAULT else rng.choice("SL")  # first faults in parallel show none but those of the first
        plant.put(joined(letter, rng.sample(range(len(sizes)), len(sizes))), {})
    elif manner == "product":
        # so many and so many values far apart: as many sums as pairs of them
        x, y = rng.choice([(8, 8), (8, 8), (5, 13), (13, 5), (4, 16), (16, 4), (1, 64), (2, 32), (3, 21)])
        z = y + rng.choice([0, 0, 0, 1])
        one = [(step, 1) for step in range(x)]
        other = [(step * x, 1) for step in range(min(z, 64))]
        if plant.model == FAULT_SET:
            one, other = [(1 << p, 1) for p, _ in one], [(p << 20, 1) for p, _ in other]
        for values in (one, other):
            plant.add([(rng.choice([0, 7]) if model == PAIR else 0, p, w) for p, w in values])
        plant.put(joined(rng.choice("SL"), rng.sample(range(2), 2)), {})
    else:
        # the first two have up to 80 values, and what comes third may leave one of them
        sizes = rng.choice([(40, 40), (8, 8), (8, 9), (30, 34), (30, 36)])
        for size in sizes:
            plant.add(distinct_states(rng, plant, size))
        last = 5 if model == FIRST_FAULT else TOP32
        plant.add([(rng.choice([0, TOP32]) if model == PAIR else 0, rng.choice([0, last]), 1)])
        order = [0, 1, 2] if rng.random() < 0.6 else rng.sample(range(3), 3)
        plant.put(joined(rng.choice("SL"), order), {})
    return plant


def broken(rng, plant, file):
    """The file with one damage."""
    file = bytearray(file)
    records = [bytearray(record) for record in plant.records]
    k = rng.randrange(len(records))
    joins = [i for i, record in enumerate(records) if record[0] in b"SLB"]
    parts = [i for i, record in enumerate(records) if record[0] == 80]
    damage = rng.choice(
        "model count letter letter size size state state state many many none children children"
        " later used used used twice twice mixed mixed demands cut cut more more flip flip none_left".split()
    )
    if damage == "model":
        file[0] = rng.choice([0, max(MODELS) + 1, max(MODELS) + 2, 255, rng.randrange(256), rng.choice(list(MODELS))])
    elif damage == "count":
        file[1] = rng.choice([0, 1, 50, 255, file[1] - 1, (file[1] + 1) % 256, rng.randrange(256)])
    elif damage == "cut":
        near = rng.random() < 0.3
        del file[rng.choice([0, 1, 2, 3, 4]) if near else rng.randrange(len(file)) :]
    elif damage == "more":
        file += rng.choice([bytes(1), b"Q\x01" + bytes(8), rng.randbytes(rng.randint(1, 40)), bytes(60_000)])
    elif damage == "flip":
        file[rng.randrange(len(file))] = rng.choice([0, 1, 255, rng.randrange(256)])
    elif damage == "none_left":
        return bytes(file[: rng.choice([0, 1, 2])])
    else:
        if damage == "letter":
            records[k][0] = rng.choice(list(b"PSLBQ") + [0, 113, 255, rng.randrange(256)])
        elif damage == "size":
            records[k][1] = rng.choice([0, 1, 4, 5, 6, 16, 17, 64, 65, 255, (records[k][1] + 1) % 256, rng.randrange(256)])
        elif damage == "state":
            wrong(rng, plant.model, rng.choice(parts + [len(records) - 1]), records)
        elif damage == "demands":
            records[-1] = bytearray(needs([plant.performance() for _ in range(rng.choice([0, 15, 16, 17, 17, 255]))]))
        elif damage == "none":
            records[rng.choice(parts)] = bytearray(part([]))
        elif damage == "many":
            states = [(*plant.performance(), plant.weigh()) for _ in range(rng.choice([65, 66, 100, 255]))]
            i = rng.choice(parts)
            records[i] = bytearray(part(states))
            if rng.random() < 0.3:
                wrong(rng, plant.model, i, records)
        elif joins:
            i = rng.choice(joins)
            children = list(records[i][2:])
            letter = chr(records[i][0])
            if damage == "children":
                letter = rng.choice("SL") if rng.random() < 0.8 else letter
                count = rng.choice([0, 1, 9, 10, 64, 255])
                children = (children * 128)[:count] if rng.random() < 0.5 else list(range(count))
            elif damage == "later":
                children[rng.randrange(len(children))] = rng.choice([i, i + 1, 48, 49, 255, rng.randrange(256)])
            elif damage == "mixed":
                # two at once, to see which question is asked first
                wrongs = [rng.choice([i, 255]), rng.choice(plant.used or [0]), rng.choice(children)]
                for place in rng.sample(range(len(children)), min(2, len(children))):
                    children[place] = rng.choice(wrongs)
            elif damage == "used":
                children[rng.randrange(len(children))] = rng.choice(plant.used or [0])
            else:
                children[rng.randrange(len(children))] = rng.choice(children)
            records[i] = bytearray(joined(letter, children))
        return bytes([file[0], file[1]]) + b"".join(records)
    return bytes(file)


def wrong(rng, model, k, records):
    """Makes a state of part k, or a demand, one that the model may not hold."""
    record, size = records[k], 8 if records[k][0] == 81 else 16
    if len(record) < 2 + size:
        return
    at = 2 + size * rng.randrange((len(record) - 2) // size)
    high = rng.choice([0, 1, 1, 2, TOP32, 1 << rng.randrange(32)])
    if size == 16 and rng.random() < 0.5:
        struct.pack_into(">I", record, at + 8, high)
    elif rng.random() < 0.5:
        struct.pack_into(">I", record, at, high)
    else:
        struct.pack_into(">II", record, at, high, rng.choice([0, 1, TOP32]))


def generated(seed, number, knobs=Knobs()):
    """The file of this number."""
    rng = random.Random(f"{seed}/{number}")
    if rng.random() < 0.005:
        return rng.randbytes(rng.randint(0, 60))
    model = rng.choice(list(MODELS))
    if rng.random() < 0.001:
        # The program hands over 50,001 bytes, and within them the body of the last part is not all there.
        return file_of(model, [part([(0, 0, 1)] * 64)] * 47 + [part([(0, 0, 1)] * 255), needs([(0, 0)])])
    make = long_plant if rng.random() < 0.12 else sound_plant
    plant = make(rng, knobs, model)
    plant.needs()
    file = plant.file()
    if rng.random() < 0.45:
        file = broken(rng, plant, file)
        if rng.random() < 0.2 and len(file) > 2:
            file = bytearray(file)
            file[rng.randrange(len(file))] = rng.choice([0, 1, 2, 255, rng.randrange(256)])
    return bytes(file)


def with_knobs(arguments):
    arguments.add_argument("seed")
    arguments.add_argument("count", type=int)
    given = vars(Knobs())
    for name, value in given.items():
        arguments.add_argument("--" + name, type=int, default=value)
    return arguments


def knobs_of(chosen):
    return Knobs(**{name: getattr(chosen, name) for name in vars(Knobs())})


def main():
    arguments = with_knobs(argparse.ArgumentParser(description="generate model files"))
    arguments.add_argument("--into", type=pathlib.Path)
    chosen = arguments.parse_args()
    coverage = Coverage()
    for number in range(chosen.count):
        file = generated(chosen.seed, number, knobs_of(chosen))
        coverage.add(file, answer(file, Finder(5_000)))
        if chosen.into:
            chosen.into.mkdir(parents=True, exist_ok=True)
            (chosen.into / f"{chosen.seed}-{number}.model").write_bytes(file)
    print(coverage.table())


if __name__ == "__main__":
    main()
