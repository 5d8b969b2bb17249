#!/usr/bin/env python3
"""Writes the vectors: chosen model files, each with what is to be printed of it.

    python3 tools/other/vectors.py FILE

The same bytes every time. For each model file there stand its length (4 bytes, the highest first) and its bytes, then the
length and the bytes of what is to be printed: the report, or the line of the fault. Prints what is covered.
"""

import argparse
import pathlib
import random

from coverage import Coverage
from files import MOST_BYTES, answer, entry, file_of, joined, needs, part
from generate import Knobs, generated
from kinds import DELAY, DELAY_OR_OUT, FAULT_SET, FIRST_FAULT, FLOW, FLOW_OR_OUT, MODELS, PAIR, TOP32, WITH_OUT
from rows import Finder

NEVER = TOP32
MOST_IN_ALL = 400_000


def flows(*pairs):
    """A part whose performances are one word each."""
    return part([(0, value, w) for value, w in pairs])


def alike(values, w=1):
    return flows(*((value, w) for value in values))


NEED = needs([(0, 3)])


def the_plant():
    yield file_of(
        FLOW,
        [
            flows((0, 1), (3, 9)),
            flows((0, 2), (2, 8)),
            joined("L", [0, 1]),
            flows((4, 7), (0, 3)),
            joined("S", [2, 3]),
            needs([(0, 3), (0, 5)]),
        ],
    )


def near_64_terms():
    """The first two children make 64 terms, or 72; what comes third does not help."""
    low, high = alike(range(8)), alike(range(0, 57, 8))
    higher = alike([*range(0, 57, 8), 64])
    sure = alike([TOP32])
    yield file_of(FLOW, [low, high, joined("L", [0, 1]), NEED])
    yield file_of(FLOW, [low, higher, joined("L", [0, 1]), NEED])
    yield file_of(FLOW, [low, higher, sure, joined("L", [0, 1, 2]), NEED])
    yield file_of(FLOW, [low, higher, sure, joined("L", [2, 0, 1]), NEED])
    yield file_of(FLOW, [low, higher, sure, joined("L", [0, 2, 1]), NEED])
    yield file_of(DELAY, [low, high, joined("S", [1, 0]), NEED])
    yield file_of(DELAY, [low, higher, joined("S", [1, 0]), NEED])
    yield file_of(FLOW_OR_OUT, [low, high, joined("L", [0, 1]), NEED])
    yield file_of(FLOW_OR_OUT, [low, part([(0, 8 * i, 1) for i in range(8)] + [(1, 0, 1)]), joined("L", [0, 1]), NEED])
    yield file_of(FLOW_OR_OUT, [part([(0, i, 1) for i in range(8)] + [(1, 0, 1)]), alike(range(1, 64, 9)), joined("L", [0, 1]), NEED])
    yield file_of(FAULT_SET, [alike([1 << i for i in range(8)]), alike([1 << i for i in range(8, 16)]), joined("S", [0, 1]), NEED])
    yield file_of(FAULT_SET, [alike([1 << i for i in range(8)]), alike([1 << i for i in range(8, 17)]), joined("S", [0, 1]), NEED])
    yield file_of(FIRST_FAULT, [alike(range(32)), alike([0, *range(100, 132)]), joined("S", [0, 1]), NEED])
    yield file_of(FIRST_FAULT, [alike(range(32)), alike([0, *range(100, 133)]), joined("S", [0, 1]), NEED])
    yield file_of(PAIR, [alike(range(8)), alike(range(0, 57, 8)), joined("L", [0, 1]), NEED])
    yield file_of(PAIR, [alike(range(8)), alike(range(0, 65, 8)), joined("L", [0, 1]), NEED])
    # Terms whose weights come to nothing are none: 72 performances, of which 64 weigh something.
    yield file_of(FLOW, [low, flows(*((8 * i, 0 if i == 4 else 1) for i in range(9))), joined("L", [0, 1]), NEED])


def bridges():
    """Arms with as many terms as may be, and with one more."""
    arms = [alike(range(24))] * 5
    bridge = joined("B", [0, 1, 2, 3, 4])
    yield file_of(FLOW, arms + [bridge, needs([(0, 20), (0, 46), (0, 47)])])
    yield file_of(DELAY, arms[:4] + [flows(*((i if i else NEVER, 1) for i in range(24))), bridge, NEED])
    yield file_of(FLOW_OR_OUT, arms[:4] + [part([(0, i, 1) for i in range(1, 24)] + [(1, 0, 5)]), bridge, NEED])
    for arm in range(5):
        longer = [alike([1])] * 5
        longer[arm] = alike(range(25))
        yield file_of(FLOW, longer + [bridge, NEED])
        longer[arm] = alike(range(24))
        yield file_of(FLOW, longer + [bridge, NEED])
    # 25 states of which one weighs nothing are 24 terms
    yield file_of(FLOW, [flows(*((i, i) for i in range(25)))] + [alike([1])] * 4 + [bridge, NEED])
    # five arms of 13 terms far apart: more than 64 results
    yield file_of(DELAY, [alike(13**i * j for j in range(3)) for i in range(5)] + [bridge, NEED])
    yield file_of(DELAY, [alike([13**i * j for j in range(13)]) for i in range(5)] + [bridge, NEED])
    yield file_of(DELAY, [alike([t]) for t in (1, 4, 10, 2, 9)] + [bridge, NEED])
    yield file_of(FIRST_FAULT, [alike([f]) for f in (0, 4, 0, 7, 0)] + [bridge, NEED])
    for model in MODELS:
        for order in ([0, 1, 2, 3, 4], [3, 1, 4, 0, 2]):
            sides = [[(0, 0, 3), (0, 1 << arm, 5)] for arm in range(5)]
            yield file_of(model, [part(side) for side in sides] + [joined("B", order), NEED])
    rng = random.Random("bridges")
    for model in MODELS:
        for _ in range(4):
            # of 32 classes each shows at arms of its own, and the other kinds take small numbers
            words = [rng.getrandbits(32) if model == FAULT_SET else rng.randint(0, 9) for _ in range(10)]
            sides = [[(rng.randint(0, 9) if model == PAIR else 0, word, w) for word, w in zip(words[arm::5], (3, 7))] for arm in range(5)]
            yield file_of(model, [part(side) for side in sides] + [bridge, needs([(0, words[0]), (0, 6)])])
    for model in WITH_OUT:
        # each set of arms may be out
        sides = [part([(1, 0, 1), (0, 3**arm, 10)]) for arm in range(5)]
        yield file_of(model, sides + [bridge, needs([(1, 0), (0, 0), (0, 4), (0, 200)])])
    never = [part([(1, 0, 1), (0, NEVER, 10), (0, arm, 7)]) for arm in range(5)]
    yield file_of(DELAY_OR_OUT, never + [bridge, needs([(1, 0), (0, NEVER)])])


def largest():
    states = [(0, 67 * i % 64, i * i + 1) for i in range(64)]
    yield file_of(FLOW, [part(states)] * 48 + [needs([(0, i * 4) for i in range(16)])])
    # every number of its report has ten digits: 3,328 bytes
    states = [(TOP32 - 64 + i, TOP32 - 3 * i, TOP32 - 64 + i) for i in range(64)]
    yield file_of(PAIR, [part(states), needs([(TOP32 - 1, TOP32 - 300)] * 16)])
    states = [(0, i, TOP32) for i in range(64)]
    yield file_of(DELAY, [part(states), needs([(0, i) for i in range(16)])])


def caps():
    """Sums and products at the top of 32 bits, and just below."""
    top = flows((TOP32, TOP32), (TOP32 - 1, 1), (1, 65536))
    for model in MODELS:
        for letter in "SL":
            yield file_of(model, [top, flows((1, 65536), (2, 65535), (0, 65537)), joined(letter, [0, 1]), needs([(0, TOP32), (0, 0)])])
            yield file_of(model, [alike([2**31]), alike([2**31 - 1]), alike([1, 2]), joined(letter, [0, 1, 2]), NEED])
        # a row without terms, and weights that only together come to nothing
        nothing = MODELS[model][1].nothing
        yield file_of(model, [flows((0, nothing)), needs([(0, 0), (0, TOP32)])])
        yield file_of(model, [flows((0, nothing)), flows((3, 1)), joined("S", [0, 1]), needs([(0, 0)])])
        yield file_of(model, [flows((0, 1), (3, 2)), flows((3, 4)), joined("S", [0, 1]), needs([(0, 0)])])
        yield file_of(model, [flows((0, TOP32 - 1), (0, 1), (0, 1), (2, nothing), (2, 5)), needs([(0, 0)])])
    yield file_of(PAIR, [part([(0, 0, 2**31)]), part([(0, 0, 2**31 - 1)]), joined("S", [0, 1]), NEED])
    yield file_of(DELAY_OR_OUT, [part([(1, 0, 1), (0, NEVER, 2), (0, 3, 4)]), needs([(1, 0), (0, NEVER), (0, 3), (0, 2)])])
    yield file_of(FLOW_OR_OUT, [part([(1, 0, 1), (0, 0, 2)]), needs([(1, 0), (0, 0)])])


def faults():
    """The edges of each question, and which is asked before which."""
    sure = alike([3])
    yield b""
    yield b"\x09"
    yield b"\x00"
    yield b"\x08\x02"
    yield b"\xff" * 40
    yield b"\x01"
    for count in (0, 1, 50, 255):
        yield bytes([FLOW, count]) + sure + NEED
    yield file_of(FLOW, [sure])
    for records in (2, 49):
        yield bytes([DELAY_OR_OUT, records])
        yield bytes([FLOW, records]) + b"P"
    for letter in b"Qpslb\x00\xff":
        yield file_of(FLOW, [bytes([letter]) + sure[1:], sure, NEED])
    for letter in b"PSLBq":
        yield file_of(FLOW, [sure, bytes([letter]) + NEED[1:]])
    for count in (0, 17, 255):
        yield file_of(FLOW, [sure, bytes([81, count]) + bytes(8 * count)])
    yield file_of(FLOW, [sure, bytes([81, 16]) + bytes(8 * 16)])
    for count in (0, 1, 4, 6, 8):
        yield file_of(FLOW, [sure] * 6 + [joined("B", range(count)), NEED])
    for count in (0, 1, 2, 8, 9, 12):
        for letter in "SL":
            yield file_of(FLOW, [sure] * 12 + [joined(letter, range(count)), NEED])
    for model in MODELS:
        for record in (1, 2):
            short = [alike([1] * 64)] * 2
            short[record - 1] = part([(0, 1, 1)] * (65 if record == 1 else 0))
            yield file_of(model, short + [NEED])
        for words in ((1, 1), (2, 0), (TOP32, 0), (1, 0)):
            yield file_of(model, [sure, part([(0, 0, 1), (*words, 1)]), NEED])
            yield file_of(model, [sure, needs([(0, 0), words])])
        for w in (TOP32, TOP32 + 1, 1 << 63):
            yield file_of(model, [part([(0, 0, w)]), NEED])
        yield file_of(model, [sure, NEED]) + b"\x00"
        yield file_of(model, [sure, sure, NEED]) + b"Q"
    for model in (FLOW, PAIR, FLOW_OR_OUT):
        # the value before the number of states, in a state past the 64th too
        yield file_of(model, [sure, part([(0, 0, 1)] * 254 + [(0, 0, TOP32 + 1)]), NEED])
        yield file_of(model, [sure, part([(0, 0, 1)] * 255), NEED])
        # children: which are no node, which are used, which are named twice, in this order
        for letter in "SLB":
            more = 3 if letter == "B" else 0
            six = [sure] * 7 + [joined("S", [0, 1])]
            for children in ([2, 8], [9, 2], [255, 2], [2, 2], [2, 0], [0, 0], [0, 8], [2, 7], [8, 8], [7, 7]):
                yield file_of(model, six + [joined(letter, children + [3, 4, 5][:more]), NEED])
    yield file_of(FLOW, [joined("S", [0, 1]), sure, sure, NEED])
    yield file_of(FLOW, [joined("S", [1, 2]), sure, sure, NEED])
    # what is left over is told before what cannot be collected; and a node that nobody uses is collected too
    wide = [alike(range(9)), alike(range(0, 64, 8)), alike([10 * i for i in range(9)])]
    yield file_of(FLOW, wide + [joined("L", [0, 2]), NEED]) + b"\x00"
    yield file_of(FLOW, wide + [joined("L", [0, 2]), sure, NEED])
    yield file_of(FLOW, wide + [sure, joined("S", [0, 1]), joined("L", [2, 3]), NEED])
    yield file_of(FLOW, [sure, sure, joined("S", [1, 0]), sure, NEED])
    yield file_of(FLOW, [sure, sure, joined("S", [1, 0]), sure, alike([1, 1, 0]), NEED])
    yield file_of(FLOW, [*the_chain()])
    # each place where a file may be cut
    plant = next(the_plant())
    for length in range(len(plant)):
        yield plant[:length]
    bridge = file_of(FLOW_OR_OUT, [sure] * 5 + [joined("B", range(5)), NEED])
    for length in range(90, len(bridge)):
        yield bridge[:length]


def the_chain():
    """48 nodes, each joined one the user of the one before."""
    yield alike([5])
    top = 0
    for k in range(1, 47, 2):
        yield alike([k % 7, 3])
        yield joined("SL"[k % 4 // 2], [top, k])
        top = k + 1
    yield alike([2])
    yield NEED


def chosen_at_random(seed, most=4):
    """Generated files: for each model some with a report, and some with each fault that is reached."""
    counts = {}
    for number in range(3_000):
        data = generated(seed, number, Knobs(nodes=12, states=6, demands=4, cost=2_000))
        if len(data) > 600:
            continue
        printed = answer(data, Finder(20_000))
        what = (data[:1], printed.split()[3] if printed.startswith(b"fault") else b"report")
        counts[what] = counts.get(what, 0) + 1
        if counts[what] <= (5 * most if what[1] == b"report" else most):
            yield data


def main():
    arguments = argparse.ArgumentParser(description="write the vectors")
    arguments.add_argument("file", type=pathlib.Path)
    path = arguments.parse_args().file
    coverage, finder = Coverage(), Finder(both=True)
    entries = {}  # each file once, in order
    for chapter in (the_plant(), near_64_terms(), bridges(), largest(), caps(), faults(), chosen_at_random("vectors")):
        for data in chapter:
            if data not in entries:
                assert len(data) <= MOST_BYTES
                entries[data] = answer(data, finder)
                coverage.add(data, entries[data])
    written = b"".join(entry(data, text) for data, text in entries.items())
    assert len(written) < MOST_IN_ALL, len(written)
    path.write_bytes(written)
    print(coverage.table())
    reports = coverage.count("all", "report")
    print(f"{len(entries)} files, {reports} reports, {len(entries) - reports} faults; {len(written)} bytes")
    print(f"longest report {max(len(text) for text in entries.values())}, longest file {max(len(data) for data in entries)}")


if __name__ == "__main__":
    main()
