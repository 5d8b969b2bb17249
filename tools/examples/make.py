#!/usr/bin/env python3
"""Writes examples/*.model from the data below, and beside each its report, as the other program (tools/other) works it out: by
enumeration, and child by child. Nothing here is taken from the Rattle code. It prints the names of what it wrote.

    tools/examples/make.py           writes into examples/
    tools/examples/make.py FOLDER    writes into FOLDER
"""

import pathlib
import struct
import sys

sys.path.insert(0, str(pathlib.Path(__file__).resolve().parent.parent / "other"))

from files import answer
from kinds import DELAY, DELAY_OR_OUT, FAULT_SET, FIRST_FAULT, FLOW, FLOW_OR_OUT, PAIR, TOP32
from rows import Finder

OUT = "out"


def words(model, v):
    """The two words by which a performance is written: of a pair two numbers."""
    if v == OUT:
        return 1, 0
    return v if model == PAIR else (0, v)


# Nodes, in the order of their numbers: part(..) with a pair of performance and weight for each state, or series, parallel or
# bridge with the numbers of the children.


def part(*states):
    return "P", states


def series(*children):
    return "S", children


def parallel(*children):
    return "L", children


def bridge(*children):
    return "B", children


def written(model, nodes, demands):
    """The bytes of the model file."""

    def performance(v):
        return struct.pack(">II", *words(model, v))

    file = bytes([model, len(nodes) + 1])
    for letter, body in nodes:
        file += letter.encode() + bytes([len(body)])
        if letter == "P":
            file += b"".join(performance(v) + struct.pack(">Q", w) for v, w in body)
        else:
            file += bytes(body)
    return file + b"Q" + bytes([len(demands)]) + b"".join(map(performance, demands))


EXAMPLES = {
    # Two pumps in parallel, then a pipe in series: flow, and so many parts of a thousand. The plant of crates/worked.
    "plant": (
        FLOW,
        [
            part((0, 1), (3, 9)),
            part((0, 2), (2, 8)),
            parallel(0, 1),
            part((4, 7), (0, 3)),
            series(2, 3),
        ],
        [3, 5],
    ),
    # A network of roads between two towns, a bridge of five: minutes, where a road that is closed is never. In ten days.
    "roads": (
        DELAY,
        [
            part((20, 8), (45, 2)),
            part((25, 9), (TOP32, 1)),
            part((5, 7), (15, 3)),
            part((30, 10)),
            part((20, 6), (35, 3), (TOP32, 1)),
            bridge(0, 1, 2, 3, 4),
        ],
        [45, 50, 60, TOP32],
    ),
    # Two controllers of which one has to work, then a valve: which classes of fault show (bit 0 power, bit 1 signal, bit 2 stuck),
    # in which of eight scenarios.
    "controllers": (
        FAULT_SET,
        [
            part((0, 0b00001111), (0b001, 0b00110000), (0b011, 0b11000000)),
            part((0, 0b01010101), (0b010, 0b10101010)),
            parallel(0, 1),
            part((0, 0b01111110), (0b100, 0b10000001)),
            series(2, 3),
        ],
        [0, 0b010, 0b100, 0b110],
    ),
    # A tank and its sensors: which fault is met first, where a line is looked through from its source on.
    "first-alarm": (
        FIRST_FAULT,
        [
            part((0, 90), (7, 6), (2, 4)),
            part((0, 95), (5, 5)),
            part((0, 80), (3, 20)),
            series(0, 1),
            parallel(3, 2),
            part((0, 97), (9, 3)),
            series(4, 5),
        ],
        [0, 7, 9],
    ),
    # A job on one of two machines and then by hand: hours and pieces, at the least cost.
    "workshop": (
        PAIR,
        [
            part(((2, 40), 900), ((4, 40), 500), ((4, 25), 300)),
            part(((3, 30), 450), ((6, 35), 200), ((9, 10), TOP32)),
            parallel(0, 1),
            part(((1, 60), 350), ((5, 50), 100)),
            series(2, 3),
        ],
        [(4, 60), (8, 50), (3, 90)],
    ),
    # A ring of water mains, a bridge of five: litres, where a main may be shut, which is not the same as one that runs dry.
    "water-mains": (
        FLOW_OR_OUT,
        [
            part((OUT, 1), (0, 1), (8, 8)),
            part((OUT, 2), (6, 8)),
            part((OUT, 3), (2, 7)),
            part((5, 9), (0, 1)),
            part((OUT, 1), (9, 9)),
            bridge(0, 1, 2, 3, 4),
        ],
        [OUT, 0, 6, 12],
    ),
    # Three links to a depot, a line of two and one more, where a link may be down: milliseconds, and one that never answers.
    "links": (
        DELAY_OR_OUT,
        [
            part((OUT, 1), (10, 9)),
            part((12, 7), (40, 3)),
            series(0, 1),
            part((OUT, 2), (30, 7), (TOP32, 1)),
            parallel(2, 3),
        ],
        [OUT, 25, 30, TOP32],
    ),
    # Five valves in series, each open in 90 parts of a hundred. All open are 5904900000 of 10000000000: both are past the top, and
    # stop there; that not all are open are 4095100000, which is below.
    "valves": (FLOW, [part((1, 90), (0, 10))] * 5 + [series(0, 1, 2, 3, 4)], [1]),
    # The same with worn valves: all open are 102400000, which is true, of a total that is past the top.
    "worn-valves": (FLOW, [part((1, 40), (0, 60))] * 5 + [series(0, 1, 2, 3, 4)], [1]),
    # The first valves in tenths: nothing is past the top.
    "valves-in-tenths": (FLOW, [part((1, 9), (0, 1))] * 5 + [series(0, 1, 2, 3, 4)], [1]),
    # A pump that has power while one of two lines stands: no power (bit 0) or flooded (bit 1), in which of four storms.
    "storms": (
        FAULT_SET,
        [
            part((0, 0b0111), (0b01, 0b1000)),
            part((0, 0b0011), (0b01, 0b1100)),
            parallel(0, 1),
            part((0, 0b0101), (0b10, 0b1010)),
            series(2, 3),
        ],
        [0, 0b01, 0b10, 0b11],
    ),
    # A plant is restarted, first the boiler, then the line: hours until it runs and what it yields, at the least cost.
    "restart-costs": (
        PAIR,
        [
            part(((1, 60), 1150), ((2, 60), 900), ((4, 60), 400)),
            part(((1, 60), 400), ((3, 40), 200)),
            series(0, 1),
        ],
        [(4, 50), (5, 50), (1, 50)],
    ),
}


def main():
    here = pathlib.Path(__file__).resolve().parent
    folder = pathlib.Path(sys.argv[1]) if len(sys.argv) > 1 else here.parent.parent / "examples"
    for name, (model, nodes, demands) in EXAMPLES.items():
        file = written(model, nodes, demands)
        (folder / (name + ".model")).write_bytes(file)
        (folder / (name + ".report")).write_bytes(answer(file, Finder(both=True)))
        print(name)


if __name__ == "__main__":
    main()
