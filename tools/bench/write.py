#!/usr/bin/env python3
"""Writes the heavy model files of the benchmark into a folder.

    python3 write.py FOLDER

Each file is named shape-MODEL-SIZE.model. The shapes:

bridge    one bridge; SIZE terms an arm
eight-S   eight parts in series; SIZE = 64 terms each, and in each running result
eight-L   the same in parallel
chain     parts joined one by one, in series and in parallel by turns; SIZE nodes altogether, 64 terms in each row
tree      five bridges of SIZE terms an arm, a bridge of these five, and beside that a bridge of 24 terms an arm; 38 nodes
"""

import sys
from pathlib import Path

sys.path.insert(0, str(Path(__file__).resolve().parents[1] / "other"))
from files import file_of, joined, needs, part
from kinds import DELAY, DELAY_OR_OUT, FAULT_SET, FLOW, FLOW_OR_OUT, MODELS, PAIR, TOP32

MOST_ARM, MOST_TERMS = 24, 64
ARM_SIZES = (8, 12, 16, 20, 24)
CHAIN_SIZES = (6, 12, 24, 48)
TREE_SIZES = (8, 12)
OUT = (1, 0)


def works(numbers):
    return [(0, n) for n in numbers]


def arm(model, arm_number, size, may_be_out):
    """The performances of an arm: dense and ascending, and no two alike."""
    if model == PAIR:
        return [(delay, flow) for delay in (0, TOP32) for flow in range(size // 2)]
    if model == FLOW_OR_OUT or model == DELAY_OR_OUT and may_be_out and arm_number < 3:
        return [OUT] + works(range(size - 1))
    # A delay-or-out keeps its last two arms working: with them out too, a way may lead through three arms, and the row is past 64 terms.
    return works(range(size))


def many(model, letter):
    """64 performances that are 64 again, however many lists of them are joined."""
    top = lambda some: list(range(TOP32 + 1 - some, TOP32 + 1))
    adds = {FLOW: "L", DELAY: "S", PAIR: "SL", FLOW_OR_OUT: "L", DELAY_OR_OUT: "S"}.get(model, "")
    capped = any(way in adds for way in letter)  # where numbers are added, they stand at the top, but for one
    if model == PAIR:
        flows = [0] + top(31) if "L" in letter else range(32)
        return [(delay, flow) for delay in (0, TOP32) for flow in flows]
    if model in (FLOW_OR_OUT, DELAY_OR_OUT):
        return [OUT] + works([0] + top(62) if capped else range(63))
    return works([0] + top(63) if capped else range(64))


def weight(model, part_number, i):
    if model == FAULT_SET:
        return (TOP32 << i % 3 & TOP32) >> part_number % 5
    if model == PAIR:
        return 10 + (i * 5 + part_number) % 9
    return 1 + (i * 7 + part_number) % 5


def part_of(model, part_number, performances):
    return part([(high, low, weight(model, part_number, i)) for i, (high, low) in enumerate(performances)])


def demands(model):
    return needs([(0, low) for low in (1, 10)])


def bridge_records(model, first, size, may_be_out=True):
    """Five parts and their bridge; the first has the number `first`."""
    parts = [part_of(model, k, arm(model, k, size, may_be_out)) for k in range(5)]
    return parts + [joined("B", range(first, first + 5))]


def bridge(model, size):
    return bridge_records(model, 0, size)


def eight(model, letter):
    performances = many(model, letter)
    return [part_of(model, k, performances) for k in range(8)] + [joined(letter, range(8))]


def chain(model, size):
    performances = many(model, "SL")
    records = [part_of(model, k, performances) for k in range(3)] + [joined("S", range(3))]
    while len(records) < size:
        k = len(records)
        records += [part_of(model, k, performances), joined("LS"[k // 2 % 2], [k - 1, k])]
    return records


def tree(model, size):
    records = []
    for k in range(5):
        records += bridge_records(model, len(records), size, may_be_out=k < 3)
    records.append(joined("B", range(5, 30, 6)))
    records += bridge_records(model, len(records), MOST_ARM)
    # Delays are joined in parallel, everything else in series: the other way round they would add up to more than 64.
    records.append(joined("L" if model in (DELAY, DELAY_OR_OUT) else "S", [30, 36]))
    return records


def write(folder, shape, model, size, records):
    (folder / f"{shape}-{model}-{size}.model").write_bytes(file_of(model, records + [demands(model)]))


def main():
    folder = Path(sys.argv[1])
    folder.mkdir(parents=True, exist_ok=True)
    for model in MODELS:
        for size in ARM_SIZES:
            write(folder, "bridge", model, size, bridge(model, size))
        for letter in "SL":
            write(folder, "eight-" + letter, model, MOST_TERMS, eight(model, letter))
        for size in CHAIN_SIZES:
            write(folder, "chain", model, size, chain(model, size))
        for size in TREE_SIZES:
            write(folder, "tree", model, size, tree(model, size))


if __name__ == "__main__":
    main()
