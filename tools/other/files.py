"""Model files: the questions, the faults and the report, as docs/FILES.md tells them; and how to write a file."""

import struct

from kinds import MODELS, TOP32
from rows import Finder, LONGEST_ARM, met, row_of_states, total

MOST_BYTES = 50_001  # what the program hands over of its input
NO_RECORD = 255
FILE, DIAGRAM, REPORT = 1, 2, 3
FAULTS = (21, 22, 23, 24, 26, 3, 4, 5, 6, 7, 25, 11, 12, 27)


class Fault(Exception):
    def __init__(self, layer, record, number):
        super().__init__(layer, record, number)
        self.layer, self.record, self.number = layer, record, number

    def line(self):
        return b"fault %d %d %d\n" % (self.layer, self.record, self.number)

    def packed(self):
        return -(self.layer * 65536 + self.record * 256 + self.number)


def ask(answer, layer, record, number):
    if not answer:
        raise Fault(layer, record, number)


def report(data, room=None, finder=None, models=MODELS):
    """The report on a file, or else a Fault is raised. `room` is how many bytes the output has; None for enough."""
    kind, weight, nodes, demands = read(data, models)
    row = collect(kind, weight, nodes, finder or Finder())
    text = written(kind, weight, row, demands)
    ask(room is None or len(text) <= room, REPORT, NO_RECORD, 27)
    return text


def answer(data, finder=None, models=MODELS):
    """What the program prints, given what it hands over."""
    try:
        return report(data, None, finder, models)
    except Fault as fault:
        return fault.line()


def read(data, models=MODELS):
    """The kind, the weight, the nodes and the demands of a file."""
    ask(len(data) > 0 and data[0] in models, FILE, NO_RECORD, 21)
    kind, weight = models[data[0]]
    ask(len(data) > 1 and 2 <= data[1] <= 49, FILE, NO_RECORD, 22)
    nodes, demands, end = read_records(data, kind)
    ask(end == len(data), FILE, NO_RECORD, 25)
    return kind, weight, nodes, demands


def read_records(data, kind):
    """The nodes, the demands, and where the records end. A node is a pair of a letter and states, or children."""
    at, last = 2, data[1] - 1
    nodes, used = [], set()
    for k in range(data[1]):
        ask(len(data) - at >= 2, FILE, k, 23)
        letter, count = chr(data[at]), data[at + 1]
        ask(letter == "Q" if k == last else letter in ("P", "S", "L", "B"), FILE, k, 23)
        ask({"B": count == 5, "Q": 1 <= count <= 16}.get(letter, True), FILE, k, 24)
        length = count * {"P": 16, "Q": 8}.get(letter, 1)
        body = data[at + 2 : at + 2 + length]
        ask(len(body) == length, FILE, k, 24)
        at += 2 + length
        if letter == "P":
            states = [(kind.of_words(high, low), w) for high, low, w in struct.iter_unpack(">IIQ", body)]
            ask(all(p is not None and w <= TOP32 for p, w in states), FILE, k, 26)
            ask(1 <= count <= 64, DIAGRAM, k, 3)
            nodes.append(("P", states))
        elif letter == "Q":
            demands = [kind.of_words(high, low) for high, low in struct.iter_unpack(">II", body)]
            ask(None not in demands, FILE, k, 26)
        else:
            children = list(body)
            ask(letter == "B" or 2 <= count <= 8, DIAGRAM, k, 4)
            ask(all(child < k for child in children), DIAGRAM, k, 5)
            ask(not used.intersection(children), DIAGRAM, k, 6)
            ask(len(set(children)) == count, DIAGRAM, k, 7)
            used.update(children)
            nodes.append((letter, children))
    return nodes, demands, at


def drawings_of(nodes):
    drawings = []
    for k, (letter, what) in enumerate(nodes):
        drawings.append(k if letter == "P" else (letter, [drawings[child] for child in what]))
    return drawings


def collect(kind, weight, nodes, finder):
    """The row of the last node, once every joined node is collected."""
    drawings, rows = drawings_of(nodes), []
    states = {k: what for k, (letter, what) in enumerate(nodes) if letter == "P"}
    for k, (letter, what) in enumerate(nodes):
        if letter == "P":
            rows.append(row_of_states(weight, what))
            continue
        below = [rows[child] for child in what]
        ask(letter != "B" or all(len(row) <= LONGEST_ARM for row in below), DIAGRAM, k, 11)
        children = [drawings[child] for child in what]
        results = finder.running(kind, weight, letter, children, below, states)
        ask(None not in results, DIAGRAM, k, 12)
        rows.append(results[-1])
    return rows[-1]


def written(kind, weight, row, demands, shown=lambda w: w):
    """The report on a row; `shown` is what is printed of a weight."""
    everything = shown(total(weight, row))
    lines = []
    for demand in demands:
        high, low = kind.words(demand)
        lines.append(b"need %d %d met %d of %d\n" % (high, low, shown(met(kind, weight, row, demand)), everything))
    for performance in sorted(row):
        high, low = kind.words(performance)
        lines.append(b"term %d %d %d\n" % (high, low, shown(row[performance])))
    return b"".join(lines)


def part(states):
    """The record of a part, from triples of two words and a weight."""
    return b"P" + bytes([len(states)]) + b"".join(struct.pack(">IIQ", *state) for state in states)


def joined(letter, children):
    return letter.encode() + bytes([len(children)]) + bytes(children)


def needs(demands):
    return b"Q" + bytes([len(demands)]) + b"".join(struct.pack(">II", *demand) for demand in demands)


def file_of(model, records):
    return bytes([model, len(records)]) + b"".join(records)


def entry(data, text):
    """An entry of vectors: a file and what is to be printed of it, each after its length."""
    return b"".join(struct.pack(">I", len(piece)) + piece for piece in (data, text))
