"""Rows of drawings, found in two ways: by enumerating every combination, and by convolution from child to child.

A drawing is a number, that of a part, or a pair of a letter and drawings: S in series, L in parallel, B a bridge of the arms a to e.
A state is a pair of a performance and a weight, and a row a dictionary: performance to weight, none of them nothing.
"""

from itertools import product
from math import prod

LONGEST_ROW = 64
LONGEST_ARM = 24
FEASIBLE = 200_000  # combinations that one is ready to enumerate


class Disagreement(Exception):
    """The two ways have found two rows."""


def parts_beneath(drawing):
    """The numbers of the parts that stand in the drawing, each once."""
    if isinstance(drawing, int):
        return [drawing]
    found = []
    for child in drawing[1]:
        found += [part for part in parts_beneath(child) if part not in found]
    return found


def performance_of(kind, drawing, places):
    """A function: from the states that are picked, in the order of their places, to the performance of the drawing."""
    if isinstance(drawing, int):
        place = places[drawing]
        return lambda picked: picked[place][0]
    letter, children = drawing
    shown = [performance_of(kind, child, places) for child in children]
    if letter == "B":
        a, b, c, d, e = shown
        return lambda picked: kind.bridge(a(picked), b(picked), c(picked), d(picked), e(picked))
    join = kind.series if letter == "S" else kind.parallel

    def joined(picked):
        so_far = shown[0](picked)
        for child in shown[1:]:
            so_far = join(so_far, child(picked))
        return so_far

    return joined


def without_nothing(sums, weight):
    return {performance: w for performance, w in sums.items() if w != weight.nothing}


def row_of_states(weight, states):
    sums = {}
    for performance, w in states:
        sums[performance] = weight.sum(sums[performance], w) if performance in sums else w
    return without_nothing(sums, weight)


def how_many_combinations(drawing, states):
    return prod(len(states[part]) for part in parts_beneath(drawing))


def row_by_enumeration(kind, weight, drawing, states):
    """The row of all combinations: one state picked for each part beneath, whatever it weighs."""
    parts = parts_beneath(drawing)
    shown = performance_of(kind, drawing, {part: place for place, part in enumerate(parts)})
    times, plus = weight.product, weight.sum
    sums = {}
    for picked in product(*(states[part] for part in parts)):
        w = picked[0][1]
        for _, factor in picked[1:]:
            w = times(w, factor)
        performance = shown(picked)
        sums[performance] = plus(sums[performance], w) if performance in sums else w
    return without_nothing(sums, weight)


def row_by_convolution(weight, join, rows):
    """The row of all combinations of the rows, one term of each, or None if it has more than 64 terms."""
    times, plus, nothing = weight.product, weight.sum, weight.nothing
    sums = {}

    def pick(performances, w, left):
        if w == nothing:
            return True
        if left:
            return all(pick(performances + (p,), times(w, v) if performances else v, left[1:]) for p, v in left[0].items())
        performance = join(*performances)
        sums[performance] = plus(sums[performance], w) if performance in sums else w
        # A sum is nothing only if both weights are: what is too long stays too long.
        return len(sums) <= LONGEST_ROW

    return sums if pick((), None, rows) else None


def running_by_convolution(kind, weight, letter, rows):
    """The running results that join such rows; None stands for one that is too long, and ends the list."""
    if letter == "B":
        return [row_by_convolution(weight, kind.bridge, rows)]
    join = kind.series if letter == "S" else kind.parallel
    results, so_far = [], rows[0]
    for row in rows[1:]:
        so_far = row_by_convolution(weight, join, [so_far, row])
        results.append(so_far)
        if so_far is None:
            break
    return results


class Finder:
    """Finds running results: by enumeration while there are few combinations, and by convolution beyond.

    Where `both` is set, it does both where both can be done, and raises Disagreement if they differ.
    """

    def __init__(self, feasible=FEASIBLE, both=False):
        self.feasible, self.both = feasible, both
        self.enumerated = self.convolved = self.agreed = 0

    def running(self, kind, weight, letter, children, rows, states):
        """The running results of children, given their drawings and rows; None for one that is too long."""
        first = 5 if letter == "B" else 2
        by_steps = None
        results = []
        for length in range(first, len(children) + 1):
            drawing = (letter, children[:length])
            enumerable = how_many_combinations(drawing, states) <= self.feasible
            if by_steps is None and (self.both or not enumerable):
                by_steps = running_by_convolution(kind, weight, letter, rows)
            if enumerable:
                self.enumerated += 1
                result = row_by_enumeration(kind, weight, drawing, states)
                if len(result) > LONGEST_ROW:
                    result = None
                if self.both:
                    if result != by_steps[length - first]:
                        raise Disagreement(drawing)
                    self.agreed += 1
            else:
                self.convolved += 1
                result = by_steps[length - first]
            results.append(result)
            if result is None:
                break
        return results


def total(weight, row):
    so_far = weight.nothing
    for w in row.values():
        so_far = weight.sum(so_far, w)
    return so_far


def met(kind, weight, row, demand):
    return total(weight, {p: w for p, w in row.items() if kind.meets(p, demand)})
