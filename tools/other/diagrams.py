"""A second model of a diagram: its calls, its refusals, and which nodes answer, as docs/DIAGRAM.md tells them.

It keeps what a history says, and no row: which nodes were made, the states last accepted, and when a node was last collected
and a part last restated. Rows are found anew for each question, from the states of the parts beneath.
"""

from rows import LONGEST_ARM, Finder, met, parts_beneath, row_of_states, total

MOST_NODES, MOST_STATES = 48, 64


class Refusal(Exception):
    def __init__(self, number):
        super().__init__(number)
        self.number = number


def ask(answer, number):
    if not answer:
        raise Refusal(number)


class Diagram:
    def __init__(self, kind, weight, finder=None):
        self.kind, self.weight, self.finder = kind, weight, finder or Finder()
        self.made = []  # for each node a part's number, or a letter and the numbers of the children
        self.states = {}
        self.restated, self.collected = {}, {}  # when last, by the clock
        self.clock = 0

    # What the questions look at

    def is_node(self, k):
        return k < len(self.made)

    def is_part(self, k):
        return isinstance(self.made[k], int)

    def is_used(self, k):
        return any(not isinstance(made, int) and k in made[1] for made in self.made)

    def drawing(self, k):
        if self.is_part(k):
            return k
        letter, children = self.made[k]
        return (letter, [self.drawing(child) for child in children])

    def answers(self, k):
        if self.is_part(k):
            return True
        return k in self.collected and all(self.restated[part] < self.collected[k] for part in parts_beneath(self.drawing(k)))

    def running(self, k):
        letter, children = self.made[k]
        rows = [self.row(child) for child in children]
        drawings = [self.drawing(child) for child in children]
        return self.finder.running(self.kind, self.weight, letter, drawings, rows, self.states)

    def row(self, k):
        return row_of_states(self.weight, self.states[k]) if self.is_part(k) else self.running(k)[-1]

    # The calls

    def take(self, states, k):
        self.clock += 1
        self.states[k], self.restated[k] = states, self.clock

    def add(self, states):
        k = len(self.made)
        ask(k < MOST_NODES, 2)
        ask(1 <= len(states) <= MOST_STATES, 3)
        self.made.append(k)
        self.take(states, k)
        return k

    def join(self, letter, children):
        k = len(self.made)
        ask(k < MOST_NODES, 2)
        ask(letter == "B" or 2 <= len(children) <= 8, 4)
        ask(all(self.is_node(child) for child in children), 5)
        ask(not any(self.is_used(child) for child in children), 6)
        ask(len(set(children)) == len(children), 7)
        self.made.append((letter, children))
        return k

    def restate(self, k, states):
        ask(self.is_node(k), 5)
        ask(self.is_part(k), 8)
        ask(1 <= len(states) <= MOST_STATES, 3)
        self.take(states, k)
        return len(self.row(k))

    def collect(self, k):
        ask(self.is_node(k), 5)
        ask(not self.is_part(k), 9)
        letter, children = self.made[k]
        ask(all(self.answers(child) for child in children), 10)
        ask(letter != "B" or all(len(self.row(child)) <= LONGEST_ARM for child in children), 11)
        results = self.running(k)
        ask(None not in results, 12)
        self.clock += 1
        self.collected[k] = self.clock
        return len(results[-1])

    def asked(self, k):
        ask(self.is_node(k), 5)
        ask(self.answers(k), 13)
        return self.row(k)

    def size(self, k):
        return len(self.asked(k))

    def term(self, k, i):
        row = sorted(self.asked(k).items())
        ask(i < len(row), 14)
        return row[i]

    def total(self, k):
        return total(self.weight, self.asked(k))

    def availability(self, k, demand):
        row = self.asked(k)
        return met(self.kind, self.weight, row, demand), total(self.weight, row)
