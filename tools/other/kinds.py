"""The kinds of performance, the kinds of weight, and the models of a file, as docs/KINDS.md and docs/FILES.md tell them.

A value is a Python number, or a tuple of such; values are chosen so that Python's own order of them is the kind's order.
"""

TOP32 = 4294967295


def capped(number):
    return number if number < TOP32 else TOP32


class Flow:
    name = "flow"

    def series(self, v, w):
        return min(v, w)

    def parallel(self, v, w):
        return capped(v + w)

    def bridge(self, a, b, c, d, e):
        return min(capped(a + b), capped(d + e), capped(a + c + e), capped(b + c + d))

    def meets(self, v, w):
        return v >= w

    def of_words(self, high, low):
        return low if high == 0 else None

    def words(self, v):
        return (0, v)


class Delay(Flow):
    """Its two words are a flow's; never is TOP32."""

    name = "delay"

    def series(self, v, w):
        return capped(v + w)

    def parallel(self, v, w):
        return min(v, w)

    def bridge(self, a, b, c, d, e):
        return min(capped(a + d), capped(b + e), capped(a + c + e), capped(b + c + d))

    def meets(self, v, w):
        return v <= w and v != TOP32


class FaultSet(Flow):
    """Its two words are a flow's; bit i is class i."""

    name = "fault set"

    def series(self, v, w):
        return v | w

    def parallel(self, v, w):
        return v & w

    def bridge(self, a, b, c, d, e):
        return (a | d) & (b | e) & (a | c | e) & (b | c | d)

    def meets(self, v, w):
        return v & ~w == 0


class FirstFault(Flow):
    """Its two words are a flow's; 0 is healthy."""

    name = "first fault"

    def series(self, v, w):
        return w if v == 0 else v

    def parallel(self, v, w):
        return 0 if v == 0 or w == 0 else v

    def bridge(self, a, b, c, d, e):
        return through_paths(self, a, b, c, d, e)

    def meets(self, v, w):
        return v == 0 or v == w


class Grade(Flow):
    """A kind that no file has and only sequences of calls use: grades 0 to 9, a bridge by its paths."""

    name = "grade"

    def series(self, v, w):
        return min(v, w)

    def parallel(self, v, w):
        return max(v, w)

    def bridge(self, a, b, c, d, e):
        return through_paths(self, a, b, c, d, e)

    def of_words(self, high, low):
        return low if high == 0 and low <= 9 else None


def through_paths(kind, a, b, c, d, e):
    """A bridge by its paths a-d, b-e, a-c-e and b-c-d, each in series, joined in parallel in this order."""
    s, p = kind.series, kind.parallel
    return p(p(p(s(a, d), s(b, e)), s(s(a, c), e)), s(s(b, c), d))


class Pair:
    """Two kinds side by side; the order looks at the firsts, then at the seconds."""

    def __init__(self, first, second):
        self.first, self.second = first, second
        self.name = f"pair of {first.name} and {second.name}"

    def series(self, v, w):
        return (self.first.series(v[0], w[0]), self.second.series(v[1], w[1]))

    def parallel(self, v, w):
        return (self.first.parallel(v[0], w[0]), self.second.parallel(v[1], w[1]))

    def bridge(self, a, b, c, d, e):
        return (
            self.first.bridge(a[0], b[0], c[0], d[0], e[0]),
            self.second.bridge(a[1], b[1], c[1], d[1], e[1]),
        )

    def meets(self, v, w):
        return self.first.meets(v[0], w[0]) and self.second.meets(v[1], w[1])

    def of_words(self, high, low):
        return (high, low)

    def words(self, v):
        return v


OUT = (0,)  # less than every working value, which is (1, value)


class OrOut:
    """A kind with one more value, out: no service at all."""

    def __init__(self, kind):
        self.kind = kind
        self.name = f"{kind.name}-or-out"

    def series(self, v, w):
        if v == OUT or w == OUT:
            return OUT
        return (1, self.kind.series(v[1], w[1]))

    def parallel(self, v, w):
        if v == OUT:
            return w
        if w == OUT:
            return v
        return (1, self.kind.parallel(v[1], w[1]))

    def bridge(self, a, b, c, d, e):
        s, p = self.series, self.parallel
        if c == OUT:
            return p(s(a, d), s(b, e))
        if a == OUT:
            return s(b, p(e, s(c, d)))
        if b == OUT:
            return s(a, p(d, s(c, e)))
        if d == OUT:
            return s(p(s(a, c), b), e)
        if e == OUT:
            return s(p(a, s(b, c)), d)
        return (1, self.kind.bridge(a[1], b[1], c[1], d[1], e[1]))

    def meets(self, v, w):
        if v == OUT:
            return False
        return w == OUT or self.kind.meets(v[1], w[1])

    def of_words(self, high, low):
        if high == 0:
            return (1, low)
        return OUT if (high, low) == (1, 0) else None

    def words(self, v):
        return (1, 0) if v == OUT else (0, v[1])


class Parts:
    name = "parts"
    nothing = 0

    def sum(self, v, w):
        return capped(v + w)

    def product(self, v, w):
        return capped(v * w)


class WholeNumbers:
    """Parts without a cap; no file has them."""

    name = "whole numbers"
    nothing = 0

    def sum(self, v, w):
        return v + w

    def product(self, v, w):
        return v * w


class Scenarios:
    name = "scenarios"
    nothing = 0

    def sum(self, v, w):
        return v | w

    def product(self, v, w):
        return v & w


class Effort:
    name = "effort"
    nothing = TOP32

    def sum(self, v, w):
        return min(v, w)

    def product(self, v, w):
        return capped(v + w)


# The models: the number that a file begins with, what its performances are, and what its weights are. All else of tools/ goes by this table.
FLOW, DELAY, FAULT_SET, FIRST_FAULT, PAIR, FLOW_OR_OUT, DELAY_OR_OUT = range(1, 8)
MODELS = {
    FLOW: (Flow(), Parts()),
    DELAY: (Delay(), Parts()),
    FAULT_SET: (FaultSet(), Scenarios()),
    FIRST_FAULT: (FirstFault(), Parts()),
    PAIR: (Pair(Delay(), Flow()), Effort()),
    FLOW_OR_OUT: (OrOut(Flow()), Parts()),
    DELAY_OR_OUT: (OrOut(Delay()), Parts()),
}
WITH_OUT = [model for model, (kind, _) in MODELS.items() if isinstance(kind, OrOut)]
WITH_PARTS = [model for model, (_, weight) in MODELS.items() if isinstance(weight, Parts)]
UNCAPPED = {**MODELS, **{model: (MODELS[model][0], WholeNumbers()) for model in WITH_PARTS}}


def name_of(model):
    """As tables call it."""
    kind, weight = MODELS[model]
    return f"{kind.name}, {weight.name}"
