"""A table of what generated files reach: for each model, how many have a report and how many each fault."""

from collections import Counter

from files import FAULTS
from kinds import MODELS


class Coverage:
    def __init__(self):
        self.counts = Counter()

    def add(self, data, printed):
        """Counts a file and what is printed of it."""
        model = data[0] if data and data[0] in MODELS else "none"
        what = int(printed.split()[3]) if printed.startswith(b"fault") else "report"
        self.counts[model, what] += 1

    def table(self):
        columns = ["report"] + [number for number in FAULTS if any((m, number) in self.counts for m in self.models())]
        lines = ["model " + " ".join(f"{column:>6}" for column in columns)]
        for model in self.models() + ["all"]:
            cells = [self.count(model, column) for column in columns]
            lines.append(f"{model:<5} " + " ".join(f"{cell:>6}" for cell in cells))
        return "\n".join(lines)

    def models(self):
        return [*MODELS, "none"]

    def count(self, model, what):
        if model == "all":
            return sum(self.count(m, what) for m in self.models())
        return self.counts[model, what]
