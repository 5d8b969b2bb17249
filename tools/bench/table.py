#!/usr/bin/env python3
"""Runs the programs in turn on the heavy model files, compares their reports, and prints the tables.

    python3 table.py PROGRAMS MODELS [TURNS]

PROGRAMS is a folder with the programs engine, plain, same, best and held, each linked twice, as engine-0 and engine-16; MODELS is the folder
that write.py wrote.
"""

import subprocess
import sys
from pathlib import Path

sys.path.insert(0, str(Path(__file__).resolve().parents[1] / "other"))
from kinds import DELAY_OR_OUT, FAULT_SET, FLOW, MODELS, PAIR, name_of
from write import ARM_SIZES, CHAIN_SIZES, MOST_ARM, TREE_SIZES

C_PROGRAMS = ("engine", "plain", "same", "best", "held")
LINKS = ("0", "16")  # how many bytes further the code lies
SECONDS = "0.1"  # a program calls for so long at least, and three times at least
# Begun by a shell, since a process inherits the peak of the one that it was before: a shell has less than any of these.
BY_SHELL = ["sh", "-c", '"$@"; exit $?', "sh"]


class Figures:
    """The best time in nanoseconds and the highest peak in KiB, for each file and program."""

    def __init__(self, programs, models, turns):
        self.programs, self.models, self.turns = programs, models, turns
        self.best, self.peak = {}, {}

    def run(self, name, program):
        file = str(self.models / f"{name}.model")
        if program == "python":
            return self.call(name, program, [sys.executable, str(Path(__file__).with_name("other.py")), file])
        reports = {self.call(name, program, [str(self.programs / f"{program}-{link}"), file, SECONDS]) for link in LINKS}
        if len(reports) > 1:
            sys.exit(f"the reports of {program} on {name} differ")
        return reports.pop()

    def call(self, name, program, command):
        printed = subprocess.run(BY_SHELL + command, check=True, stdout=subprocess.PIPE).stdout
        figures, report = printed.split(b"\n", 1)
        took, _, peak = map(int, figures.split())
        key = name, program
        self.best[key] = min(took, self.best.get(key, took))
        self.peak[program] = max(peak, self.peak.get(program, peak))
        if not report.startswith(b"need"):
            sys.exit(f"{program} has no report on {name}: {report.decode()}")
        return report

    def take(self, name, programs=C_PROGRAMS):
        """All programs on one file, in turn."""
        reports = {self.run(name, program) for _ in range(self.turns) for program in programs}
        if len(reports) > 1:
            sys.exit(f"the reports on {name} differ")
        return [self.best[name, program] for program in programs]


def line(*cells):
    print("| " + " | ".join(cells) + " |", flush=True)


def heading(title, *cells):
    print(f"\n{title}\n")
    line(*cells)
    line(*["---"] * len(cells))


def ms(nanoseconds):
    return f"{nanoseconds / 1e6:.4g}" if nanoseconds < 1e7 else f"{nanoseconds / 1e6:.1f}"


def ratios(figures, title, shape, size):
    heading(title, "kind, weight", "engine, ms", "plain C, ms", "same C, ms", "best C, ms", "held C, ms", "engine / plain", "engine / same", "engine / best", "engine / held")
    for model in MODELS:
        engine, *others = times = figures.take(f"{shape}-{model}-{size}")
        line(name_of(model), *map(ms, times), *(f"{engine / other:.2f}" for other in others))


def growth(figures, title, shape, sizes, count):
    """The engine's time for each size, and for each combination at the first and at the last; `count` tells how many there are."""
    heading(title, "kind, weight", *(str(size) for size in sizes), *(f"ns each at {size}" for size in (sizes[0], sizes[-1])))
    for model in MODELS:
        times = [figures.take(f"{shape}-{model}-{size}", ("engine",))[0] for size in sizes]
        each = [f"{times[i] / count(sizes[i]):.2f}" for i in (0, -1)]
        line(name_of(model), *map(ms, times), *each)


def beside_python(figures):
    heading("Beside Python", "file", "engine, ms", "Python, ms", "Python / engine")
    turns, figures.turns = figures.turns, 1
    for shape, size in (("bridge", 8), ("bridge", 12), ("eight-S", 64), ("chain", 48)):
        for model in (FLOW, FAULT_SET, PAIR, DELAY_OR_OUT):
            name = f"{shape}-{model}-{size}"
            engine, other = figures.take(name, ("engine", "python"))
            line(name, ms(engine), ms(other), f"{other / engine:.0f}")
    figures.turns = turns


def peaks(figures):
    heading("The most memory that a process had", "program", "KiB")
    for program, peak in figures.peak.items():
        line(program, str(peak))


def main():
    programs, models = map(Path, sys.argv[1:3])
    figures = Figures(programs, models, int(sys.argv[3]) if len(sys.argv) > 3 else 5)
    ratios(figures, f"One bridge, {MOST_ARM} terms an arm", "bridge", MOST_ARM)
    ratios(figures, "Eight parts in series, 64 terms each", "eight-S", 64)
    ratios(figures, "Eight parts in parallel, 64 terms each", "eight-L", 64)
    ratios(figures, f"A chain of {CHAIN_SIZES[-1]} nodes, 64 terms each", "chain", CHAIN_SIZES[-1])
    ratios(figures, "A tree with seven bridges, 38 nodes", "tree", TREE_SIZES[-1])
    growth(figures, "One bridge by the terms an arm, engine, ms", "bridge", ARM_SIZES, lambda size: size**5)
    growth(figures, "A chain by the number of nodes, engine, ms", "chain", CHAIN_SIZES, lambda size: 4096 * (size // 2))
    beside_python(figures)
    peaks(figures)


if __name__ == "__main__":
    main()
