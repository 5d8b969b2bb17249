#!/usr/bin/env python3
"""Reads a model file from standard input and prints its report, or the line of its fault.

    python3 tools/other/analyse.py [--both] [--feasible N] [--uncapped] < FILE

--both      find each row by enumeration and by convolution where both can be done, and stop if they differ
--feasible  enumerate where there are at most N combinations (200,000), and go child by child beyond
--uncapped  print the true weights: parts are whole numbers, and nothing stops them at the top
"""

import argparse
import sys

from files import MOST_BYTES, answer
from kinds import MODELS, UNCAPPED
from rows import FEASIBLE, Finder


def main():
    arguments = argparse.ArgumentParser(description="print the report of a model file, or its fault")
    arguments.add_argument("--both", action="store_true")
    arguments.add_argument("--feasible", type=int, default=FEASIBLE)
    arguments.add_argument("--uncapped", action="store_true")
    chosen = arguments.parse_args()
    data = sys.stdin.buffer.read(MOST_BYTES)
    models = UNCAPPED if chosen.uncapped else MODELS
    sys.stdout.buffer.write(answer(data, Finder(chosen.feasible, chosen.both), models))


if __name__ == "__main__":
    main()
