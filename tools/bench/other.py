#!/usr/bin/env python3
"""Times the second program, tools/other, on one model file, and prints what time.c prints.

    python3 other.py FILE

It goes child by child, which is the faster of its two ways.
"""

import resource
import sys
from pathlib import Path
from time import perf_counter_ns

sys.path.insert(0, str(Path(__file__).resolve().parents[1] / "other"))
from files import answer
from rows import Finder


def main():
    data = Path(sys.argv[1]).read_bytes()
    start = perf_counter_ns()
    report = answer(data, Finder(feasible=0))
    took = perf_counter_ns() - start
    print(took, 1, resource.getrusage(resource.RUSAGE_SELF).ru_maxrss, flush=True)
    sys.stdout.buffer.write(report)


if __name__ == "__main__":
    main()
