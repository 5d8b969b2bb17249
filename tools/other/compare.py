#!/usr/bin/env python3
"""Holds the engine against this program, on generated files, byte for byte.

    python3 tools/other/compare.py SEED COUNT --command COMMAND     the program `analyse`, run for each file
    python3 tools/other/compare.py SEED COUNT --library LIBRARY     the C call, in a shared object
    python3 tools/other/compare.py SEED COUNT --vectors COMMAND     the program of crates/vectors, run once for all files
    python3 tools/other/compare.py SEED COUNT                       nothing but this program, its two ways held together

--feasible N   enumerate where there are at most N combinations (20,000), and go child by child beyond
--both         find each row both ways where both can be done
--from N       begin with file N
--save FILE    where the first file that differs is written (differs.model)
--nodes and the other knobs are those of generate.py

With a library each file is answered in outputs of the report's length, of one byte less, and of more; they are filled
beforehand, and all but the report has to be as it was. The last line says how it went; a difference ends with status 1.
"""

import argparse
import ctypes
import pathlib
import shlex
import subprocess
import sys

from coverage import Coverage
from files import MOST_BYTES, Fault, entry, report
from generate import generated, knobs_of, with_knobs
from rows import Disagreement, Finder


class Differs(Exception):
    """What was told, and what should have been."""


def expected(data, finder):
    """The report, or the fault."""
    try:
        return report(data, None, finder)
    except Fault as fault:
        return fault


def printed(answer):
    return answer.line() if isinstance(answer, Fault) else answer


class Program:
    """The program `analyse`: it hands over at most 50,001 bytes."""

    most = MOST_BYTES

    def __init__(self, command):
        self.command = shlex.split(command)

    def check(self, data, answer):
        ran = subprocess.run(self.command, input=data, stdout=subprocess.PIPE, check=False)
        if ran.stdout != printed(answer):
            raise Differs(f"told, with status {ran.returncode}:\n{ran.stdout!r}\nshould be:\n{printed(answer)!r}")


class Library:
    """The C call, which takes all bytes it is given."""

    most = None
    PATTERN = bytes((7 * i + 165) % 256 for i in range(5_000))

    def __init__(self, path):
        self.call = ctypes.CDLL(str(pathlib.Path(path).resolve())).vividlawn_analyse
        self.call.restype = ctypes.c_int64
        self.call.argtypes = [ctypes.c_char_p, ctypes.c_size_t, ctypes.c_void_p, ctypes.c_size_t]

    def check(self, data, answer):
        if isinstance(answer, Fault):
            for room in (4_000, 0):
                self.check_room(data, room, answer.packed(), b"")
        else:
            room = Fault(3, 255, 27).packed()
            for more in (0, 1, 1_000):
                self.check_room(data, len(answer) + more, len(answer), answer)
            self.check_room(data, len(answer) - 1, room, b"")
            self.check_room(data, 0, room, b"")

    def check_room(self, data, room, number, text):
        """The output has `room` bytes, but the memory more: what is past it has to stay too."""
        memory = ctypes.create_string_buffer(self.PATTERN, len(self.PATTERN))
        told = self.call(data, len(data), memory, room)
        if told != number:
            raise Differs(f"with room for {room} bytes the call answers {told}, and should answer {number}")
        if memory.raw != text + self.PATTERN[len(text) :]:
            raise Differs(f"with room for {room} bytes the output is other than it should be:\n{memory.raw[:4_000]!r}")


class Vectors:
    """The program of crates/vectors: it is handed all files with what is to be printed, and says itself what differs."""

    most = None

    def __init__(self, command):
        self.command = shlex.split(command)
        self.entries = []

    def check(self, data, answer):
        self.entries.append(entry(data, printed(answer)))

    def finish(self):
        ran = subprocess.run(self.command, input=b"".join(self.entries), check=False)
        if ran.returncode:
            sys.exit(1)


class Nothing:
    most = None

    def check(self, data, answer):
        pass


def with_engine(arguments, ways):
    """The options of a comparison: by which of these ways the engine is asked, and of which files."""
    other = arguments.add_mutually_exclusive_group()
    for name, way in ways.items():
        other.add_argument("--" + name, type=way, dest="engine", default=Nothing())
    arguments.add_argument("--feasible", type=int, default=20_000)
    arguments.add_argument("--from", type=int, default=0, dest="first")
    arguments.add_argument("--save", type=pathlib.Path, default=pathlib.Path("differs.model"))
    return arguments


def numbers(chosen):
    return range(chosen.first, chosen.first + chosen.count)


def main():
    arguments = with_knobs(argparse.ArgumentParser(description="compare the engine with this program"))
    with_engine(arguments, {"command": Program, "library": Library, "vectors": Vectors})
    arguments.add_argument("--both", action="store_true")
    chosen = arguments.parse_args()
    engine = chosen.engine
    finder = Finder(chosen.feasible, chosen.both or isinstance(engine, Nothing))
    coverage = Coverage()
    for number in numbers(chosen):
        data = generated(chosen.seed, number, knobs_of(chosen))
        try:
            answer = expected(data[: engine.most], finder)
            coverage.add(data, printed(answer))
            engine.check(data, answer)
        except (Differs, Disagreement) as difference:
            chosen.save.write_bytes(data)
            print(f"file {number} of seed {chosen.seed} differs, and is written to {chosen.save}")
            print(difference)
            sys.exit(1)
    print(coverage.table(), flush=True)
    if isinstance(engine, Vectors):
        engine.finish()
    print(f"rows enumerated: {finder.enumerated}, found child by child: {finder.convolved}, found alike in both ways: {finder.agreed}")
    print(f"{chosen.count} files, no difference")


if __name__ == "__main__":
    main()
