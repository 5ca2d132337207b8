#!/usr/bin/env python3
"""Times replays by 1, 2 and 4 workers, on 2 and on 4 processors, beside a program that knows no workers.

Five files of tests: 10,000 tests of lists of 16 nodes that are put into the other order, and 10,000 of arrays of 40 ints that are
sorted (methods of examples/replay/); 10,000 tests of ten instructions each; 1,000 tests of 2,000 instructions each; and 2,000
tests that make 1,000 objects of one class each: a name that all workers shared would have one count of owners for all of them. The verdicts of each run
are compared with those that are expected.

Times are those of the clock, the least of some runs. What is run stands apart from reading and writing: the time of the same
file is taken off whose tests are each ended by the bound on steps at their first instruction, as they state; of tests that make
objects that of the same text with that bound, whose tests differ, since its lines on objects take most of the reading. Speeds are to that of one
worker; `goal` is 0.8 for each worker that has a processor. With --before FILE the file is run by that program too, without
`--workers`, and the last column is its time to that of one worker.

Usage: bench/workers.py [--runs N] [--program FILE] [--before FILE]
Build the program first, by running ./kiasan once. On a machine of fewer processors some lines are left out.
"""

import argparse
import os
import struct
import subprocess
import sys
import tempfile
import time
from dataclasses import dataclass
from pathlib import Path

import heaps
import replay
from straight import ROOT, class_of

DATA = ROOT / "crates" / "kiasan_rows" / "data"
BUILT = ROOT / "build" / "kiasan"
WORKERS = (1, 2, 4)
PROCESSORS = (2, 4)
GOAL = 0.8
ITEMS = 40
OBJECTS = 1000

ILOAD_0, IFLE, NEW, POP, IINC, GOTO, IRETURN = 0x1A, 0x9E, 0xBB, 0x57, 0x84, 0xA7, 0xAC


PASS, DIFFER = 0, 10


@dataclass(frozen=True)
class Family:
    """Tests of one kind: how many, their class file, the text of the test of a number, and that of the test which ends at once."""

    name: str
    count: int
    classes: tuple
    text: object
    ended: object
    ended_status: int = PASS


def maker_class():
    """Class Bench, whose method makes as many objects of the class as it is told."""
    code = bytes([ILOAD_0, IFLE]) + struct.pack(">h", 13) + bytes([NEW]) + struct.pack(">H", 2)
    code += bytes([POP, IINC, 0, 0xFF, GOTO]) + struct.pack(">h", -11) + bytes([ILOAD_0, IRETURN])
    return class_of(code, "(I)I", 1, 1)


def list_text(number):
    return heaps.test_text(number)


def sort_text(number):
    """An array in falling order is sorted by the insertions of Sorts.sort."""
    values = [str(number + ITEMS - place) for place in range(ITEMS)]
    lines = ["test Sorts.sort([I)V", "bounds alloc 16 loops 1000 depth 16 steps 100000", "arg i0"]
    lines += [f"in i0 [I {' '.join(values)}", "returns", f"out i0 {' '.join(reversed(values))}", "end", ""]
    return "\n".join(lines)


def object_text(number):
    lines = ["test Bench.f(I)I", "bounds alloc 16 loops 1000 depth 16 steps 100000", f"arg {OBJECTS}", "returns 0"]
    lines += [f"new n{made} Bench" for made in range(OBJECTS)]
    return "\n".join([*lines, "end", ""])


def ended_at_once(text):
    """The test, but that its run ends at its first instruction: by the bound on steps, with the heap as it was."""
    lines = text.split("\n")
    kept = [line for line in lines if line.startswith(("test ", "arg ", "in ", "end"))]
    inputs = [line.split(" ") for line in lines if line.startswith("in ")]
    heap = [" ".join(["out", words[1], *words[3:]]) for words in inputs]
    bounds = next(line for line in lines if line.startswith("bounds ")).rpartition(" ")[0]
    return "\n".join([kept[0], f"{bounds} 1", *kept[1:-1], "past steps", *heap, kept[-1], ""])


def same_text_ended(text):
    """The test with all that it states, but that its run ends at its first instruction, so that it differs."""
    return text.replace("steps 100000", "steps 1")


def ended_verdicts(family):
    """What the file of tests that end at once comes to."""
    if family.ended_status == PASS:
        return heaps.verdicts(family.count)
    lines = "".join(f"test {number} differs\npast steps\n" for number in range(family.count))
    return (lines + f"tests {family.count} passed 0 differed {family.count}\n").encode()


def seconds_of(command, wanted, processors, runs):
    """The least time by the clock of a run on so many processors, whose status and text are as wanted."""
    status, text = wanted
    least = None
    for _ in range(runs):
        began = time.perf_counter()
        ran = subprocess.run(command, capture_output=True, preexec_fn=lambda: os.sched_setaffinity(0, range(processors)))
        took = time.perf_counter() - began
        if ran.returncode != status or ran.stdout != text:
            sys.exit(f"{command}: status {ran.returncode}, not the verdicts that are expected: {ran.stdout[:80]!r}")
        least = took if least is None else min(least, took)
    return least


def run_seconds(program, family, folder, words, processors, runs):
    """The time of what is run, reading and writing taken off."""
    took = []
    cases = [
        ("whole", lambda text: text, (PASS, heaps.verdicts(family.count))),
        ("ended", family.ended, (family.ended_status, ended_verdicts(family))),
    ]
    for name, change, wanted in cases:
        tests = folder / f"{name}.tests"
        tests.write_text("".join(change(family.text(number)) for number in range(family.count)))
        command = [program, "replay", "--tests", tests, *words, *family.classes]
        took.append(seconds_of([str(word) for word in command], wanted, processors, runs))
    return took[0] - took[1]


def print_family(family, options, folder):
    print(f"{family.name}, {family.count} tests")
    print(f"{'processors':>10} {'workers':>7} {'ms':>9} {'us a test':>10} {'speed':>6} {'goal':>5} {'before':>7}")
    for processors in PROCESSORS:
        if processors > os.cpu_count():
            continue
        before = run_seconds(options.before, family, folder, [], processors, options.runs) if options.before else None
        one = None
        for workers in WORKERS:
            took = run_seconds(options.program, family, folder, ["--workers", workers], processors, options.runs)
            one = one or took
            goal = GOAL * min(workers, processors) if workers > 1 else 1.0
            beside = f"{before / took:.2f}" if before and workers == 1 else ""
            each = took / family.count
            print(f"{processors:>10} {workers:>7} {took * 1e3:>9.1f} {each * 1e6:>10.1f} {one / took:>6.2f} {goal:>5.1f} {beside:>7}")


def families(folder):
    made = folder / "Bench.class"
    made.write_bytes(maker_class())
    folders = {length: folder / str(length) for length in (replay.SHORT, replay.LONGEST)}
    straight = {}
    for length, place in folders.items():
        place.mkdir()
        load = replay.Load(length, 0)
        (place / "Bench.class").write_bytes(replay.class_file(load.sums))
        straight[length] = (place / "Bench.class", load.sums)
    short, long = straight[replay.SHORT], straight[replay.LONGEST]
    return [
        Family("lists", 10_000, (DATA / "Node.class",), list_text, ended_at_once),
        Family("arrays", 10_000, (DATA / "Sorts.class",), sort_text, ended_at_once),
        Family("short", 10_000, (short[0],), lambda number: replay.test_text(number, short[1]), ended_at_once),
        Family("long", 1_000, (long[0],), lambda number: replay.test_text(number, long[1]), ended_at_once),
        Family("objects", 2_000, (made,), object_text, same_text_ended, DIFFER),
    ]


def main():
    options = argparse.ArgumentParser(description="Times replays by several workers.")
    options.add_argument("--runs", type=int, default=5, help="runs of each file")
    options.add_argument("--program", default=BUILT, help="the built program")
    options.add_argument("--before", help="a program that knows no --workers")
    options = options.parse_args()
    with tempfile.TemporaryDirectory() as name:
        folder = Path(name)
        for family in families(folder):
            print_family(family, options, folder)


if __name__ == "__main__":
    main()
