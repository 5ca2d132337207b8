#!/usr/bin/env python3
"""Times the replay of tests over heaps: lists of 16 nodes that are put into the other order, in files of several lengths, with
a world without string literals and with one of 10,000.

The methods are those of examples/replay/Node.java. The verdicts of each run are compared with those that are expected. The time
of a replay without tests is taken off. Where the work is linear, the time a test is about the same in each line of a table.

Usage: bench/heaps.py [--runs N] [--program FILE]
Build the program first, by running ./kiasan once.
"""

import struct
import sys
import tempfile
from pathlib import Path

from class_files import class_file
from replay import processor_seconds
from straight import ROOT, read_options, utf8

NODES = ROOT / "crates" / "kiasan_rows" / "data" / "Node.class"
LENGTH = 16
LITERALS = 10_000
COUNTS = [1250, 2500, 5000, 10000]
COUNTS_WITH_LITERALS = [25, 50, 100, 200]


def value(number):
    return f"i{number}" if 0 <= number < LENGTH else "null"


def test_text(seed):
    """A test of a list whose elements depend on its number."""
    nodes = range(LENGTH)
    lines = ["test Node.reversed(LNode;)LNode;", "bounds alloc 16 loops 1000 depth 16 steps 2000", "arg i0"]
    lines += [f"in i{i} Node {seed + i} {value(i + 1)}" for i in nodes]
    lines += [f"returns i{LENGTH - 1}"]
    lines += [f"out i{i} {seed + i} {value(i - 1)}" for i in nodes]
    return "\n".join(lines + ["end", ""])


def literals_class(count):
    """Class Bench with so many string literals."""
    entries = []
    for number in range(count):
        entries.append(utf8(f"text {number}"))
        entries.append(struct.pack(">BH", 8, 9 + 2 * number))
    return class_file(entries, [], [])


def verdicts(count):
    lines = "".join(f"test {number} passes\n" for number in range(count))
    return (lines + f"tests {count} passed {count} differed 0\n").encode()


def least_seconds(program, folder, classes, count, runs):
    tests = folder / "Bench.tests"
    tests.write_text("".join(test_text(number) for number in range(count)))
    seconds = []
    for _ in range(runs):
        took, status, text = processor_seconds([str(program), "replay", "--tests", str(tests), *classes])
        if status != 0 or text != verdicts(count):
            sys.exit(f"{count} tests: status {status}, not the verdicts that are expected: {text[:80]!r}")
        seconds.append(took)
    return min(seconds)


def print_table(title, options, folder, classes, counts):
    print(title)
    print(f"{'tests':>6} {'ms':>9} {'us a test':>10}")
    start = least_seconds(options.program, folder, classes, 0, options.runs)
    for count in counts:
        took = least_seconds(options.program, folder, classes, count, options.runs) - start
        print(f"{count:>6} {took * 1e3:>9.2f} {took * 1e6 / count:>10.1f}")


def main():
    options = read_options("Times the replay of tests over heaps.", "file of tests", 3)
    with tempfile.TemporaryDirectory() as name:
        folder = Path(name)
        words = folder / "Words.class"
        words.write_bytes(literals_class(LITERALS))
        print_table("Without literals", options, folder, [NODES], COUNTS)
        print_table(f"With {LITERALS} literals", options, folder, [NODES, words], COUNTS_WITH_LITERALS)


if __name__ == "__main__":
    main()
