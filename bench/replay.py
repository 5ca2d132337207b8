#!/usr/bin/env python3
"""Times the replay of tests: of straight methods of several lengths, of files of several numbers of tests, and of files of up
to 10,000 tests of a short method, in a world of one class without literals and in one with 10,000 literals.

The method is that of bench/straight.py: iload_0, then iload_1 and iadd again and again, then ireturn. Each test has
arguments of its own, and the value that it states is computed here, as arithmetic on 32 bits. The verdicts of each run
are compared with those that are expected. The time of a replay without tests is taken off before the time per
instruction or per test is computed, since it is that of starting the program. Where the work is linear, that time is about
the same in each line of a table. A run over a world of many literals takes time for each of them, since its heap holds them.

Usage: bench/replay.py [--runs N] [--program FILE]
Build the program first, by running ./kiasan once.
"""

import resource
import subprocess
import sys
import tempfile
from dataclasses import dataclass
from pathlib import Path

from straight import TARGET, class_file, read_options

LENGTHS = [250, 500, 1000, 2000]
COUNTS = [250, 500, 1000, 2000, 4000]
LONGEST = 2000
FILES = [1250, 2500, 5000, 10000]
SHORT = 10
LITERALS = 10000


@dataclass(frozen=True)
class Load:
    """A file of so many tests of a method of so many instructions, in a world of so many literals."""

    instructions: int
    tests: int
    literals: int = 0

    @property
    def sums(self):
        return (self.instructions - 2) // 2

    @property
    def carried_out(self):
        return (2 * self.sums + 2) * self.tests


def wrapped(number):
    """The int of 32 bits that a whole number wraps to."""
    return (number + 2**31) % 2**32 - 2**31


def test_text(number, sums):
    """A test whose arguments depend on its number."""
    left = wrapped(number * 2654435761)
    right = wrapped(number * 40503 - 2**31)
    return (
        f"test {TARGET}\nbounds alloc 16 loops 10 depth 16 steps {LONGEST}\n"
        f"arg {left}\narg {right}\nreturns {wrapped(left + sums * right)}\nend\n"
    )


def tests_text(load):
    return "".join(test_text(number, load.sums) for number in range(load.tests))


def verdicts(load):
    lines = "".join(f"test {number} passes\n" for number in range(load.tests))
    return (lines + f"tests {load.tests} passed {load.tests} differed 0\n").encode()


def processor_seconds(command):
    """The processor time of a run, its exit status and what it wrote."""
    before = resource.getrusage(resource.RUSAGE_CHILDREN)
    run = subprocess.run(command, stdin=subprocess.DEVNULL, capture_output=True)
    after = resource.getrusage(resource.RUSAGE_CHILDREN)
    took = (after.ru_utime - before.ru_utime) + (after.ru_stime - before.ru_stime)
    return took, run.returncode, run.stdout


def least_seconds(program, folder, load, runs):
    """The least processor time of the runs of a load."""
    method = folder / "Bench.class"
    tests = folder / "Bench.tests"
    method.write_bytes(class_file(load.sums, load.literals))
    tests.write_text(tests_text(load))
    command = [str(program), "replay", "--tests", str(tests), str(method)]
    seconds = []
    for _ in range(runs):
        took, status, text = processor_seconds(command)
        if status != 0 or text != verdicts(load):
            sys.exit(f"{load}: status {status}, not the verdicts that are expected: {text[:80]!r}")
        seconds.append(took)
    return min(seconds)


def seconds_of_tests(program, folder, load, runs):
    """The processor time of a load's tests alone."""
    start = least_seconds(program, folder, Load(load.instructions, 0, load.literals), runs)
    return least_seconds(program, folder, load, runs) - start


def print_files(title, loads, program, folder, runs):
    print(title)
    print(f"{'literals':>12} {'tests':>6} {'ms':>9} {'us/test':>9} {'to the line above':>18}")
    before = None
    for load in loads:
        each = seconds_of_tests(program, folder, load, runs) / load.tests
        ratio = f"{each / before:.2f}" if before and before > 0 else ""
        print(f"{load.literals:>12} {load.tests:>6} {each * load.tests * 1e3:>9.2f} {each * 1e6:>9.2f} {ratio:>18}")
        before = each


def print_table(title, loads, program, folder, runs):
    print(title)
    print(f"{'instructions':>12} {'tests':>6} {'ms':>9} {'million a second':>17} {'ns/instr':>9}")
    for load in loads:
        took = seconds_of_tests(program, folder, load, runs)
        each = took / load.carried_out
        rate = 1e-6 / each if each > 0 else float("inf")
        print(f"{load.instructions:>12} {load.tests:>6} {took * 1e3:>9.2f} {rate:>17.1f} {each * 1e9:>9.1f}")


def main():
    options = read_options("Times the replay of tests of straight methods.", "file of tests", 5)
    with tempfile.TemporaryDirectory() as name:
        folder = Path(name)
        lengths = [Load(length, 1000) for length in LENGTHS]
        counts = [Load(LONGEST, count) for count in COUNTS]
        print_table("Methods of several lengths", lengths, options.program, folder, options.runs)
        print_table("Files of several numbers of tests", counts, options.program, folder, options.runs)
        for literals in [0, LITERALS]:
            files = [Load(SHORT, count, literals) for count in FILES]
            print_files(f"Files of short tests, {literals} literals", files, options.program, folder, options.runs)


if __name__ == "__main__":
    main()
