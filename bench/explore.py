#!/usr/bin/env python3
"""Times the exploration of methods with 2 to 12 comparisons of ints, by the built program.

The method takes one int more than it has comparisons. Each comparison is of two neighbours, adds 1 to a count where the first
is not below the second, and is a branch of its own, so that n comparisons make 2^n paths of n conditions each. Each report is
compared with how many paths there must be.

Times are of the processor. That of a method without comparisons is taken off, since it is that of starting the program. Where
the work is in proportion to the paths times their length, the time for a path and a condition grows only as the formulas of
the questions do.

Of the alternatives of a comparison the program asks about one, since the values at hand meet the other: 2^n - 1 questions in
all, of (n - 1) 2^n + 1 conditions together. The last column is the time for a condition that is asked about. Where a question
takes time in proportion to its conditions, and nothing else is paid, that column is the same in each line.

With --beside a plain path explorer lists the same paths through cvc5 and through z3, where these are installed (packages of
Debian). The solver is one process, which is told QF_BV. Each side of a branch is one question to it, by push, assert,
check-sat and pop; at the end of a path it is asked for the values of all arguments. Those must meet the path's conditions, and
2^n paths must come. An explorer that tried values first, as the program does, would ask half of that.
The processor time of the solver's process and that of the explorer, which is this script, stand apart, each less that of a
method without comparisons. Paths a second, and how many times that the program lists, are by the solver's process alone.

With --shares the exploration of 6 comparisons runs under `valgrind --tool=callgrind`, where that is there, and the shares of
copying states, of making formulas and of solving in all instructions are printed.

Usage: bench/explore.py [--runs N] [--program FILE] [--beside] [--shares]
Build the program first, by running ./kiasan once.
"""

import os
import re
import resource
import shutil
import struct
import subprocess
import sys
import time
from itertools import pairwise

from replay import wrapped
from shares import COPYING, FORMULAS, SOLVING, print_both, shares_of
from straight import class_of

SIZES = [2, 4, 6, 8, 10, 12]
SHARED = 6

ILOAD = 0x15
ISTORE = 0x36
IINC = 0x84
ICONST_0 = 0x03
IF_ICMPLT = 0xA1
IRETURN = 0xAC


def target(comparisons):
    return f"Bench.f({'I' * (comparisons + 1)})I"


def class_file(comparisons):
    """Class Bench with the static method f, which counts the neighbours among its arguments that do not rise."""
    count = comparisons + 1
    code = bytes([ICONST_0, ISTORE, count])
    for number in range(comparisons):
        # the branch goes over itself, of three bytes, and the iinc behind it, of three
        code += bytes([ILOAD, number, ILOAD, number + 1, IF_ICMPLT]) + struct.pack(">h", 6) + bytes([IINC, count, 1])
    code += bytes([ILOAD, count, IRETURN])
    return class_of(code, f"({'I' * count})I", 2, count + 1)


def words(program, comparisons, paths, file):
    bounds = ["--paths", str(paths), "--budget", "400"]
    return [str(program), "explore", "--method", target(comparisons), *bounds, str(file)]


def timed_run(program, comparisons, file):
    paths = 2**comparisons
    before = resource.getrusage(resource.RUSAGE_CHILDREN)
    run = subprocess.run(words(program, comparisons, paths, file), stdin=subprocess.DEVNULL, capture_output=True)
    after = resource.getrusage(resource.RUSAGE_CHILDREN)
    took = after.ru_utime + after.ru_stime - before.ru_utime - before.ru_stime
    last = run.stdout.decode().rstrip("\n").rpartition("\n")[2]
    if run.returncode != 0 or last != f"total {paths} ended {paths} cut 0 undecided 0 open 0":
        sys.exit(f"{comparisons} comparisons: status {run.returncode}, and the report ends with {last!r}")
    return took


def least_of(taken):
    """The least time of each size, less that of a method without comparisons."""
    return {size: min(taken[size]) - min(taken[0]) for size in SIZES}


def print_times(program, folder, runs):
    """Prints what the program takes, and gives the seconds of each size."""
    files = {size: folder / f"Bench{size}.class" for size in [0] + SIZES}
    for size, file in files.items():
        file.write_bytes(class_file(size))
    taken = {size: [] for size in files}
    for _ in range(runs):
        for size, file in files.items():
            taken[size].append(timed_run(program, size, file))
    seconds = least_of(taken)
    print(f"{'comparisons':>11} {'paths':>6} {'least ms':>10} {'paths/s':>9} {'us/path/condition':>18} {'us/asked':>9}")
    for size, whole in seconds.items():
        paths, asked = 2**size, (size - 1) * 2**size + 1
        rates = f"{paths / whole:>9.0f} {whole / paths / size * 1e6:>18.2f} {whole / asked * 1e6:>9.2f}"
        print(f"{size:>11} {paths:>6} {whole * 1e3:>10.2f} {rates}")
    return seconds


# ---- other solvers


SOLVERS = {"cvc5": ["cvc5", "--lang=smt2", "--incremental"], "z3": ["z3", "-smt2", "-in"]}


class Session:
    """A process of a solver that is told commands of SMT-LIB and answers."""

    def __init__(self, words):
        self.process = subprocess.Popen(words, stdin=subprocess.PIPE, stdout=subprocess.PIPE, text=True)

    def tell(self, *commands):
        self.process.stdin.write("".join(f"{command}\n" for command in commands))

    def answer(self):
        """The next answer: a line, or as many as close all brackets."""
        self.process.stdin.flush()
        text = self.process.stdout.readline()
        while text.count("(") > text.count(")"):
            text += self.process.stdout.readline()
        return text.strip()

    def ended(self):
        """Ends the process, and gives its processor time."""
        self.tell("(exit)")
        self.process.stdin.close()
        _, self.process.returncode, used = os.wait4(self.process.pid, 0)
        self.process.stdout.close()
        return used.ru_utime + used.ru_stime


def argument(number):
    return f"a{number}"


def begin(session, comparisons):
    session.tell("(set-option :produce-models true)", "(set-logic QF_BV)")
    session.tell(*(f"(declare-const {argument(number)} (_ BitVec 32))" for number in range(comparisons + 1)))


def paths_behind(session, comparisons, rises):
    """How many paths there are behind these truths of the first comparisons: whether an argument is below the next one."""
    if len(rises) == comparisons:
        check_values(session, rises)
        return 1
    return sum(paths_of_side(session, comparisons, [*rises, side]) for side in (False, True))


def paths_of_side(session, comparisons, rises):
    number = len(rises) - 1
    below = f"(bvslt {argument(number)} {argument(number + 1)})"
    session.tell("(push 1)", f"(assert {below if rises[-1] else f'(not {below})'})", "(check-sat)")
    told = session.answer()
    if told not in ("sat", "unsat"):
        sys.exit(f"a solver says {told!r}")
    paths = paths_behind(session, comparisons, rises) if told == "sat" else 0
    session.tell("(pop 1)")
    return paths


def check_values(session, rises):
    """Asks for the values of all arguments, which must be on the side that each comparison went to."""
    session.tell(f"(get-value ({' '.join(argument(number) for number in range(len(rises) + 1))}))")
    told = session.answer()
    values = [wrapped(int(f"0{text}", 0)) for text in re.findall(r"#([xb][0-9a-f]+)", told)]
    if [first < second for first, second in pairwise(values)] != rises:
        sys.exit(f"a solver gives the values {told!r}, which are not of the path {rises}")


def timed_exploration(words, comparisons):
    """The processor time of the solver's process and of this script."""
    start = time.process_time()
    session = Session(words)
    begin(session, comparisons)
    paths = paths_behind(session, comparisons, [])
    theirs = session.ended()
    if paths != 2**comparisons:
        sys.exit(f"{comparisons} comparisons: {words[0]} has {paths} paths")
    return theirs, time.process_time() - start


def print_solver(words, ours, runs):
    taken = {size: [] for size in [0] + SIZES}
    for _ in range(runs):
        for size in taken:
            taken[size].append(timed_exploration(words, size))
    theirs, script = (least_of({size: [pair[which] for pair in taken[size]] for size in taken}) for which in (0, 1))
    print(f"{'comparisons':>11} {'paths':>6} {'solver ms':>10} {'script ms':>10} {'paths/s':>9} {'ours':>6}")
    for size in SIZES:
        rates = f"{2**size / theirs[size]:>9.0f} {theirs[size] / ours[size]:>6.2f}"
        print(f"{size:>11} {2**size:>6} {theirs[size] * 1e3:>10.2f} {script[size] * 1e3:>10.2f} {rates}", flush=True)


def print_beside(ours, runs):
    for name, words in SOLVERS.items():
        if shutil.which(name):
            told = subprocess.run([name, "--version"], capture_output=True, text=True, check=True).stdout
            print(told.splitlines()[0])
            print_solver(words, ours, runs)
        else:
            print(f"{name} is not there")


def print_shares(program, folder):
    file = folder / "Shared.class"
    file.write_bytes(class_file(SHARED))
    patterns = {"copying states": COPYING, "making formulas": FORMULAS, "solving": SOLVING}
    whole, shares = shares_of(words(program, SHARED, 2**SHARED, file), patterns)
    print(f"of {whole:,} instructions with {SHARED} comparisons:")
    for name, share in shares.items():
        print(f"{name:>16} {share:>6.2%}")


if __name__ == "__main__":
    print_both(
        "Times the exploration of methods with comparisons of ints.",
        "copying, making formulas and solving",
        print_times,
        print_shares,
        beside=("list the same paths through cvc5 and z3", print_beside),
    )
