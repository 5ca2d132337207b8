#!/usr/bin/env python3
"""Times `sample 6` and `sample 64` by the built program.

What each writes is compared with how many paths there must be: one for each way in which the comparisons of four ints can come out.
Times are of the processor, the least of several runs. That of a run without words, which is that of starting the program, is taken off.
From block 6 on each comparison stands among the conditions already, so both ask the same, and the second should take at most three
times the first.

With --beside the questions of an exploration are asked of MiniSat, where that is there (a package of Debian), in formulas of the
same gates in the same order (formulas.py). As in the program, the values at hand decide one side of a comparison, and the other side
is a question; the values at hand are those of MiniSat's last model on the way. Its time is that of all questions, less that of as many
runs on a formula of one clause. A sample in which MiniSat answers takes that and what the program takes for all but solving, by the
share that `valgrind --tool=callgrind` counts. The program should take at most three times as long.

With --shares the shares of solving, making formulas, copying states, texts, and replay in all instructions are printed. Texts are the
sample's own with its assembly, those of tests, written and read, and the line that is told.

Usage: bench/sample.py [--runs N] [--program FILE] [--beside] [--shares]
Build the program first, by running ./kiasan once.
"""

import shutil
import sys
import tempfile
from dataclasses import dataclass
from itertools import combinations, product
from pathlib import Path

from formulas import Formula
from replay import processor_seconds
from shares import COPYING, FORMULAS, SOLVING, part, print_both, shares_of

SIZES = [6, 64]
PAIRS = list(combinations(range(4), 2))
TEXT = r"kb_(?:sample|report_tests|test|test_lines|path_words|report|asm\w*|writer)"
TEXTS = part(rf"{TEXT}::|kiasan::sample::(?:sample_line|write_\w+)", rf"{TEXT}\+\+\w+")
REPLAY = part(r"kb_(?:replay|machine|stack|values|fits)::", r"kb_(?:replay|machine|stack|values|fits)\+\+\w+")
PARTS = {"solving": SOLVING, "making formulas": FORMULAS, "copying states": COPYING, "texts": TEXTS, "replay": REPLAY}


def ways():
    """How many ways there are for all comparisons of two of four ints to come out."""
    return len({tuple(ints[x] < ints[y] for x, y in PAIRS) for ints in product(range(4), repeat=4)})


def wanted(blocks):
    count = ways()
    return f"sample {blocks} paths {count} ended {count} cut 0 undecided 0 open 0 tests {count} passed {count}\n".encode()


@dataclass
class Times:
    """The seconds of each sample, without those of starting the program."""

    program: Path
    seconds: dict


def timed(program, words, status, text):
    took, ended, told = processor_seconds([str(program), *words])
    if (ended, told) != (status, text):
        sys.exit(f"{' '.join(words)}: status {ended}, {told!r}")
    return took


def print_times(program, _, runs):
    start = min(timed(program, [], 2, b"refused 90\n") for _ in range(runs))
    seconds = {size: min(timed(program, ["sample", str(size)], 0, wanted(size)) for _ in range(runs)) - start for size in SIZES}
    print(f"{'blocks':>6} {'least ms':>9} {'to the first':>13}")
    for size, took in seconds.items():
        print(f"{size:>6} {took * 1e3:>9.2f} {took / seconds[SIZES[0]]:>13.2f}")
    return Times(program, seconds)


# ---- MiniSat


@dataclass(frozen=True)
class Condition:
    """Whether the first of two arguments is below the second."""

    pair: tuple
    holds: bool

    def is_met(self, values):
        return (values[self.pair[0]] < values[self.pair[1]]) == self.holds


def formula_of(conditions):
    """The formula of conditions, and the bits of each argument that occurs in them."""
    formula = Formula()
    numbers = sorted({number for condition in conditions for number in condition.pair})
    bits = {number: formula.new_int() for number in numbers}
    tests = [formula.less(bits[condition.pair[0]], bits[condition.pair[1]]) for condition in conditions]
    formula.require_all(test if condition.holds else -test for test, condition in zip(tests, conditions))
    return formula, bits


def signed(bits):
    """The int of these bits, low bit first."""
    return sum(bit << place for place, bit in enumerate(bits)) - (bits[-1] << len(bits))


class MiniSat:
    """Questions that MiniSat answers, and how long it takes for them."""

    def __init__(self, runs):
        self.runs, self.seconds, self.questions = runs, 0.0, 0
        self.start = self.answer(Formula())[0]

    def answer(self, formula):
        """The least time of a formula, and the values of its variables, if there are some."""
        with tempfile.TemporaryDirectory() as folder:
            asked, told = Path(folder) / "asked.cnf", Path(folder) / "told"
            asked.write_text(formula.dimacs())
            took, status = min(processor_seconds(["minisat", str(asked), str(told)])[:2] for _ in range(self.runs))
            if status not in (10, 20):
                sys.exit(f"MiniSat ends with status {status}")
            words = told.read_text().split()
        return took, {int(word) for word in words[1:]} if status == 10 else None

    def values(self, conditions):
        """Ints that meet the conditions, or None. An argument of which nothing is asked is 0."""
        formula, bits = formula_of(conditions)
        took, true = self.answer(formula)
        self.seconds += max(took - self.start, 0)
        self.questions += 1
        if true is None:
            return None
        values = [signed([int(bit in true) for bit in bits[number]]) if number in bits else 0 for number in range(4)]
        if not all(condition.is_met(values) for condition in conditions):
            sys.exit(f"MiniSat gives {values}, which are not of {conditions}")
        return values


def paths_behind(solver, blocks, conditions, values):
    """How many paths there are behind these conditions, which the values meet, with so many blocks to come."""
    if not blocks:
        return 1
    pair, rest = blocks[0], blocks[1:]
    if any(condition.pair == pair for condition in conditions):
        return paths_behind(solver, rest, conditions, values)
    met = Condition(pair, values[pair[0]] < values[pair[1]])
    other = Condition(pair, not met.holds)
    others = solver.values([*conditions, other])
    found = paths_behind(solver, rest, [*conditions, met], values)
    return found + (paths_behind(solver, rest, [*conditions, other], others) if others else 0)


def print_beside(times, runs):
    if not shutil.which("minisat"):
        sys.exit("minisat is not there: install Debian's package minisat")
    print(f"{'blocks':>6} {'questions':>9} {'minisat ms':>10} {'with it ms':>10} {'ratio':>6}")
    for size, took in times.seconds.items():
        solver = MiniSat(runs)
        paths = paths_behind(solver, (PAIRS * size)[:size], [], [0] * 4)
        if paths != ways():
            sys.exit(f"MiniSat finds {paths} paths")
        _, shares = shares_of([times.program, "sample", str(size)], PARTS)
        beside = took * (1 - shares["solving"]) + solver.seconds
        print(f"{size:>6} {solver.questions:>9} {solver.seconds * 1e3:>10.2f} {beside * 1e3:>10.2f} {took / beside:>6.2f}")


def print_shares(program, _):
    for size in SIZES:
        whole, shares = shares_of([program, "sample", str(size)], PARTS)
        print(f"of {whole:,} instructions of sample {size}:")
        for name, share in shares.items():
            print(f"{name:>16} {share:>6.2%}")


if __name__ == "__main__":
    print_both(
        "Times the sample of 6 and of 64 blocks.",
        "solving, making formulas, copying, texts and replay",
        print_times,
        print_shares,
        beside=("beside a sample in which MiniSat answers", print_beside),
    )
