#!/usr/bin/env python3
"""Refuses the built program one request for memory, each number in turn: a report, a replay and a sample. Each run must end with
status 8 and write nothing, or answer as the run without a refusal does, and write nothing to standard error.

A small library in C (refused_memory.c) stands before the program and counts. All numbers up to `--all` are tried, and behind them a
rising sequence, in which each is a 50th above the one before, up to the last request. With several workers which request has a number
may differ from run to run, so those runs show less.

Usage: bench/refused_memory.py [--program FILE] [--all N] [--jobs N] [CASE ..]
Build the program first, by running ./kiasan once. It needs a C compiler, `cc`, for a library that is made anew in a temporary folder.
"""

import argparse
import os
import subprocess
import sys
import tempfile
from concurrent.futures import ThreadPoolExecutor
from pathlib import Path

from needed import built_program

HERE = Path(__file__).resolve().parent
ROOT = HERE.parent
DATA = ROOT / "crates" / "kiasan_rows" / "data"
MEMORY = 8
CASES = {
    "report": ["explore", "--method", "Node.m(LNode;LNode;)I", "worked_node.class"],
    "replay": ["replay", "--tests", "swap.tests", "Node.class"],
    "replay_by_two": ["replay", "--workers", "2", "--tests", "swap_twice.tests", "Node.class"],
    "sample": ["sample", "6"],
    "assemble": ["assemble", "Whole.asm"],
}


def built_library(folder):
    library = folder / "refused_memory.so"
    subprocess.run(["cc", "-O2", "-shared", "-fPIC", "-o", library, HERE / "refused_memory.c"], check=True)
    return library


class Runs:
    """Runs of the program on the words of a case."""

    def __init__(self, options, folder, library, words):
        self.program, self.folder, self.library, self.words = options.program, folder, library, words

    def run(self, number):
        """The status, what was written, what was written to standard error, and how many requests there were."""
        told = self.folder / f"count{number}"
        told.unlink(missing_ok=True)
        environment = {"LD_PRELOAD": str(self.library), "REFUSE_AT": str(number), "REFUSE_COUNT": str(told)}
        ran = subprocess.run([self.program, *self.words], cwd=self.folder, env=environment, capture_output=True, timeout=300)
        count = int(told.read_text()) if told.is_file() else None
        told.unlink(missing_ok=True)
        return ran.returncode, ran.stdout, ran.stderr, count


def numbers_of(count, most):
    """The numbers that are tried, of so many requests."""
    numbers, number = list(range(1, min(count, most) + 1)), most
    while number < count:
        number = min(count, number + max(1, number // 50))
        numbers.append(number)
    return numbers


def fault_of(ran, whole):
    """What is wrong with a run, or None."""
    status, written, said, _ = ran
    if said:
        return f"wrote to standard error: {said[:80]!r}"
    if status == MEMORY:
        return f"status {MEMORY}, and {len(written)} bytes written" if written else None
    if (status, written) != whole:
        return f"status {status}, {len(written)} bytes written"
    return None


def try_case(options, folder, library, name, words):
    """Prints how many requests were refused, and how the runs ended. Returns whether all were as they must be."""
    runs = Runs(options, folder, library, words)
    status, written, said, count = runs.run(0)
    if said or count is None or status == MEMORY:
        sys.exit(f"{name}: without a refusal it ends with status {status}, {count} requests: {said[:80]!r}")
    numbers = numbers_of(count, options.all)
    with ThreadPoolExecutor(options.jobs) as pool:
        results = list(pool.map(runs.run, numbers))
    faults = [(number, fault) for number, ran in zip(numbers, results) if (fault := fault_of(ran, (status, written)))]
    ended = sum(ran[0] == MEMORY for ran in results)
    print(
        f"{name}: {count} requests, {len(numbers)} of them refused one at a time: {ended} ended with status {MEMORY},"
        f" {len(numbers) - ended} answered, {len(faults)} otherwise",
        flush=True,
    )
    for number, fault in faults[:20]:
        print(f"  request {number}: {fault}", flush=True)
    return not faults


def laid_out(folder):
    """The files of the cases, in one folder."""
    for file in (DATA / "worked_node.class", DATA / "Node.class", DATA / "swap.tests", DATA / "swap_twice.tests"):
        (folder / file.name).write_bytes(file.read_bytes())
    whole = ROOT / "crates" / "asm_rows" / "data" / "Whole.asm"
    (folder / whole.name).write_bytes(whole.read_bytes())


def read_options():
    words = argparse.ArgumentParser(description="Refuses the built program one request for memory, each number in turn.")
    words.add_argument("cases", nargs="*", metavar="CASE", help="of " + ", ".join(CASES))
    words.add_argument("--program", type=Path, default=ROOT / "build" / "kiasan", help="the built program")
    words.add_argument("--all", type=int, default=20_000, help="up to which number each is tried (20000)")
    words.add_argument("--jobs", type=int, default=os.cpu_count(), help="how many runs at once")
    options = words.parse_args()
    unknown = set(options.cases) - set(CASES)
    if unknown:
        words.error(f"no case: {' '.join(sorted(unknown))}")
    options.program = built_program(options.program)
    return options


def main():
    options = read_options()
    with tempfile.TemporaryDirectory() as name:
        folder = Path(name)
        library = built_library(folder)
        laid_out(folder)
        chosen = options.cases or list(CASES)
        good = [try_case(options, folder, library, case, CASES[case]) for case in chosen]
    sys.exit(0 if all(good) else 1)


if __name__ == "__main__":
    main()
