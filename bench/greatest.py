#!/usr/bin/env python3
"""Runs explorations with the greatest settings together: all bounds at their highest, and as many paths, or as great a budget, as
their product allows. Each must end in a report (status 0 or 1) or, where memory runs out, in status 8 with nothing written; a run that
takes more than its processor time is ended and told as `over`.

For each it prints the status, the processor time, the most memory that the program had, the bytes of the report and its last line.

Usage: bench/greatest.py [--program FILE] [--seconds N] [--memory MIB] [--settings NAME ..] [METHOD ..]
Build the program first, by running ./kiasan once. METHOD picks the methods whose names have it in them.
"""

import argparse
import subprocess
import sys
import tempfile
from pathlib import Path

from hostile_files import limited
from needed import TIME, built_program, check_time
from straight import ROOT

sys.path.insert(0, str(ROOT / "examples" / "assemble"))
from sample import sample_text  # noqa: E402

DATA = ROOT / "crates" / "kiasan_rows" / "data"
BOUNDS = "--k 16 --array 16 --alloc 1024 --loops 1000 --depth 256 --steps 100000".split()
# the paths times the budget are at most 2,000,000
SETTINGS = {
    "paths": ["--paths", "100000", "--budget", "20"],
    "even": ["--paths", "1000", "--budget", "2000"],
    "budget": ["--paths", "20", "--budget", "100000"],
}
REPORT, PARTIAL, MEMORY = 0, 1, 8


def loop(name, step):
    """A method that takes its first argument a step on until it is the third one."""
    again = "\n".join(["iload 0", "iload 1", *step, "istore 0", "iload 0", "iload 2", "if_icmpne L0"])
    return f"method 0009 {name} (III)I 2 3\n:L0\n{again}\niload 0\nireturn\nend\n"


# class P: a loop whose products the solver must tell apart, and one over quotients
PRODUCTS = "class 0021 P java/lang/Object\n" + loop("products", ["imul"]) + loop("quotients", ["idiv", "iload 2", "iadd"])
METHODS = [
    ("A.f(II)I", ["A.class"]),
    ("Loop.spin()V", ["Loop.class"]),
    ("Sample.run(IIII)I", ["sample_64.class"]),
    ("Bits.ones(I)I", ["Bits.class"]),
    ("P.products(III)I", ["P.class"]),
    ("P.quotients(III)I", ["P.class"]),
    ("List.contains(I)Z", ["List.class"]),
    ("List.reverse(LList;)LList;", ["List.class"]),
    ("List.insert(LList;LList;)LList;", ["List.class"]),
    ("Search.contains(I)Z", ["Search.class"]),
    ("Search.insert(LSearch;)Z", ["Search.class"]),
    ("Search.rotate()LSearch;", ["Search.class"]),
    ("Queue.rotate()V", ["Queue.class", "Cell.class"]),
    ("Node.m(LNode;LNode;)I", ["worked_node.class"]),
]


class Runs:
    """Runs of the program in a folder of its own, with the class files that it makes itself."""

    def __init__(self, options, folder):
        self.options, self.folder, self.bad = options, folder, 0
        (folder / "P.asm").write_text(PRODUCTS)
        self.make("P.class", ["assemble", folder / "P.asm"])
        (folder / "sample.asm").write_text(sample_text(64))
        self.make("sample_64.class", ["assemble", folder / "sample.asm"])

    def make(self, name, words):
        with open(self.folder / name, "wb") as out:
            subprocess.run([self.options.program, *words], stdout=out, check=True)

    def file(self, name):
        made = self.folder / name
        return str(made if made.exists() else DATA / name)

    def run(self, target, files, settings):
        """Prints a line. A run is bad where it ended by a signal other than the one of its limit, or wrote what its status has not."""
        words = ["explore", "--method", target, *BOUNDS, *SETTINGS[settings], *map(self.file, files)]
        told, text = self.folder / "memory", self.folder / "stdout"
        timed = [TIME, "--quiet", "--format", "%U %S %M", "--output", str(told), str(self.options.program), *words]
        with open(text, "wb") as out, tempfile.TemporaryFile() as said:
            ran = subprocess.run(timed, stdin=subprocess.DEVNULL, stdout=out, stderr=said, preexec_fn=limited(self.options))
            wrote = said.tell()
        user, system, memory = told.read_text().splitlines()[-1].split()
        size, is_over = text.stat().st_size, ran.returncode > 128
        good = is_over or (ran.returncode in (REPORT, PARTIAL) and size > 0) or (ran.returncode == MEMORY and size == 0)
        self.bad += not good or wrote > 0
        status = "over" if is_over else f"status {ran.returncode}"
        cost = f"{float(user) + float(system):.1f} s, {int(memory) / 1024:.0f} MiB, {size / 1e6:.2f} MB"
        print(f"{target}, {settings}: {status}, {cost}; {self.last_line(text, size)}" + ("" if good else ": BAD"), flush=True)

    @staticmethod
    def last_line(text, size):
        with open(text, "rb") as told:
            told.seek(max(0, size - 200))
            lines = told.read().decode().splitlines()
        return lines[-1] if lines else "nothing"


def read_options():
    words = argparse.ArgumentParser(description="Runs explorations with the greatest settings together.")
    words.add_argument("methods", nargs="*", metavar="METHOD", help="a part of the name of a method")
    words.add_argument("--settings", nargs="*", default=list(SETTINGS), choices=list(SETTINGS), help="of " + ", ".join(SETTINGS))
    words.add_argument("--program", type=Path, default=ROOT / "build" / "kiasan", help="the built program")
    words.add_argument("--seconds", type=int, default=600, help="the most processor seconds of a run (600)")
    words.add_argument("--memory", type=int, default=4096, help="the most memory of a run, in MiB (4096)")
    options = words.parse_args()
    check_time()
    options.program = built_program(options.program)
    return options


def main():
    options = read_options()
    with tempfile.TemporaryDirectory() as name:
        runs = Runs(options, Path(name))
        for target, files in METHODS:
            if not options.methods or any(part in target for part in options.methods):
                for settings in options.settings:
                    runs.run(target, files, settings)
    sys.exit(1 if runs.bad else 0)


if __name__ == "__main__":
    main()
