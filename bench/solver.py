#!/usr/bin/env python3
"""Runs kb_dimacs and MiniSat side by side on formulas about ints of 32 bits.

For each family of bench/formulas.py and each of its sizes: what both say, how many clauses each learned (the conflicts that
each met), the processor time of each, their ratio in total and by learned clause, and the time of the check of our log beside
that of the solving. A run fails where the two disagree, or where the values of a satisfiable formula do not satisfy it.

What our log says is no measure of what was learned: a refutation has only the entries that it needs.

A run over the time limit counts as unknown.

Usage: bench/solver.py [--family NAME ..] [--budget N] [--limit SECONDS] [--runs N] [--program FILE] [-- MiniSat's options]
The program is built first, where it is not built or a source is newer.
"""

import argparse
import re
import resource
import shutil
import subprocess
import sys
import tempfile
from dataclasses import dataclass
from pathlib import Path

import formulas

ROOT = Path(__file__).resolve().parent.parent
PROGRAM = ROOT / "build" / "kb_dimacs"
SOURCES = ["kb_rows", "kb_chain", "kb_propagate", "kb_eliminate", "kb_heuristics", "kb_log_cut", "kb_sat", "kb_outside", "kb_dimacs_text", "kb_dimacs"]
SAMPLE = ROOT / "crates" / "kb_dimacs" / "stdin"

# exit statuses of the SAT competitions
ANSWERS = {10: "sat", 20: "unsat", 0: "unknown"}


@dataclass
class Run:
    """What a solver said of a formula."""

    answer: str
    learned: int
    seconds: float
    text: str


def is_built(program):
    """Whether the program is newer than each file that it is made of."""
    if not program.is_file():
        return False
    built = program.stat().st_mtime
    files = [ROOT / "crates.txt"]
    for crate in SOURCES:
        for folder in ["src", "specs", "proofs"]:
            files += (ROOT / "crates" / crate / folder).rglob("*.*")
    return all(file.stat().st_mtime <= built for file in files)


def build(program):
    """Proves and compiles the program, and keeps a copy of it."""
    print("building kb_dimacs, which proves it first; this takes as long as the proofs take", file=sys.stderr)
    crate = ROOT / "crates" / "kb_dimacs"
    built = crate / "out" / "kb_dimacs"
    built.unlink(missing_ok=True)
    with SAMPLE.open() as sample:
        ran = subprocess.run(["rt", "run", "--", "1000"], cwd=crate, stdin=sample, capture_output=True, text=True)
    if not built.is_file():
        sys.exit(f"kb_dimacs could not be built:\n{ran.stdout}{ran.stderr}")
    program.parent.mkdir(exist_ok=True)
    shutil.copy(built, program)


def processor_seconds():
    used = resource.getrusage(resource.RUSAGE_CHILDREN)
    return used.ru_utime + used.ru_stime


def timed(words, text, limit):
    """The processor seconds of one run, its exit status and what it wrote; a run over the limit answers nothing."""
    before = processor_seconds()
    try:
        run = subprocess.run(words, input=text, capture_output=True, text=True, timeout=limit)
        status, out = run.returncode, run.stdout
    except subprocess.TimeoutExpired:
        status, out = 0, ""
    return processor_seconds() - before, status, out


def number(pattern, out):
    """The number that the pattern finds, or 0."""
    found = re.search(pattern, out, re.MULTILINE)
    return int(found.group(1)) if found else 0


def we_learned(out):
    return number(r"^c conflicts (\d+)", out)


def minisat_learned(out):
    return number(r"^conflicts\s*:\s*(\d+)", out)


def least(words, text, learned, options):
    """The run that took least time; `learned` reads from its output how many clauses it learned."""
    took, status, out = min(timed(words, text, options.limit) for _ in range(options.runs))
    if status not in ANSWERS:
        sys.exit(f"{words[0]}: status {status}: {out}")
    return Run(ANSWERS[status], learned(out), took, out)


def satisfies(formula, text):
    """Whether the values that were written make every clause true."""
    words = " ".join(line[1:] for line in text.splitlines() if line.startswith("v")).split()
    values = {int(word) for word in words}
    whole = words[-1:] == ["0"] and len(values) == formula.variables + 1
    return whole and all(any(literal in values for literal in clause) for clause in formula.clauses)


def per_clause(ours, theirs):
    """The ratio of the times by learned clause, where neither had the luck of a model."""
    if ours.answer == "sat" or not ours.learned or not theirs.learned:
        return "-"
    return f"{ours.seconds / ours.learned / max(theirs.seconds / theirs.learned, 1e-9):.2f}"


def compare(formula, options):
    """Our run, MiniSat's, and the seconds of the check of our log."""
    text = formula.dimacs()
    words = [str(options.program), str(options.budget)]
    ours = least(words, text, we_learned, options)
    checked = least(words + ["check"], text, we_learned, options)
    with tempfile.NamedTemporaryFile("w", suffix=".cnf") as file:
        file.write(text)
        file.flush()
        theirs = least(["minisat", *options.minisat, file.name], None, minisat_learned, options)
    if "unknown" not in (ours.answer, theirs.answer) and ours.answer != theirs.answer:
        sys.exit(f"the answers are not the same: {ours.answer}, and MiniSat's {theirs.answer}")
    if ours.answer == "sat" and not satisfies(formula, ours.text):
        sys.exit("the values do not satisfy the formula")
    if checked.text and checked.answer != "sat" and "c log good" not in checked.text:
        sys.exit("the log is not good")
    return ours, theirs, max(checked.seconds - ours.seconds, 0)


def print_line(name, size, ours, theirs, check):
    ratio = ours.seconds / max(theirs.seconds, 1e-4)
    learned = "-" if ours.answer == "sat" else ours.learned
    print(
        f"{name:<22} {size:>4} {ours.answer:>7} {theirs.learned:>9} {learned:>8} {theirs.seconds:>9.3f}"
        f" {ours.seconds:>9.3f} {ratio:>7.2f} {per_clause(ours, theirs):>11} {check:>8.3f} {check / max(ours.seconds, 1e-4):>6.2f}",
        flush=True,
    )


def main():
    names = [family.__name__ for family, _ in formulas.FAMILIES]
    words = argparse.ArgumentParser(description="Runs kb_dimacs and MiniSat side by side.")
    words.add_argument("--family", choices=names, nargs="+", default=names, help="the families (all)")
    words.add_argument("--budget", type=int, default=1_000_000, help="the most entries of our log (1000000)")
    words.add_argument("--limit", type=float, default=300, help="the most seconds of a run (300)")
    words.add_argument("--runs", type=int, default=1, help="runs of each, of which the fastest counts (1)")
    words.add_argument("--program", type=Path, help="the built program (it is built where this is not given)")
    words.add_argument("minisat", nargs="*", help="MiniSat's options, behind --, such as -no-pre")
    options = words.parse_args()
    if not shutil.which("minisat"):
        sys.exit("minisat is not there: install Debian's package minisat")
    if not options.program:
        if not is_built(PROGRAM):
            build(PROGRAM)
        options.program = PROGRAM
    print(
        f"{'family':<22} {'size':>4} {'answer':>7} {'conflicts':>9} {'learned':>8} {'minisat s':>9}"
        f" {'ours s':>9} {'ratio':>7} {'per clause':>11} {'check s':>8} {'/ours':>6}"
    )
    total_ours = total_theirs = 0
    for family, sizes in formulas.FAMILIES:
        if family.__name__ not in options.family:
            continue
        for size in sizes:
            ours, theirs, check = compare(family(size), options)
            print_line(family.__name__, size, ours, theirs, check)
            total_ours += ours.seconds
            total_theirs += theirs.seconds
    print(f"in all: minisat {total_theirs:.3f} s, ours {total_ours:.3f} s, ratio {total_ours / max(total_theirs, 1e-4):.2f}")


if __name__ == "__main__":
    main()
