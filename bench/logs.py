#!/usr/bin/env python3
"""Times the two checks of kb_chain, check_refutation and check_fresh, on logs of 1,000, 2,000, 4,000 and 8,000 entries.

The programs of the repository that check logs do it once, of logs that a search or a row has. So this script builds a small
one of its own (built.py), over kb_chain and kb_rows.
The program builds a formula and a log of one of four shapes, checks the log so many times, and prints the verdict,
which is compared with the one that is expected. The time of a run that builds both and checks nothing is taken off. All
times are processor times, the least of the runs, so that other work on the machine disturbs them little.

Where a check is linear, the time per entry is about the same in each line.

Usage: bench/logs.py [--runs N]
The first run takes as long as the proofs of kb_chain take, unless a checkout on this machine has kept them.
"""

import argparse
import sys
from dataclasses import dataclass

from built import Program, with_main, with_those_below

SIZES = [1000, 2000, 4000, 8000]
CRATES = with_those_below("logs: kb_chain")


@dataclass(frozen=True)
class Shape:
    """A formula and a log: the program's word for them, what they are, and how many checks a run makes."""

    word: str
    title: str
    unit: str
    checks: int


SHAPES = [
    Shape("refuted-units", "check_refutation: each entry is a unit clause, the last one empty", "entry", 100),
    Shape("refuted-chain", "check_refutation: one entry, whose chain shortens a clause step by step", "step", 500),
    Shape("fresh-pairs", "check_fresh: each entry has two literals", "entry", 40),
    Shape("fresh-units", "check_fresh: each entry is a unit clause", "entry", 40),
]

SOURCE = with_main("""\
//! Builds a formula and a log of the shape and the size that the words name, checks the log so many times, and prints
//! the last verdict.
#![tactic(auto)]

use kb_chain::{
    Chain, Clause, Formula, Lit, Log, NoMemory, Row, Verdict, check_fresh, check_refutation,
};
use std::alloc::Global;
@USES@

#[derive(Clone, Copy)]
enum Check {
    Refutation,
    Fresh,
}

/// A formula, a log over it, and how the log is checked.
#[derive(Drop)]
struct Case {
    formula: Formula,
    entries: Row<Chain>,
    check: Check,
}

@MAIN@

/// The last verdict, if there is one.
fn answer(alloc: Global, words: &[String]) -> Result<Option<Verdict>, NoMemory> {
    let [shape, size, times] = words else {
        return Ok(None);
    };
    let Ok(size) = size.as_str().parse::<u16>() else {
        return Ok(None);
    };
    let Ok(times) = times.as_str().parse::<u16>() else {
        return Ok(None);
    };
    let case = match shape.as_str() {
        "refuted-units" => refuted_units(alloc, size)?,
        "refuted-chain" => refuted_chain(alloc, size)?,
        "fresh-units" => fresh_units(alloc, size)?,
        "fresh-pairs" => fresh_pairs(alloc, size)?,
        _ => return Ok(None),
    };
    last_verdict(alloc, case, times)
}

fn last_verdict(alloc: Global, case: Case, times: u16) -> Result<Option<Verdict>, NoMemory> {
    let log = Log {
        entries: case.entries,
    };
    let mut verdict = None;
    for _ in 0..times {
        verdict = Some(match case.check {
            Check::Refutation => check_refutation(alloc, &case.formula, &log)?,
            Check::Fresh => check_fresh(alloc, &case.formula, &log)?,
        });
    }
    Ok(verdict)
}

/// The clauses (a b) and (a -b) for each i, and the entries (a).
fn fresh_units(alloc: Global, size: u16) -> Result<Case, NoMemory> {
    let mut formula = Formula::new(alloc, 2 * u32::from(size));
    let mut entries = Row::new(alloc);
    for i in 0..size {
        let a = 2 * i32::from(i) + 1;
        let b = a + 1;
        add(alloc, &mut formula, &[a, b])?;
        add(alloc, &mut formula, &[a, -b])?;
        let first = 2 * u32::from(i);
        entries.push(one_step(alloc, first, first + 2, first + 1)?)?;
    }
    Ok(Case {
        formula,
        entries,
        check: Check::Fresh,
    })
}

/// The clauses and entries of `fresh_units`, the clause (-a) for the last a, and the empty clause as the last entry.
fn refuted_units(alloc: Global, size: u16) -> Result<Case, NoMemory> {
    let mut case = fresh_units(alloc, size)?;
    add(alloc, &mut case.formula, &[1 - 2 * i32::from(size)])?;
    let pair = 2 * u32::from(size);
    let last = one_step(alloc, 3 * u32::from(size), pair.saturating_sub(1), pair)?;
    case.entries.push(last)?;
    case.check = Check::Refutation;
    Ok(case)
}

/// The clauses (a b c) and (a b -c) for each i, and the entries (a b).
fn fresh_pairs(alloc: Global, size: u16) -> Result<Case, NoMemory> {
    let mut formula = Formula::new(alloc, 3 * u32::from(size));
    let mut entries = Row::new(alloc);
    for i in 0..size {
        let a = 3 * i32::from(i) + 1;
        let b = a + 1;
        let c = b + 1;
        add(alloc, &mut formula, &[a, b, c])?;
        add(alloc, &mut formula, &[a, b, -c])?;
        let first = 2 * u32::from(i);
        entries.push(one_step(alloc, first, 3 * u32::from(i) + 3, first + 1)?)?;
    }
    Ok(Case {
        formula,
        entries,
        check: Check::Fresh,
    })
}

/// The clauses (-a) for each a, the clause of all a, and one entry, which resolves that one with each of the others.
fn refuted_chain(alloc: Global, size: u16) -> Result<Case, NoMemory> {
    let vars = u32::from(size);
    let mut formula = Formula::new(alloc, vars);
    let mut long = Vec::new(alloc);
    let mut steps = Row::new(alloc);
    for i in 0..size {
        let a = i32::from(i) + 1;
        add(alloc, &mut formula, &[-a])?;
        long.push(a)?;
        steps.push((u32::from(i) + 1, u32::from(i)))?;
    }
    add(alloc, &mut formula, long.as_slice())?;
    let mut entries = Row::new(alloc);
    entries.push(Chain { start: vars, steps })?;
    Ok(Case {
        formula,
        entries,
        check: Check::Refutation,
    })
}

/// Puts the clause of these DIMACS numbers behind the others, if it is within the variables.
fn add(alloc: Global, formula: &mut Formula, numbers: &[i32]) -> Result<(), NoMemory> {
    let mut literals = Vec::new(alloc);
    for number in numbers {
        if let Some(literal) = Lit::from_number(*number) {
            literals.push(literal)?;
        }
    }
    let clause = Clause::from_literals(alloc, literals.as_slice())?;
    if clause.is_within(formula.vars()) {
        formula.add(clause)?;
    }
    Ok(())
}

/// The chain of one step.
fn one_step(alloc: Global, start: u32, pivot: u32, side: u32) -> Result<Chain, NoMemory> {
    let mut steps = Row::new(alloc);
    steps.push((pivot, side))?;
    Ok(Chain { start, steps })
}
""", """\
        None => println!(rt; "unchecked"),
        Some(Verdict::Good) => println!(rt; "good"),
        Some(Verdict::Bad(number)) => println!(rt; "bad {number}"),
""")


PROGRAM = Program(name="logs", crates=CRATES, source=SOURCE, trial=[SHAPES[0].word, "10", "1"])


def timed_run(shape, size, checks):
    """The processor time of one run, whose verdict must be the one that is expected."""
    return PROGRAM.timed_run([shape.word, str(size), str(checks)], b"good\n" if checks else b"unchecked\n")


def measured(runs):
    """The least time of building and that of one check, by shape and size; the shapes and sizes take turns."""
    cases = [(shape, size) for shape in SHAPES for size in SIZES]
    building = {case: [] for case in cases}
    whole = {case: [] for case in cases}
    for _ in range(runs):
        for shape, size in cases:
            building[shape, size].append(timed_run(shape, size, 0))
            whole[shape, size].append(timed_run(shape, size, shape.checks))
    least = {case: min(seconds) for case, seconds in building.items()}
    return least, {case: (min(seconds) - least[case]) / case[0].checks for case, seconds in whole.items()}


def print_table(shape, building, checking):
    print(shape.title)
    per = f"us/{shape.unit}"
    print(f"{'size':>12} {'building ms':>12} {'check ms':>10} {per:>10} {'to the line above':>18}")
    before = None
    for size in SIZES:
        took = checking[shape, size]
        each = took / size
        ratio = f"{each / before:.2f}" if before and before > 0 else ""
        print(
            f"{size:>12} {building[shape, size] * 1e3:>12.2f} {took * 1e3:>10.3f}"
            f" {each * 1e6:>10.3f} {ratio:>18}"
        )
        before = each


def main():
    words = argparse.ArgumentParser(description="Times the two checks of kb_chain on logs of several sizes.")
    words.add_argument("--runs", type=int, default=10, help="runs of each shape and size (10)")
    options = words.parse_args()
    if options.runs < 1:
        sys.exit("--runs must be at least 1")
    PROGRAM.build(__file__)
    building, checking = measured(options.runs)
    for shape in SHAPES:
        print_table(shape, building, checking)


if __name__ == "__main__":
    main()
