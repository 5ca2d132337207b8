#!/usr/bin/env python3
"""Times kb_blast's `blast` on chains of 10, 100, 1,000 and 10,000 terms, in a small and in a large pool.

A chain is v0, then + v1 again and again; the condition is that the last sum is below 0. The formula of a chain has 160
variables and 544 clauses for each sum and for the comparison. The large pool has 100,000 other terms, which no condition
names, so that its times are those of the small one where no other term is looked at. The programs of the repository that
blast conditions do more with them: `kiasan` solves them, and `term_rows` blasts each once. So the script builds a small
one of its own (built.py). The numbers of variables and clauses of each run are compared with those that are expected. The
time of a run that builds the pool alone is taken off. All times are processor times, the least of the runs.

Where `blast` is linear, the time per term is about the same in each line.

Usage: bench/blast.py [--runs N]
The first run takes as long as the proofs of kb_blast and the crates below it take, unless a checkout on this machine has
kept them.
"""

import argparse
import sys

from built import Program, with_main, with_those_below

SIZES = [10, 100, 1000, 10000]
POOLS = [("no other terms", 0), ("100,000 other terms", 100000)]
CRATES = with_those_below("blasting: kb_blast kb_terms")

SOURCE = with_main("""\
//! Builds a pool with a chain of sums and with other terms, blasts the condition that the last sum is below 0 so many
//! times, and prints how many variables and clauses its formula has.
#![tactic(auto)]

ghost use Rattle.std.specs.Prelude.{◌≡◌, true, IfOk};
ghost use Rattle.kb_terms.specs.Op.{is_binary};
ghost use Rattle.kb_terms.specs.Terms.{IsTerm};
ghost use Rattle.kb_blast.specs.Query.{AreConditions};

use kb_blast::{NoMemory, blast, can_blast};
use kb_terms::{Op, Pool, TermId, VarKind};
use std::alloc::Global;
@USES@

@MAIN@

/// The size of the last formula, if there is one.
fn answer(alloc: Global, words: &[String]) -> Result<Option<(u32, usize)>, NoMemory> {
    let [sums, others, times] = words else {
        return Ok(None);
    };
    let Ok(sums) = sums.as_str().parse::<u32>() else {
        return Ok(None);
    };
    let Ok(others) = others.as_str().parse::<u32>() else {
        return Ok(None);
    };
    let Ok(times) = times.as_str().parse::<u32>() else {
        return Ok(None);
    };
    let mut pool = Pool::new(alloc);
    let last = chain(&mut pool, Op::Add, sums)?;
    let zero = pool.constant(0)?;
    let below = pool.make(Op::Lt, last, Some(zero))?;
    chain(&mut pool, Op::Xor, others)?;
    let when = [(below, true)];
    if !can_blast(&pool, &when) {
        return Ok(None);
    }
    last_size(alloc, &pool, &when, times)
}

fn last_size(
    alloc: Global,
    pool: &Pool,
    when: &[(TermId, bool)],
    times: u32,
) -> Result<Option<(u32, usize)>, NoMemory>
    requires { AreConditions pool.now when.now }
{
    let mut size = None;
    for _ in 0..times {
        let blasted = blast(alloc, pool, when)?;
        size = Some((blasted.formula.vars(), blasted.formula.clauses().len()));
    }
    Ok(size)
}

/// Two new variables, and so many operations, each on the one before it and the second variable.
fn chain(pool: &mut Pool, op: Op, length: u32) -> Result<TermId, NoMemory>
    requires { is_binary op ≡ true }
    ensures { IfOk result (IsTerm pool.new) }
{
    let first = pool.variable(VarKind::Int)?;
    let second = pool.variable(VarKind::Int)?;
    let mut term = first;
    for _ in 0..length {
        term = pool.make(op, term, Some(second))?;
    }
    Ok(term)
}
""", """\
        None => println!(rt; "unblasted"),
        Some((variables, clauses)) => println!(rt; "{variables} {clauses}"),
""")

INVARIANT = """\
use Rattle.kb_terms.specs.Terms.{IsTerm}
use Rattle.blasting.proofs.chain.Given as goal

abbrev pub invariant-loop : goal.invariant-loop
invariant-loop l = IsTerm l.pool l.second × IsTerm l.pool l.term
"""

PROGRAM = Program(
    name="blasting",
    crates=CRATES,
    source=SOURCE,
    trial=["10", "0", "1"],
    proofs={"proofs/chain/Invariants.antt": INVARIANT, "proofs/Lib.antt": ""},
)


def size_of(sums):
    """The output for a chain of so many sums: variables and clauses."""
    parts = sums + 1
    return f"{1 + 64 + 160 * parts} {1 + 544 * parts + 1}\n".encode()


def timed(sums, others, times):
    wanted = size_of(sums) if times else b"unblasted\n"
    return PROGRAM.timed_run([str(sums), str(others), str(times)], wanted)


def measured(runs):
    """The least time of one call, by size and pool; the sizes and pools take turns."""
    cases = [(sums, others) for sums in SIZES for _, others in POOLS]
    building = {case: [] for case in cases}
    whole = {case: [] for case in cases}
    for _ in range(runs):
        for sums, others in cases:
            times = max(1, 2000 // sums)
            building[sums, others].append(timed(sums, others, 0))
            whole[sums, others].append(timed(sums, others, times))
    return {
        (sums, others): (min(whole[sums, others]) - min(building[sums, others])) / max(1, 2000 // sums)
        for sums, others in cases
    }


def print_table(title, others, times):
    print(title)
    print(f"{'terms':>10} {'clauses':>10} {'ms':>12} {'us/term':>10}")
    for sums in SIZES:
        took = times[sums, others]
        print(f"{sums:>10} {int(size_of(sums).split()[1]):>10} {took * 1e3:>12.3f} {took * 1e6 / sums:>10.2f}")


def main():
    words = argparse.ArgumentParser(description="Times `blast` on chains of several lengths.")
    words.add_argument("--runs", type=int, default=5, help="runs of each length and pool (5)")
    options = words.parse_args()
    if options.runs < 1:
        sys.exit("--runs must be at least 1")
    PROGRAM.build(__file__)
    times = measured(options.runs)
    for title, others in POOLS:
        print_table(title, others, times)


if __name__ == "__main__":
    main()
