#!/usr/bin/env python3
"""Times the path of a symbolic state of kb_frames beside what it gives.

States have so many terms, each the sum of the one before it and a variable, with one condition on the last; or so many conditions,
each on a comparison of its own. How many terms the path has is compared with what is expected. The time of a call is the mean of
many, less that of a run which only makes the state. Where the work is linear, the time a term is about the same in each line.

Usage: bench/paths.py [--runs N]
The first run takes as long as the proofs of kb_frames and the crates below it take, unless a checkout on this machine has kept
them.
"""

import argparse
import sys

from built import Program, with_main, with_those_below

CRATES = with_those_below("pathing: kb_blast kb_class kb_frames kb_picture kb_terms kb_world")

SOURCE = with_main("""\
//! Makes a state with so many terms or conditions, and gives its path so many times.
#![tactic(auto)]

ghost use Rattle.std.specs.Prelude.{◌≡◌, true};
ghost use Rattle.kb_terms.specs.Terms.{IsTerm};
ghost use Rattle.kb_blast.specs.Query.{AreConditions};

use kb_blast::can_blast;
use kb_class::MethodId;
use kb_frames::{SymState, start};
use kb_picture::{Init, Leaf, Origin, Path};
use kb_terms::{Op, Pool, TermId, VarKind};
use kb_world::link;
use std::alloc::{AllocError, AllocFailed, Global};
@USES@

@MAIN@

@STOP@

/// The words are what there is much of, how much, and how many calls there are.
fn answer(alloc: Global, words: &[String]) -> Result<Option<String>, Stop> {
    let [shape, size, times] = words else {
        return Ok(None);
    };
    let Ok(size) = size.as_str().parse::<u32>() else {
        return Ok(None);
    };
    let Ok(times) = times.as_str().parse::<u32>() else {
        return Ok(None);
    };
    let Ok(world) = link(alloc, Vec::new(alloc)) else {
        return Err(Stop);
    };
    let mut state = start(alloc, &world, MethodId(0), Init::Lazy)?;
    state.first_int(Origin::Arg(0), VarKind::Int)?;
    answered(alloc, &mut state, shape.as_str(), size, times)
}

fn answered(alloc: Global, state: &mut SymState, shape: &str, size: u32, times: u32) -> Result<Option<String>, Stop> {
    match shape {
        "terms" => add_chain(state, size)?,
        "conditions" => add_conditions(state, size)?,
        _ => return Ok(None),
    }
    if !can_blast(state.pool(), state.conditions()) {
        return Ok(None);
    }
    given(alloc, state, times)
}

/// A chain of sums, and a condition on the last.
fn add_chain(state: &mut SymState, size: u32) -> Result<(), Stop> {
    let mut term = TermId(0);
    for _ in 0..size {
        term = made(state, Op::Add, term, TermId(0))?;
    }
    let last = made(state, Op::Lt, term, TermId(0))?;
    condition(state, last)
}

fn add_conditions(state: &mut SymState, size: u32) -> Result<(), Stop> {
    for number in 0..size {
        let Ok(value) = i32::try_from(number) else {
            return Err(Stop);
        };
        let constant = state.constant(value)?;
        let term = made(state, Op::Lt, TermId(0), constant)?;
        condition(state, term)?;
    }
    Ok(())
}

fn condition(state: &mut SymState, term: TermId) -> Result<(), Stop> {
    if !is_term(state.pool(), term) {
        return Err(Stop);
    }
    state.add_condition(term, true)?;
    Ok(())
}

fn made(state: &mut SymState, op: Op, left: TermId, right: TermId) -> Result<TermId, Stop> {
    if !op.is_binary() {
        return Err(Stop);
    }
    if !is_term(state.pool(), left) {
        return Err(Stop);
    }
    if !is_term(state.pool(), right) {
        return Err(Stop);
    }
    Ok(state.make(op, left, Some(right))?)
}

fn is_term(pool: &Pool, term: TermId) -> bool
    ensures { result ≡ true → IsTerm pool.now term }
{
    (term.0 as usize) < pool.nodes().len()
}

/// How many terms the path has, which is made so many times.
fn given(alloc: Global, state: &SymState, times: u32) -> Result<Option<String>, Stop>
    requires { AreConditions state.now.nodes state.now.when }
{
    let mut count = 0;
    for _ in 0..times {
        let path = open_path(state)?;
        count = path.terms.as_slice().len();
    }
    Ok(Some(format!(in alloc; "terms {count}")?))
}

#[tactic(auto, using(crate::proofs::Roots::open_roots))]
fn open_path(state: &SymState) -> Result<Path, Stop>
    requires { AreConditions state.now.nodes state.now.when }
{
    match state.path(&[], Leaf::Open) {
        Ok(path) => Ok(path),
        Err(_) => Err(Stop),
    }
}
""", """\
        None => println!(rt; "unasked"),
        Some(text) => println!(rt; "{text}"),
""")

ROOTS = """\
-- What a path with an open leaf states are the terms of the conditions.
use Rattle.std.proofs.Common.{◌≡◌, List, [], ◌++◌, Bool, subst, sym, append-nil}
use Rattle.kb_terms.specs.declared.node.TermId.{TermId}
use Rattle.kb_terms.specs.declared.node.Node.{Node}
use Rattle.kb_terms.specs.Terms.{AreTerms}
use Rattle.kb_blast.specs.Query.{roots_of, is_comparison, AreConditions}
use Rattle.kb_blast.proofs.Pooled.{are-terms}

pub open_roots : (nodes : List Node) (when : List (TermId × Bool)) → AreConditions nodes when → AreTerms nodes (roots_of when ++ [])
open_roots nodes when h = subst (λ ts. AreTerms nodes ts) (sym (append-nil (roots_of when))) (are-terms nodes is_comparison (roots_of when) h)
"""

PROGRAM = Program(
    name="pathing",
    crates=CRATES,
    source=SOURCE,
    trial=["terms", "3", "1"],
    proofs={"proofs/Lib.antt": "pub mod Roots\n", "proofs/Roots.antt": ROOTS},
)

SIZES = [100, 1_000, 10_000, 100_000]
# terms of all calls together
WORK = 2_000_000


def expected(shape, size):
    """The last of the sums has a comparison on it; each condition is a comparison."""
    return size + 1 if shape == "terms" else size


def seconds_a_call(shape, size, runs):
    times = WORK // size
    words = [shape, str(size)]
    wanted = f"terms {expected(shape, size)}\n".encode()
    bare = min(PROGRAM.timed_run([*words, "0"], b"terms 0\n") for _ in range(runs))
    full = min(PROGRAM.timed_run([*words, str(times)], wanted) for _ in range(runs))
    return max(full - bare, 0) / times


def main():
    words = argparse.ArgumentParser(description="Times the path of a symbolic state.")
    words.add_argument("--runs", type=int, default=3, help="runs of each, of which the fastest counts (3)")
    options = words.parse_args()
    if options.runs < 1:
        sys.exit("--runs must be at least 1")
    PROGRAM.build(__file__)
    print(f"{'much of':<12} {'size':>8} {'us a path':>12} {'ns a term':>10}")
    for shape in ("terms", "conditions"):
        for size in SIZES:
            took = seconds_a_call(shape, size, options.runs)
            print(f"{shape:<12} {size:>8} {took * 1e6:>12.1f} {took * 1e9 / size:>10.1f}", flush=True)


if __name__ == "__main__":
    main()
