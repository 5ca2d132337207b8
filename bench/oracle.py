#!/usr/bin/env python3
"""Times `SolverOracle` from conditions to answer beside MiniSat on the same formula.

The queries go from a few comparisons of ints of 32 bits up to products and divisions. For each: what both say, how many
clauses the formula has, the processor time of `blast`, of the whole run of a program that makes the conditions and asks, and
of a run of MiniSat on their formula, which the same program writes. A run fails where an answer is not the one that is known
by hand. All times are processor times, the least of the runs; that of `blast` is the mean of several calls, less the time of
a run that only makes the conditions.

Usage: bench/oracle.py [--budget N] [--runs N] [-- MiniSat's options]
The first run takes as long as the proofs of kb_oracle and the crates below it take, unless a checkout on this machine has
kept them.
"""

import argparse
import shutil
import subprocess
import sys
import tempfile
from dataclasses import dataclass

from built import Program, processor_seconds, with_main, with_those_below

CRATES = with_those_below("asking: kb_blast kb_chain kb_oracle kb_terms")

SOURCE = with_main("""\
//! Makes conditions of words, and asks the solver's oracle about them, or blasts them so many times, or writes their formula.
#![tactic(auto)]

ghost use Rattle.std.specs.Prelude.{◌≡◌, ◌<◌, true};
ghost use Rattle.kb_terms.specs.Terms.{IsTerm};
ghost use Rattle.kb_blast.specs.Query.{AreConditions};

use kb_blast::{blast, can_blast};
use kb_chain::Formula;
use kb_oracle::{Answer, Oracle, OracleStop, SolverOracle};
use kb_terms::{Op, Pool, TermId, VarKind};
use std::alloc::{AllocError, AllocFailed, Global};
@USES@

@MAIN@

@STOP@

impl From<OracleStop> for Stop {
    fn from(_error: OracleStop) -> Stop {
        Stop
    }
}

/// The words are what to do, a number, how many variables there are, and conditions in postfix form.
fn answer(alloc: Global, words: &[String]) -> Result<Option<String>, Stop> {
    let [task, number, variables, tokens @ ..] = words else {
        return Ok(None);
    };
    let Ok(number) = number.as_str().parse::<u32>() else {
        return Ok(None);
    };
    let Ok(variables) = variables.as_str().parse::<u32>() else {
        return Ok(None);
    };
    let mut pool = Pool::new(alloc);
    let mut terms = Vec::new(alloc);
    for _ in 0..variables {
        terms.push(pool.variable(VarKind::Int)?)?;
    }
    let Some(when) = conditions(alloc, &mut pool, &terms, tokens)? else {
        return Ok(None);
    };
    if !can_blast(&pool, &when) {
        return Ok(None);
    }
    done(alloc, task.as_str(), number, &pool, &when)
}

fn done(alloc: Global, task: &str, number: u32, pool: &Pool, when: &[(TermId, bool)]) -> Result<Option<String>, Stop>
    requires { AreConditions pool.now when.now }
{
    match task {
        "ask" => asked(alloc, number, pool, when),
        "blast" => blasted(alloc, number, pool, when),
        "formula" => {
            let blasted = blast(alloc, pool, when)?;
            Ok(Some(dimacs(alloc, &blasted.formula)?))
        }
        _ => Ok(None),
    }
}

/// The oracle's answer within a budget.
fn asked(alloc: Global, budget: u32, pool: &Pool, when: &[(TermId, bool)]) -> Result<Option<String>, Stop>
    requires { AreConditions pool.now when.now }
{
    if budget == 0 {
        return Ok(None);
    }
    let mut oracle = SolverOracle::new(budget);
    let answer = oracle.ask(alloc, pool, when)?;
    Ok(Some(told(alloc, &answer)?))
}

/// What the answer is, and how many entries its log has.
fn told(alloc: Global, answer: &Answer) -> Result<String, Stop> {
    match answer {
        Answer::Model(_) => Ok(String::from_str(alloc, "model 0")?),
        Answer::Refuted(log) => Ok(format!(in alloc; "refuted {}", log.entries.as_slice().len())?),
        Answer::Undecided(log) => Ok(format!(in alloc; "undecided {}", log.entries.as_slice().len())?),
    }
}

/// How many clauses the formula has, which is made so many times.
fn blasted(alloc: Global, times: u32, pool: &Pool, when: &[(TermId, bool)]) -> Result<Option<String>, Stop>
    requires { AreConditions pool.now when.now }
{
    let mut clauses = 0;
    for _ in 0..times {
        let blasted = blast(alloc, pool, when)?;
        clauses = blasted.formula.clauses().len();
    }
    Ok(Some(format!(in alloc; "clauses {clauses}")?))
}

/// The formula in the DIMACS format.
fn dimacs(alloc: Global, formula: &Formula) -> Result<String, Stop> {
    let mut text = format!(in alloc; "p cnf {} {}", formula.vars(), formula.clauses().len())?;
    for clause in formula.clauses() {
        text.push_str("\\n")?;
        for literal in clause.literals() {
            let number = format!(in alloc; "{} ", literal.number())?;
            text.push_str(&number)?;
        }
        text.push_str("0")?;
    }
    Ok(text)
}

/// The conditions of tokens: variables, numbers, operations with two operands, and `true` or `false` behind a condition.
fn conditions(alloc: Global, pool: &mut Pool, variables: &[TermId], tokens: &[String]) -> Result<Option<Vec<(TermId, bool)>>, Stop> {
    let mut stack = Vec::new(alloc);
    let mut when = Vec::new(alloc);
    for token in tokens {
        let taken = match token.as_str() {
            "true" => stated(&mut stack, &mut when, true)?,
            "false" => stated(&mut stack, &mut when, false)?,
            word => put(pool, variables, &mut stack, word)?,
        };
        if !taken {
            return Ok(None);
        }
    }
    Ok(Some(when))
}

fn stated(stack: &mut Vec<TermId>, when: &mut Vec<(TermId, bool)>, truth: bool) -> Result<bool, Stop> {
    let Some(term) = stack.pop() else {
        return Ok(false);
    };
    when.push((term, truth))?;
    Ok(true)
}

/// Puts a variable or a number on the stack, or the operation on its last two terms in their place.
fn put(pool: &mut Pool, variables: &[TermId], stack: &mut Vec<TermId>, word: &str) -> Result<bool, Stop> {
    if let Some(op) = op_of(word) {
        return applied(pool, stack, op);
    }
    if let Some(name) = word.strip_prefix("v") {
        let Ok(number) = name.parse::<usize>() else {
            return Ok(false);
        };
        let Some(term) = variables.get(number) else {
            return Ok(false);
        };
        stack.push(*term)?;
        return Ok(true);
    }
    let Ok(number) = word.parse::<i32>() else {
        return Ok(false);
    };
    let term = pool.constant(number)?;
    stack.push(term)?;
    Ok(true)
}

fn applied(pool: &mut Pool, stack: &mut Vec<TermId>, op: Op) -> Result<bool, Stop> {
    let Some(right) = stack.pop() else {
        return Ok(false);
    };
    let Some(left) = stack.pop() else {
        return Ok(false);
    };
    let Some(term) = made(pool, op, left, right)? else {
        return Ok(false);
    };
    stack.push(term)?;
    Ok(true)
}

fn made(pool: &mut Pool, op: Op, left: TermId, right: TermId) -> Result<Option<TermId>, Stop> {
    if !op.is_binary() {
        return Ok(None);
    }
    if !is_term(pool, left) {
        return Ok(None);
    }
    if !is_term(pool, right) {
        return Ok(None);
    }
    Ok(Some(pool.make(op, left, Some(right))?))
}

fn is_term(pool: &Pool, term: TermId) -> bool
    ensures { result ≡ true → IsTerm pool.now term }
{
    (term.0 as usize) < pool.nodes().len()
}

fn op_of(word: &str) -> Option<Op> {
    match word {
        "add" => Some(Op::Add),
        "sub" => Some(Op::Sub),
        "mul" => Some(Op::Mul),
        "div" => Some(Op::Div),
        "rem" => Some(Op::Rem),
        "and" => Some(Op::And),
        "eq" => Some(Op::Eq),
        "lt" => Some(Op::Lt),
        _ => None,
    }
}
""", """\
        None => println!(rt; "unasked"),
        Some(text) => println!(rt; "{text}"),
""")

PROGRAM = Program(
    name="asking",
    crates=CRATES,
    source=SOURCE,
    trial=["ask", "1000", "1", "v0", "0", "lt", "true"],
    proofs={},
)


def between(variable, low, high):
    return f"{low} {variable} lt true {variable} {high} lt true"


def circle(size, step):
    """Each variable is below the next by the term that `step` makes of it, and the last below the first."""
    return " ".join(f"{step(f'v{i}')} v{(i + 1) % size} lt true" for i in range(size))


# title, variables, conditions, and whether they can hold
QUERIES = [
    ("an int in a range", 1, between("v0", 0, 10), True),
    ("an int in no range", 1, between("v0", 10, 0), False),
    ("3 ints in a circle", 3, circle(3, lambda v: v), False),
    ("12 ints in a circle", 12, circle(12, lambda v: v), False),
    ("5 ints in a chain", 5, " ".join(f"v{i} v{i + 1} lt true" for i in range(4)), True),
    ("a sum that wraps", 2, "0 v0 lt true 0 v1 lt true v0 v1 add 0 lt true", True),
    ("sums commute", 2, "v0 v1 add v1 v0 add eq false", False),
    ("sums associate", 3, "v0 v1 add v2 add v0 v1 v2 add add eq false", False),
    ("a difference and its sum", 2, "v0 v1 sub v1 add v0 eq false", False),
    ("no square is 3", 1, "v0 v0 mul 3 eq true", False),
    ("a square is 9", 1, "v0 v0 mul 9 eq true", True),
    ("factors of 221", 2, f"{between('v0', 1, 64)} {between('v1', 1, 64)} v0 v1 mul 221 eq true", True),
    ("no factors of 227", 2, f"{between('v0', 1, 64)} {between('v1', 1, 64)} v0 v1 mul 227 eq true", False),
    ("products of 5 bits commute", 2, f"{between('v0', -1, 32)} {between('v1', -1, 32)} v0 v1 mul v1 v0 mul eq false", False),
    ("a quotient and a remainder by 7", 1, "v0 7 div 5 eq true v0 7 rem 3 eq true", True),
    ("a quotient of two ints", 2, "1 v1 lt true v0 v1 div 100 eq true v0 v1 rem 5 eq true", True),
    ("digits of an int of 8 bits", 1, f"{between('v0', -1, 256)} v0 10 div 10 mul v0 10 rem add v0 eq false", False),
    ("a remainder below its divisor", 2, f"{between('v0', -1, 64)} {between('v1', 0, 64)} v0 v1 rem v1 lt false", False),
]


@dataclass
class Times:
    """Processor seconds for one query."""

    clauses: int
    entries: int
    blast: float
    ask: float
    minisat: float


def run(words):
    """The processor seconds of a run, its exit status and its output."""
    before = processor_seconds()
    ran = subprocess.run(words, stdin=subprocess.DEVNULL, capture_output=True, text=True)
    return processor_seconds() - before, ran.returncode, ran.stdout


def our_run(task, number, variables, tokens):
    took, status, out = run([str(PROGRAM.path), task, str(number), str(variables), *tokens])
    if status != 0 or out == "unasked\n":
        sys.exit(f"{task} {' '.join(tokens)}: status {status}, {out!r}")
    return took, out


def blast_seconds(variables, tokens, runs):
    """The time of one call of `blast`, and the clauses of the formula."""
    times = 20
    bare = min(our_run("blast", 0, variables, tokens)[0] for _ in range(runs))
    full, out = min(our_run("blast", times, variables, tokens) for _ in range(runs))
    return max(full - bare, 0) / times, int(out.split()[1])


def minisat_seconds(variables, tokens, holds, options):
    """The time of MiniSat on the formula of the conditions."""
    _, formula = our_run("formula", 0, variables, tokens)
    with tempfile.NamedTemporaryFile("w", suffix=".cnf") as file:
        file.write(formula)
        file.flush()
        took, status, _ = min(run(["minisat", *options.minisat, file.name]) for _ in range(options.runs))
    if status != (10 if holds else 20):
        sys.exit(f"MiniSat: status {status} on {' '.join(tokens)}")
    return took


def measured(variables, conditions, holds, options):
    tokens = conditions.split()
    ask, out = min(our_run("ask", options.budget, variables, tokens) for _ in range(options.runs))
    said, entries = out.split()
    if said != ("model" if holds else "refuted"):
        sys.exit(f"{said} on {conditions}")
    blast, clauses = blast_seconds(variables, tokens, options.runs)
    return Times(clauses, int(entries), blast, ask, minisat_seconds(variables, tokens, holds, options))


def print_line(title, clauses, entries, times):
    print(
        f"{title:<34} {clauses:>8} {entries:>8} {times.blast * 1e3:>9.2f} {times.ask * 1e3:>9.1f} {times.minisat * 1e3:>10.1f}"
        f" {times.ask / max(times.minisat, 1e-6):>6.2f} {times.blast / max(times.ask, 1e-6):>7.3f}",
        flush=True,
    )


def main():
    words = argparse.ArgumentParser(description="Times the solver's oracle beside MiniSat.")
    words.add_argument("--budget", type=int, default=1_000_000, help="the most entries of a log (1000000)")
    words.add_argument("--runs", type=int, default=3, help="runs of each, of which the fastest counts (3)")
    words.add_argument("minisat", nargs="*", help="MiniSat's options, behind --, such as -no-pre")
    options = words.parse_args()
    if options.runs < 1 or options.budget < 1:
        sys.exit("--runs and --budget must be at least 1")
    if not shutil.which("minisat"):
        sys.exit("minisat is not there: install Debian's package minisat")
    PROGRAM.build(__file__)
    print(f"{'query':<34} {'clauses':>8} {'entries':>8} {'blast ms':>9} {'ask ms':>9} {'minisat ms':>10} {'ratio':>6} {'blast/ask':>9}")
    all_times = [measured(variables, conditions, holds, options) for _, variables, conditions, holds in QUERIES]
    for (title, _, _, _), times in zip(QUERIES, all_times):
        print_line(title, times.clauses, times.entries, times)
    blast, ask, minisat = (sum(getattr(times, name) for times in all_times) for name in ("blast", "ask", "minisat"))
    print_line("in all", "", "", Times(0, 0, blast, ask, minisat))


if __name__ == "__main__":
    main()
