#!/usr/bin/env python3
"""Times the text of reports of kb_report_text, and that of their paths' diagrams of kb_diagram, beside its length.

Reports have so many ended paths, each with one array of one element that the run has written; one path with so many terms,
each the sum of the one before it and a variable; one path that has seen so many arguments; or one ended path with so many of
those arrays. How many bytes the text has is compared with the text that this script makes after the format. The time of a
call is the mean of many, less that of a run which only makes the report. Where the work is linear, the time a byte is about
the same in each line. Diagrams are to take no longer than reports of the same paths.

Usage: bench/report.py [--runs N]
The first run takes as long as the proofs of kb_report_text, kb_diagram and the crates below them take, unless a checkout on this
machine has kept them.
"""

import argparse
import sys

from built import Program, with_main, with_those_below

CRATES = with_those_below("reporting: kb_diagram kb_heap kb_names kb_picture kb_report_text kb_rows kb_terms kb_world")

SOURCE = with_main("""\
//! Makes a report with so many paths, terms, seen arguments or objects, and gives its text, or its diagrams', so many times.
#![tactic(auto)]

use kb_diagram::diagrams_text;
use kb_heap::{Bounds, Heap, Input, Object, RunBounds, Value};
use kb_names::{ExactType, JType, Target, read_target};
use kb_picture::{
    Ended, Init, Leaf, Length, Origin, Out, Path, PicObject, Picture, Seen, SymEnding, Write,
};
use kb_report_text::{Report, report_text};
use kb_rows::Row;
use kb_terms::{Op, Operand, Term};
use kb_world::{World, link};
use std::alloc::{AllocError, AllocFailed, Global};
@USES@

@MAIN@

@STOP@

/// The words are which text is made, what there is much of, how much, and how many calls there are.
fn answer(alloc: Global, words: &[String]) -> Result<Option<String>, Stop> {
    let [text, shape, size, times] = words else {
        return Ok(None);
    };
    let Ok(size) = size.as_str().parse::<u32>() else {
        return Ok(None);
    };
    let Ok(times) = times.as_str().parse::<u32>() else {
        return Ok(None);
    };
    let is_drawn = text.as_str() == "diagrams";
    match shape.as_str() {
        "paths" => told(alloc, small_paths(alloc, size)?, is_drawn, times),
        "terms" => told(alloc, one_of_terms(alloc, size)?, is_drawn, times),
        "arguments" => told(alloc, one_of_arguments(alloc, size)?, is_drawn, times),
        "objects" => told(alloc, one_ended(alloc, size)?, is_drawn, times),
        _ => Ok(None),
    }
}

fn told(alloc: Global, leaves: Row<Path>, is_drawn: bool, times: u32) -> Result<Option<String>, Stop> {
    let report = report_of(alloc, leaves)?;
    told_in_world(alloc, &report, is_drawn, times)
}

fn told_in_world(alloc: Global, report: &Report, is_drawn: bool, times: u32) -> Result<Option<String>, Stop> {
    let world = world_of_the_platform(alloc)?;
    given(alloc, &world, report, is_drawn, times)
}

fn world_of_the_platform(alloc: Global) -> Result<World, Stop> {
    match link(alloc, Vec::new(alloc)).ok() {
        Some(world) => Ok(world),
        None => Err(Stop),
    }
}

/// How many bytes the text has, which is made so many times.
fn given(alloc: Global, world: &World, report: &Report, is_drawn: bool, times: u32) -> Result<Option<String>, Stop> {
    let mut bytes = 0;
    for _ in 0..times {
        let text = text_of(alloc, world, report, is_drawn)?;
        bytes = text.len();
    }
    Ok(Some(format!(in alloc; "bytes {bytes}")?))
}

fn text_of(alloc: Global, world: &World, report: &Report, is_drawn: bool) -> Result<Vec<u8>, AllocError> {
    if is_drawn {
        return diagrams_text(alloc, world, report.leaves.as_slice());
    }
    report_text(alloc, world, report)
}

fn target_of(alloc: Global) -> Result<Target, Stop> {
    match read_target(alloc, b"A.f(I)I").ok() {
        Some(target) => Ok(target),
        None => Err(Stop),
    }
}

fn report_of(alloc: Global, leaves: Row<Path>) -> Result<Report, Stop> {
    let target = target_of(alloc)?;
    let run = RunBounds {
        alloc: 16,
        loops: 10,
        depth: 16,
        steps: 2000,
    };
    Ok(Report {
        target,
        init: Init::Lazy,
        bounds: Bounds { k: 3, array: 3, run },
        paths: 1000,
        budget: 2000,
        leaves,
    })
}

/// So many paths of one written array each.
fn small_paths(alloc: Global, size: u32) -> Result<Row<Path>, Stop> {
    let mut paths = Row::new(alloc);
    for number in 0..size {
        paths.push(small_path(alloc, number)?)?;
    }
    Ok(paths)
}

fn small_path(alloc: Global, number: u32) -> Result<Path, Stop> {
    let mut decisions = Row::new(alloc);
    decisions.push(number)?;
    ended_path(alloc, decisions, 1)
}

fn one_open(alloc: Global, picture: Picture, terms: Row<Term>) -> Result<Row<Path>, Stop> {
    let path = Path {
        decisions: Row::new(alloc),
        picture,
        terms,
        when: Row::new(alloc),
        leaf: Leaf::Open,
    };
    let mut paths = Row::new(alloc);
    paths.push(path)?;
    Ok(paths)
}

fn one_of_terms(alloc: Global, size: u32) -> Result<Row<Path>, Stop> {
    one_open(alloc, Picture::new(alloc), sums(alloc, size)?)
}

fn one_of_arguments(alloc: Global, size: u32) -> Result<Row<Path>, Stop> {
    one_open(alloc, arguments(alloc, size)?, Row::new(alloc))
}

fn one_ended(alloc: Global, size: u32) -> Result<Row<Path>, Stop> {
    let mut paths = Row::new(alloc);
    paths.push(ended_path(alloc, Row::new(alloc), size)?)?;
    Ok(paths)
}

/// A path that has ended, with so many arrays of one int, each an argument whose element the run has written.
fn ended_path(alloc: Global, decisions: Row<u32>, size: u32) -> Result<Path, Stop> {
    let picture = arrays(alloc, size)?;
    let leaf = ended(alloc, size)?;
    Ok(Path {
        decisions,
        picture,
        terms: Row::new(alloc),
        when: Row::new(alloc),
        leaf,
    })
}

fn ended(alloc: Global, size: u32) -> Result<Leaf, Stop> {
    let writes = writes(alloc, size)?;
    let input = input(alloc, size)?;
    Ok(Leaf::Ended(Ended {
        ending: SymEnding::Returned(None),
        writes,
        made: Row::new(alloc),
        input,
    }))
}

/// So many arrays of one int, each an argument.
fn input(alloc: Global, size: u32) -> Result<Input, Stop> {
    let mut objects = Row::new(alloc);
    let mut args = Row::new(alloc);
    for number in 0..size {
        objects.push(one_int(alloc)?)?;
        args.push(Value::Ref(number))?;
    }
    Ok(Input {
        heap: Heap { objects },
        args,
    })
}

fn one_int(alloc: Global) -> Result<Object, Stop> {
    let mut values = Row::new(alloc);
    values.push(Value::Int(0))?;
    Ok(Object {
        kind: ExactType::Array(JType::Int),
        values,
    })
}

/// So many arrays of one int are seen, each in an argument.
fn arrays(alloc: Global, size: u32) -> Result<Picture, Stop> {
    let mut picture = Picture::new(alloc);
    for number in 0..size {
        picture.seen.push((Origin::Arg(number), Seen::Obj(number)))?;
        picture.objects.push(PicObject {
            kind: ExactType::Array(JType::Int),
            length: Length::Is(1),
            origin: Origin::Arg(number),
        })?;
    }
    Ok(picture)
}

/// The one element of each of so many arrays is made 0.
fn writes(alloc: Global, size: u32) -> Result<Row<Write>, Stop> {
    let mut writes = Row::new(alloc);
    for number in 0..size {
        writes.push(Write {
            slot: Origin::Element(number, 0),
            value: Out::Int(Operand::Const(0)),
        })?;
    }
    Ok(writes)
}

fn sums(alloc: Global, size: u32) -> Result<Row<Term>, Stop> {
    let mut terms = Row::new(alloc);
    for number in 0..size {
        terms.push(Term {
            op: Op::Add,
            left: Operand::Term(number),
            right: Some(Operand::Var(0)),
        })?;
    }
    Ok(terms)
}

fn arguments(alloc: Global, size: u32) -> Result<Picture, Stop> {
    let mut picture = Picture::new(alloc);
    for number in 0..size {
        picture.seen.push((Origin::Arg(number), Seen::Int(number)))?;
    }
    Ok(picture)
}
""", """\
        None => println!(rt; "unasked"),
        Some(text) => println!(rt; "{text}"),
""")

PROGRAM = Program(
    name="reporting",
    crates=CRATES,
    source=SOURCE,
    trial=["diagrams", "paths", "3", "1"],
    proofs={},
)

SIZES = [100, 1_000, 10_000, 100_000]
# lines of all calls together
WORK = 2_000_000


def blocks(shape, size):
    """The lines of the paths."""
    if shape == "paths":
        return [line for i in range(size) for line in ended_block(i, 1)]
    if shape == "terms":
        return ["path -", *(f"let t{i} add t{i} v0" for i in range(size)), "open"]
    if shape == "arguments":
        return ["path -", *(f"see a{i} v{i}" for i in range(size)), "open"]
    return ended_block("-", size)


def ended_block(decisions, size):
    seen = [form.format(i) for form in ("see a{0} o{0}", "obj o{0} [I length 1 a{0}") for i in range(size)]
    left = [form.format(i) for form in ("set o{0}[0] 0", "arg i{0}", "in i{0} [I 0") for i in range(size)]
    return [f"path {decisions}", *seen, "returns", *left]


def diagrams(shape, size):
    """The lines of the diagrams."""
    if shape == "paths":
        return [line for i in range(size) for line in ended_diagram(i, 1)]
    if shape in ("terms", "arguments"):
        return ["diagram -", "before", "open"]
    return ended_diagram("-", size)


def ended_diagram(decisions, size):
    before, after = ([f"o{i} [I 0={held}" for i in range(size)] for held in ("?", "0"))
    return [f"diagram {decisions}", "before", *before, "after", *after, "returns"]


def report(shape, size):
    head = [
        "kiasan report 1",
        "target A.f(I)I",
        "init lazy k 3 array 3 alloc 16 loops 10 depth 16 steps 2000 paths 1000 budget 2000",
    ]
    count = size if shape == "paths" else 1
    ended = count if shape in ("paths", "objects") else 0
    total = f"total {count} ended {ended} cut 0 undecided 0 open {count - ended}"
    return [*head, *blocks(shape, size), total]


def measured(text, shape, size, runs):
    """The bytes of the text, and the processor seconds of one call."""
    times = WORK // size
    lines = report(shape, size) if text == "report" else diagrams(shape, size)
    length = sum(len(line) + 1 for line in lines)
    words = [text, shape, str(size)]
    bare = min(PROGRAM.timed_run([*words, "0"], b"bytes 0\n") for _ in range(runs))
    full = min(PROGRAM.timed_run([*words, str(times)], f"bytes {length}\n".encode()) for _ in range(runs))
    return length, max(full - bare, 0) / times


def main():
    words = argparse.ArgumentParser(description="Times the text of reports and of diagrams.")
    words.add_argument("--runs", type=int, default=3, help="runs of each, of which the fastest counts (3)")
    options = words.parse_args()
    if options.runs < 1:
        sys.exit("--runs must be at least 1")
    PROGRAM.build(__file__)
    print(f"{'text':<9} {'much of':<10} {'size':>8} {'bytes':>10} {'us a text':>12} {'ns a byte':>10}")
    for shape in ("paths", "terms", "arguments", "objects"):
        for text in ("report", "diagrams"):
            for size in SIZES:
                length, took = measured(text, shape, size, options.runs)
                row = f"{text:<9} {shape:<10} {size:>8} {length:>10} {took * 1e6:>12.1f} {took * 1e9 / length:>10.2f}"
                print(row, flush=True)


if __name__ == "__main__":
    main()
