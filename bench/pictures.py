#!/usr/bin/env python3
"""Times kb_picture's `places`, `is_instance` and `ending_at`, and kb_fits's `fits_types` beside them, on chains of 10 to 10,000
objects.

The input is a list of so many nodes, of which the receiver is the first. The path sees both slots of each node: its int, and
the next node as an object of the picture. It has as many terms and conditions as nodes: each term is whether the term before it
is below the one before that, and each condition that it is not. It ends with a write to each node. All conditions are true of
the input, whose ints are 0.

How often a call answers as it should is compared with how often it is made. The time of a call is the mean of many, less that of a
run which only makes path and input. The goals: ten times as many objects take at most twelve times as long, and `is_instance`
takes at most five times as long as `fits_types`.

Usage: bench/pictures.py [--runs N]
The first run takes as long as the proofs of kb_picture, kb_fits and the crates below them take, unless a checkout on this
machine has kept them.
"""

import argparse
import sys

from built import ROOT, Program, with_main, with_those_below

NAME = "picturing"
CRATES = with_those_below(
    f"{NAME}: kb_class kb_fits kb_heap kb_load kb_names kb_picture kb_rows kb_terms kb_world"
)

SOURCE = with_main("""\
//! Makes a path and an input of so many nodes, and one call on them so many times.
#![tactic(auto)]

ghost use Rattle.std.specs.Prelude.{◌≡◌, Some};
ghost use Rattle.kb_picture.specs.Places.{places_of};

use kb_class::MethodId;
use kb_fits::fits_types;
use kb_heap::{Heap, Input, Object, Value};
use kb_load::world_of;
use kb_names::{ExactType, Name, read_target};
use kb_picture::{
    Ended, Leaf, Length, Origin, Out, Path, PicObject, Picture, PlaceLists, Seen, SymEnding,
    Write, ending_at, is_instance, places,
};
use kb_rows::Row;
use kb_terms::{Op, Operand, Term};
use kb_world::World;
use std::alloc::{AllocError, AllocFailed, Global};
@USES@

@MAIN@

@STOP@

/// A call that is timed.
#[derive(Clone, Copy)]
enum Call {
    Places,
    IsInstance,
    EndingAt,
    FitsTypes,
}

fn call_of(word: &[u8]) -> Option<Call> {
    match word {
        b"places" => Some(Call::Places),
        b"is_instance" => Some(Call::IsInstance),
        b"ending_at" => Some(Call::EndingAt),
        b"fits_types" => Some(Call::FitsTypes),
        _ => None,
    }
}

/// The words are a class file in digits to base 16, a call, how many nodes there are, and how often the call is made.
fn answer(alloc: Global, words: &[String]) -> Result<Option<u32>, Stop> {
    let [class, call, size, times] = words else {
        return Ok(None);
    };
    let Some(call) = call_of(call.as_bytes()) else {
        return Ok(None);
    };
    let Ok(size) = size.as_str().parse::<u32>() else {
        return Ok(None);
    };
    let Ok(times) = times.as_str().parse::<u32>() else {
        return Ok(None);
    };
    let world = world_in(alloc, class.as_bytes())?;
    count_in(alloc, &world, call, size, times)
}

/// How often the call on path and input of so many nodes answers as it should.
fn count_in(
    alloc: Global,
    world: &World,
    call: Call,
    size: u32,
    times: u32,
) -> Result<Option<u32>, Stop> {
    let path = path_of(alloc, size)?;
    count_of(alloc, world, &path, call, size, times)
}

fn count_of(
    alloc: Global,
    world: &World,
    path: &Path,
    call: Call,
    size: u32,
    times: u32,
) -> Result<Option<u32>, Stop> {
    let input = input_of(alloc, size)?;
    count(alloc, world, path, &input, call, times)
}

fn count(
    alloc: Global,
    world: &World,
    path: &Path,
    input: &Input,
    call: Call,
    times: u32,
) -> Result<Option<u32>, Stop> {
    match places(alloc, path, input) {
        Ok(Some(lists)) => count_placed(alloc, world, (path, input), &lists, call, times),
        Ok(None) => Ok(None),
        Err(_) => Err(Stop),
    }
}

fn count_placed(
    alloc: Global,
    world: &World,
    asked: (&Path, &Input),
    lists: &PlaceLists,
    call: Call,
    times: u32,
) -> Result<Option<u32>, Stop>
    requires { places_of asked.0.now.picture asked.1.now ≡ Some lists.now }
{
    let method = method_of(alloc, world)?;
    let (path, input) = asked;
    let mut count: u32 = 0;
    for _ in 0..times {
        let is_so = match call {
            Call::Places => has_places(alloc, path, input)?,
            Call::IsInstance => is_such(is_instance(alloc, world, path, input, lists))?,
            Call::EndingAt => has_ending(alloc, world, path, input, lists)?,
            Call::FitsTypes => fits_types(world, method, input),
        };
        if is_so {
            count = count.saturating_add(1);
        }
    }
    Ok(Some(count))
}

fn is_such(answer: Result<bool, kb_picture::NoMemory>) -> Result<bool, Stop> {
    match answer {
        Ok(is_so) => Ok(is_so),
        Err(_) => Err(Stop),
    }
}

fn has_places(alloc: Global, path: &Path, input: &Input) -> Result<bool, Stop> {
    match places(alloc, path, input) {
        Ok(found) => Ok(found.is_some()),
        Err(_) => Err(Stop),
    }
}

fn has_ending(
    alloc: Global,
    world: &World,
    path: &Path,
    input: &Input,
    lists: &PlaceLists,
) -> Result<bool, Stop>
    requires { places_of path.now.picture input.now ≡ Some lists.now }
{
    let Leaf::Ended(_) = &path.leaf else {
        return Ok(false);
    };
    match ending_at(alloc, world, path, input, lists) {
        Ok(_) => Ok(true),
        Err(_) => Err(Stop),
    }
}

fn method_of(alloc: Global, world: &World) -> Result<MethodId, Stop> {
    let Ok(target) = read_target(alloc, b"Node.contains(I)Z") else {
        return Err(Stop);
    };
    match world.find_target(&target) {
        Some(method) => Ok(method),
        None => Err(Stop),
    }
}

/// The world of the class whose file these digits spell.
fn world_in(alloc: Global, digits: &[u8]) -> Result<World, Stop> {
    let mut files = Vec::new(alloc);
    files.push(bytes_of(alloc, digits)?)?;
    match world_of(alloc, files.as_slice()) {
        Some(world) => Ok(world),
        None => Err(Stop),
    }
}

@DIGITS@

fn node(alloc: Global) -> Result<ExactType, Stop> {
    Ok(ExactType::Class(Name::from_vec(b"Node".to_vec(alloc)?)))
}

/// A list of so many nodes, and an int.
fn input_of(alloc: Global, size: u32) -> Result<Input, Stop> {
    let objects = nodes(alloc, size)?;
    let args = vec![in alloc; Value::Ref(0), Value::Int(0)]?;
    Ok(Input {
        heap: Heap { objects },
        args: Row::from_vec(args),
    })
}

fn nodes(alloc: Global, size: u32) -> Result<Row<Object>, Stop> {
    let mut objects = Row::new(alloc);
    for number in 1..size {
        objects.push(node_before(alloc, Value::Ref(number))?)?;
    }
    objects.push(node_before(alloc, Value::Null)?)?;
    Ok(objects)
}

fn node_before(alloc: Global, next: Value) -> Result<Object, Stop> {
    let values = vec![in alloc; Value::Int(0), next]?;
    Ok(Object {
        kind: node(alloc)?,
        values: Row::from_vec(values),
    })
}

fn path_of(alloc: Global, size: u32) -> Result<Path, Stop> {
    let when = conditions(alloc, size)?;
    let terms = terms(alloc, size)?;
    let writes = writes(alloc, size)?;
    let picture = picture_of(alloc, size)?;
    let ended = Ended {
        ending: SymEnding::Returned(None),
        writes,
        made: Row::new(alloc),
        input: Input {
            heap: Heap::new(alloc),
            args: Row::new(alloc),
        },
    };
    Ok(Path {
        decisions: Row::new(alloc),
        picture,
        terms,
        when,
        leaf: Leaf::Ended(ended),
    })
}

fn conditions(alloc: Global, size: u32) -> Result<Row<(u32, bool)>, Stop> {
    let mut when = Row::new(alloc);
    for number in 0..size {
        when.push((number, false))?;
    }
    Ok(when)
}

fn terms(alloc: Global, size: u32) -> Result<Row<Term>, Stop> {
    let mut terms = Row::new(alloc);
    for number in 0..size {
        terms.push(Term {
            op: Op::Lt,
            left: before(number, 1),
            right: Some(before(number, 2)),
        })?;
    }
    Ok(terms)
}

/// The term so many before that of a number, or a variable where there is none.
fn before(number: u32, distance: u32) -> Operand {
    match number.checked_sub(distance) {
        Some(term) => Operand::Term(term),
        None => Operand::Var(distance.saturating_sub(number)),
    }
}

fn writes(alloc: Global, size: u32) -> Result<Row<Write>, Stop> {
    let mut writes = Row::new(alloc);
    for number in 0..size {
        writes.push(Write {
            slot: Origin::Field(number, 1),
            value: Out::Null,
        })?;
    }
    Ok(writes)
}

fn picture_of(alloc: Global, size: u32) -> Result<Picture, Stop> {
    let mut picture = Picture::new(alloc);
    add_nodes(alloc, size, &mut picture)?;
    Ok(picture)
}

fn add_nodes(alloc: Global, size: u32, picture: &mut Picture) -> Result<(), Stop> {
    let mut slot = Origin::Arg(0);
    for number in 0..size {
        picture.seen.push((slot, Seen::Obj(number)))?;
        picture.seen.push((Origin::Field(number, 0), Seen::Int(number)))?;
        add_object(alloc, slot, picture)?;
        slot = Origin::Field(number, 1);
    }
    picture.seen.push((slot, Seen::Null))?;
    Ok(())
}

fn add_object(alloc: Global, origin: Origin, picture: &mut Picture) -> Result<(), Stop> {
    let kind = node(alloc)?;
    picture.objects.push(PicObject {
        kind,
        length: Length::Plain,
        origin,
    })?;
    Ok(())
}
""", """\
        None => println!(rt; "unasked"),
        Some(count) => println!(rt; "{count}"),
""")


CLASS = (ROOT / "crates" / "picture_rows" / "data" / "Node.class").read_bytes().hex()
PROGRAM = Program(
    name=NAME,
    crates=CRATES,
    source=SOURCE,
    trial=[CLASS, "places", "10", "1"],
)

CALLS = ["places", "is_instance", "ending_at", "fits_types"]
SIZES = [10, 100, 1_000, 10_000]
# objects of all calls together
WORK = 2_000_000


def measured(call, size, runs):
    """The processor seconds of one call."""
    return PROGRAM.seconds_of_call(lambda times: [CLASS, call, size, times], WORK // size, runs)


def main():
    words = argparse.ArgumentParser(description="Times the calls on pictures.")
    words.add_argument("--runs", type=int, default=3, help="runs of each, of which the fastest counts (3)")
    options = words.parse_args()
    if options.runs < 1:
        sys.exit("--runs must be at least 1")
    PROGRAM.build(__file__)
    print(f"{'objects':>8}" + "".join(f" {call + ', us':>17} {'ns an object':>12}" for call in CALLS))
    for size in SIZES:
        took = [measured(call, size, options.runs) for call in CALLS]
        print(f"{size:>8}" + "".join(f" {t * 1e6:>17.2f} {t * 1e9 / size:>12.1f}" for t in took), flush=True)


if __name__ == "__main__":
    main()
