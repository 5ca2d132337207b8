#!/usr/bin/env python3
"""Times kb_frames' `SymState::bind` and `resolved`, and the copy of a state beside them, on states of 10 to 1,000 locations, half
of which are bound.

The only class has two objects, `next` and `other`. A state under lazier initialisation is a chain of so many objects as there are
bound locations: the receiver is the first, and of each the object that is next was read and looked into, and the other one was read
and is open. A call copies the state and binds each of its open locations, to the first object or to a new one each; or it copies the
state alone; or it looks up what each location is.

How often a call answers with as many objects as it should is compared with how often it is made. The time of a binding is that of a
call which binds, less that of one which copies alone, by the number of open locations; the time of a call is the mean of many, less
that of a run which only makes the state. The goals: a binding takes the same time at every size, and ten times as many locations take
at most twelve times as long.

Usage: bench/bindings.py [--runs N]
The first run takes as long as the proofs of kb_frames and the crates below it take, unless a checkout on this machine has kept
them.
"""

import argparse
import sys

from built import Program, with_main, with_those_below
from choices import class_file, ratio
from link import PUBLIC

NAME = "binding"
CRATES = with_those_below(f"{NAME}: kb_class kb_frames kb_load kb_names kb_picture kb_rows kb_world")

SOURCE = with_main("""\
//! Makes a state of so many locations, half of them bound, and one call on it so many times.
#![tactic(auto)]

use kb_class::MethodId;
use kb_frames::{SymState, SymValue, start};
use kb_load::world_of;
use kb_names::{ExactType, read_target};
use kb_picture::{Choice, Init, Length, Origin};
use kb_rows::Held;
use kb_world::World;
use std::alloc::{AllocError, AllocFailed, Global};
@USES@

@MAIN@

@STOP@

const TARGET: &[u8] = b"Node.f()I";

/// A call that is timed.
#[derive(Clone, Copy)]
enum Call {
    Copies,
    /// Binds each open location to the first object.
    Aliases,
    /// Binds each open location to a new object.
    Objects,
    Looks,
}

/// A state by its bound locations, which are as many as its open ones; a call, what it should count, and how often it is made.
#[derive(Clone, Copy)]
struct Asked {
    half: u32,
    call: Call,
    wanted: u32,
    times: u32,
}

fn call_of(word: &[u8]) -> Option<Call> {
    match word {
        b"copies" => Some(Call::Copies),
        b"aliases" => Some(Call::Aliases),
        b"objects" => Some(Call::Objects),
        b"looks" => Some(Call::Looks),
        _ => None,
    }
}

@NUMBER@

/// The words are how many locations are bound, a call, how many objects it should give, how often it is made, and a class file in
/// digits to base 16.
fn answer(alloc: Global, words: &[String]) -> Result<Option<u32>, Stop> {
    let [half, call, wanted, times, files @ ..] = words else {
        return Ok(None);
    };
    match asked_of(half, call, wanted, times) {
        Some(asked) => count_in(alloc, files, asked),
        None => Ok(None),
    }
}

fn asked_of(half: &String, call: &String, wanted: &String, times: &String) -> Option<Asked> {
    Some(Asked {
        half: number(half)?,
        call: call_of(call.as_bytes())?,
        wanted: number(wanted)?,
        times: number(times)?,
    })
}

/// How often the call answers as it should.
fn count_in(alloc: Global, files: &[String], asked: Asked) -> Result<Option<u32>, Stop> {
    let world = world_in(alloc, files)?;
    count_on(alloc, &world, asked)
}

fn count_on(alloc: Global, world: &World, asked: Asked) -> Result<Option<u32>, Stop> {
    let fresh = new_node(alloc, world)?;
    let mut state = first_state(alloc, world)?;
    read_chain(world, asked.half, &fresh, state.get_mut())?;
    count(alloc, world, state.get(), &fresh, asked)
}

fn count(
    alloc: Global,
    world: &World,
    state: &SymState,
    fresh: &Choice,
    asked: Asked,
) -> Result<Option<u32>, Stop> {
    let mut count: u32 = 0;
    for _ in 0..asked.times {
        let found = match asked.call {
            Call::Copies => objects_bound(alloc, world, state, 0, fresh)?,
            Call::Aliases => objects_bound(alloc, world, state, asked.half, &Choice::Alias(0))?,
            Call::Objects => objects_bound(alloc, world, state, asked.half, fresh)?,
            Call::Looks => objects_found(state, asked.half.saturating_mul(2)),
        };
        if found == asked.wanted as usize {
            count = count.saturating_add(1);
        }
    }
    Ok(Some(count))
}

/// How many objects a copy of the state has in which the first open locations, so many, are bound so.
fn objects_bound(
    alloc: Global,
    world: &World,
    state: &SymState,
    count: u32,
    choice: &Choice,
) -> Result<usize, Stop> {
    let mut copy = copied(alloc, state)?;
    bind_open(world, count, choice, copy.get_mut())?;
    Ok(copy.get().picture().objects.as_slice().len())
}

fn copied(alloc: Global, state: &SymState) -> Result<Held<SymState>, Stop> {
    match state.copy() {
        Ok(copy) => Ok(Held::new(alloc, copy)?),
        Err(_) => Err(Stop),
    }
}

fn bind_open(world: &World, count: u32, choice: &Choice, state: &mut SymState) -> Result<(), Stop> {
    for number in 0..count {
        bind(world, open_location(number), choice, state)?;
    }
    Ok(())
}

fn bind(world: &World, number: u32, choice: &Choice, state: &mut SymState) -> Result<(), Stop> {
    match state.bind(world, number, choice) {
        Ok(()) => Ok(()),
        Err(_) => Err(Stop),
    }
}

/// How many of the first locations, so many, are objects.
fn objects_found(state: &SymState, locations: u32) -> usize {
    let mut found: usize = 0;
    for number in 0..locations {
        if let SymValue::Obj(_) = state.resolved(SymValue::Loc(number)) {
            found = found.saturating_add(1);
        }
    }
    found
}

/// The number of the location that each object is found as, and of the one that its other object was read as.
fn bound_location(object: u32) -> u32 {
    object.saturating_mul(2)
}

fn open_location(object: u32) -> u32 {
    object.saturating_mul(2).saturating_add(1)
}

/// Reads a chain of so many objects, and the other object of each as a location.
fn read_chain(world: &World, size: u32, fresh: &Choice, state: &mut SymState) -> Result<(), Stop> {
    let mut slot = Origin::Arg(0);
    for number in 0..size {
        read(world, slot, state)?;
        bind(world, bound_location(number), fresh, state)?;
        read(world, Origin::Field(number, 1), state)?;
        slot = Origin::Field(number, 0);
    }
    Ok(())
}

fn read(world: &World, slot: Origin, state: &mut SymState) -> Result<(), Stop> {
    match state.first_reference(world, slot, &Choice::Location) {
        Ok(()) => Ok(()),
        Err(_) => Err(Stop),
    }
}

fn first_state(alloc: Global, world: &World) -> Result<Held<SymState>, Stop> {
    let method = method_of(alloc, world, TARGET)?;
    match start(alloc, world, method, Init::Lazier) {
        Ok(state) => Ok(Held::new(alloc, state)?),
        Err(_) => Err(Stop),
    }
}

/// A new object of the first class of the universe.
fn new_node(alloc: Global, world: &World) -> Result<Choice, Stop> {
    match world.universe().get(0) {
        Some(kind) => fresh_of(alloc, kind),
        None => Err(Stop),
    }
}

fn fresh_of(alloc: Global, kind: &ExactType) -> Result<Choice, Stop> {
    match kind.copied(alloc) {
        Ok(kind) => Ok(Choice::Fresh(kind, Length::Plain)),
        Err(_) => Err(Stop),
    }
}

@WORLD@

@DIGITS@
""", """\
        None => println!(rt; "unasked"),
        Some(count) => println!(rt; "{count}"),
""")

NODE = class_file("Node", "java/lang/Object", PUBLIC, [("next", "LNode;"), ("other", "LNode;")], ["f"]).hex()
SIZES = [10, 100, 1_000]
# locations of the states of all calls together
WORK = 2_000_000

PROGRAM = Program(name=NAME, crates=CRATES, source=SOURCE, trial=["5", "objects", "10", "1", NODE])


def measured(size, call, runs):
    """The processor seconds of one call."""
    half = size // 2
    wanted = size if call == "objects" else half
    return PROGRAM.seconds_of_call(lambda times: [half, call, wanted, times, NODE], WORK // size, runs)


def print_bindings(runs):
    print(f"{'locations':>10} {'copy, us':>10} {'by ten':>8} {'alias, ns':>10} {'object, ns':>11} {'look-up, ns':>12}")
    before = None
    for size in SIZES:
        copy, aliases, objects, looks = (measured(size, call, runs) for call in ("copies", "aliases", "objects", "looks"))
        alias, new = ((took - copy) * 1e9 / (size // 2) for took in (aliases, objects))
        cells = f"{alias:>10.1f} {new:>11.1f} {looks * 1e9 / size:>12.1f}"
        print(f"{size:>10} {copy * 1e6:>10.2f} {ratio(copy, before)} {cells}", flush=True)
        before = copy


def main():
    words = argparse.ArgumentParser(description="Times the bindings of locations in states.")
    words.add_argument("--runs", type=int, default=3, help="runs of each, of which the fastest counts (3)")
    options = words.parse_args()
    if options.runs < 1:
        sys.exit("--runs must be at least 1")
    PROGRAM.build(__file__)
    print_bindings(options.runs)


if __name__ == "__main__":
    main()
