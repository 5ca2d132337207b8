#!/usr/bin/env python3
"""Times kb_lazy's `read_choices` and `resolve_choices` and kb_input's `input_of`, and the copy of an input beside it, on chains
of 10 to 1,000 objects in worlds of 4 and 64 classes.

All classes but one extend that one, which is abstract and has an int, the next object and another one, each declared of
itself; each of the others has one more object, declared of its own class. A picture is a chain of so many objects, of which
the receiver is the first, and whose classes take turns: of each the int and the next object were read, but not what is next
to the last. That is what `read_choices` is asked about, under lazy initialisation and with a bound that is deeper than the
chain: the answers are null, each object of the picture, and a new object of each class that is not abstract. `resolve_choices` is
asked about the last open location, where each object's other object was read as one: the same answers but null. `input_of` is
asked for the input of the chain alone, of one in which each object's other object was read as an open location, and of one in
which that of its own class was, so that as many types are asked for as there are such classes.

How often a call answers with as many choices or objects as it should is compared with how often it is made. The time of a
call is the mean of many, less that of a run which only makes the picture and one input. The goals: ten times as many objects
take at most twelve times as long, and `input_of` takes at most three times as long as a copy of the input that it gives.

Usage: bench/choices.py [--runs N]
The first run takes as long as the proofs of kb_input, kb_lazy and the crates below them take, unless a checkout on this
machine has kept them.
"""

import argparse
import struct
import sys

from built import Program, with_main, with_those_below
from class_files import attribute
from link import PUBLIC, Pool
from straight import utf8

NAME = "choosing"
CRATES = with_those_below(f"{NAME}: kb_class kb_heap kb_input kb_lazy kb_load kb_names kb_picture kb_rows kb_world")

SOURCE = with_main("""\
//! Makes a picture of so many objects, and one call on it so many times.
#![tactic(auto)]

use kb_class::MethodId;
use kb_heap::Input;
use kb_input::input_of;
use kb_lazy::{read_choices, resolve_choices};
use kb_load::world_of;
use kb_names::{ExactType, JType, read_target, read_type};
use kb_picture::{Init, Length, Origin, PicLoc, PicObject, Picture, Seen, Standing};
use kb_world::World;
use std::alloc::{AllocError, AllocFailed, Global};
@USES@

@MAIN@

@STOP@

const TARGET: &[u8] = b"Node.f()I";

/// What was read of each object beside its int and the next one.
#[derive(Clone, Copy)]
enum Shape {
    Chain,
    /// Another object, declared of one class for all.
    Open,
    /// Another object, declared of the class of its own.
    Types,
}

/// A call that is timed.
#[derive(Clone, Copy)]
enum Call {
    Choices,
    Accesses,
    Input,
    Copy,
}

/// A picture by its shape, its objects and their classes; a call, what it should count, and how often it is made.
#[derive(Clone, Copy)]
struct Asked {
    shape: Shape,
    size: u32,
    classes: u32,
    call: Call,
    wanted: u32,
    times: u32,
}

fn shape_of(word: &[u8]) -> Option<Shape> {
    match word {
        b"chain" => Some(Shape::Chain),
        b"open" => Some(Shape::Open),
        b"types" => Some(Shape::Types),
        _ => None,
    }
}

fn call_of(word: &[u8]) -> Option<Call> {
    match word {
        b"choices" => Some(Call::Choices),
        b"accesses" => Some(Call::Accesses),
        b"input" => Some(Call::Input),
        b"copy" => Some(Call::Copy),
        _ => None,
    }
}

@NUMBER@

/// The words are a shape, how many objects and classes there are, a call, how many choices or objects it should give, how often
/// it is made, and class files in digits to base 16.
fn answer(alloc: Global, words: &[String]) -> Result<Option<u32>, Stop> {
    let [shape, size, classes, call, wanted, times, files @ ..] = words else {
        return Ok(None);
    };
    match asked_of(shape, size, classes, call, wanted, times) {
        Some(asked) => count_in(alloc, files, asked),
        None => Ok(None),
    }
}

fn asked_of(
    shape: &String,
    size: &String,
    classes: &String,
    call: &String,
    wanted: &String,
    times: &String,
) -> Option<Asked> {
    Some(Asked {
        shape: shape_of(shape.as_bytes())?,
        size: number(size)?,
        classes: number(classes)?,
        call: call_of(call.as_bytes())?,
        wanted: number(wanted)?,
        times: number(times)?,
    })
}

/// How often the call answers as it should.
fn count_in(alloc: Global, files: &[String], asked: Asked) -> Result<Option<u32>, Stop> {
    let world = world_in(alloc, files)?;
    count_on(alloc, &world, asked)
}

fn count_on(alloc: Global, world: &World, asked: Asked) -> Result<Option<u32>, Stop> {
    let picture = picture_of(alloc, world, asked)?;
    count_of(alloc, world, &picture, asked)
}

fn count_of(
    alloc: Global,
    world: &World,
    picture: &Picture,
    asked: Asked,
) -> Result<Option<u32>, Stop> {
    let method = method_of(alloc, world, TARGET)?;
    let input = emitted(alloc, world, method, picture)?;
    count_with(alloc, world, method, picture, &input, asked)
}

fn count_with(
    alloc: Global,
    world: &World,
    method: MethodId,
    picture: &Picture,
    input: &Input,
    asked: Asked,
) -> Result<Option<u32>, Stop> {
    let kind = declared(alloc)?;
    count(alloc, world, method, picture, input, &kind, asked)
}

fn count(
    alloc: Global,
    world: &World,
    method: MethodId,
    picture: &Picture,
    input: &Input,
    kind: &JType,
    asked: Asked,
) -> Result<Option<u32>, Stop> {
    let mut count: u32 = 0;
    for _ in 0..asked.times {
        let found = match asked.call {
            Call::Choices => choices(alloc, world, picture, kind, asked.size)?,
            Call::Accesses => accesses(alloc, world, picture, kind, asked.size)?,
            Call::Input => objects(alloc, world, method, picture)?,
            Call::Copy => copied(alloc, input)?,
        };
        if found == asked.wanted as usize {
            count = count.saturating_add(1);
        }
    }
    Ok(Some(count))
}

/// How many choices there are for what is next to the last object.
fn choices(
    alloc: Global,
    world: &World,
    picture: &Picture,
    kind: &JType,
    size: u32,
) -> Result<usize, Stop> {
    let slot = Origin::Field(size.saturating_sub(1), 1);
    match read_choices(
        alloc,
        world,
        picture,
        slot,
        kind,
        false,
        Init::Lazy,
        u32::MAX,
        3,
    ) {
        Ok(choices) => Ok(choices.len()),
        Err(_) => Err(Stop),
    }
}

/// How many choices there are for the last location.
fn accesses(
    alloc: Global,
    world: &World,
    picture: &Picture,
    kind: &JType,
    size: u32,
) -> Result<usize, Stop> {
    match resolve_choices(
        alloc,
        world,
        picture,
        size.saturating_sub(1),
        kind,
        u32::MAX,
        3,
    ) {
        Ok(choices) => Ok(choices.len()),
        Err(_) => Err(Stop),
    }
}

fn objects(
    alloc: Global,
    world: &World,
    method: MethodId,
    picture: &Picture,
) -> Result<usize, Stop> {
    let input = emitted(alloc, world, method, picture)?;
    Ok(input.heap.objects.as_slice().len())
}

fn copied(alloc: Global, input: &Input) -> Result<usize, Stop> {
    match input.copied(alloc) {
        Ok(copy) => Ok(copy.heap.objects.as_slice().len()),
        Err(_) => Err(Stop),
    }
}

/// The input in which each int is 0.
fn emitted(
    alloc: Global,
    world: &World,
    method: MethodId,
    picture: &Picture,
) -> Result<Input, Stop> {
    match input_of(alloc, world, method, picture, &[]) {
        Ok(input) => Ok(input),
        Err(_) => Err(Stop),
    }
}

fn declared(alloc: Global) -> Result<JType, Stop> {
    match read_type(alloc, b"LNode;") {
        Ok(kind) => Ok(kind),
        Err(_) => Err(Stop),
    }
}

@WORLD@

@DIGITS@

fn picture_of(alloc: Global, world: &World, asked: Asked) -> Result<Picture, Stop> {
    let mut picture = Picture::new(alloc);
    add_nodes(alloc, world, asked, &mut picture)?;
    Ok(picture)
}

fn add_nodes(
    alloc: Global,
    world: &World,
    asked: Asked,
    picture: &mut Picture,
) -> Result<(), Stop> {
    let mut slot = Origin::Arg(0);
    for number in 0..asked.size {
        picture.seen.push((slot, Seen::Obj(number)))?;
        picture
            .seen
            .push((Origin::Field(number, 0), Seen::Int(number)))?;
        add_location(asked.shape, number, picture)?;
        add_object(alloc, kind_at(world, asked.classes, number)?, slot, picture)?;
        slot = Origin::Field(number, 1);
    }
    Ok(())
}

fn add_location(shape: Shape, number: u32, picture: &mut Picture) -> Result<(), Stop> {
    let slot = match shape {
        Shape::Chain => return Ok(()),
        Shape::Open => 2,
        Shape::Types => 3,
    };
    let origin = Origin::Field(number, slot);
    picture.seen.push((origin, Seen::Loc(number)))?;
    picture.locs.push(PicLoc {
        origin,
        standing: Standing::Open,
    })?;
    Ok(())
}

/// The classes take turns.
fn kind_at(world: &World, classes: u32, number: u32) -> Result<&ExactType, Stop> {
    if classes == 0 {
        return Err(Stop);
    }
    match world.universe().get((number % classes) as usize) {
        Some(kind) => Ok(kind),
        None => Err(Stop),
    }
}

fn add_object(
    alloc: Global,
    of: &ExactType,
    origin: Origin,
    picture: &mut Picture,
) -> Result<(), Stop> {
    let Ok(kind) = of.copied(alloc) else {
        return Err(Stop);
    };
    picture.objects.push(PicObject {
        kind,
        length: Length::Plain,
        origin,
    })?;
    Ok(())
}
""", """\
        None => println!(rt; "unasked"),
        Some(count) => println!(rt; "{count}"),
""")

# ACC_ABSTRACT (JVMS 8 table 4.1-A)
ABSTRACT = 0x0400


def class_file(name, above, access, fields, methods=()):
    """A class with public fields of these names and types, and public methods of these names that return 0."""
    pool = Pool()
    this, parent = pool.named_class(name), pool.named_class(above)
    members = [struct.pack(">HHHH", 1, pool.add(utf8(field)), pool.add(utf8(kind)), 0) for field, kind in fields]
    content = struct.pack(">HHI", 1, 1, 2) + b"\x03\xac" + struct.pack(">HH", 0, 0)
    given = []
    for method in methods:
        head = struct.pack(">HHHH", 1, pool.add(utf8(method)), pool.add(utf8("()I")), 1)
        given.append(head + attribute(pool.add(utf8("Code")), content))
    return (
        struct.pack(">IHHH", 0xCAFEBABE, 0, 52, len(pool.entries) + 1)
        + b"".join(pool.entries)
        + struct.pack(">HHHH", access, this, parent, 0)
        + struct.pack(">H", len(members))
        + b"".join(members)
        + struct.pack(">H", len(given))
        + b"".join(given)
        + struct.pack(">H", 0)
    )


def world_of(classes):
    """The files of so many classes, of which the first is abstract and the others extend it, in digits to base 16."""
    fields = [("elem", "I"), ("next", "LNode;"), ("other", "LNode;")]
    files = [class_file("Node", "java/lang/Object", PUBLIC | ABSTRACT, fields, ["f"])]
    for number in range(classes - 1):
        files.append(class_file(f"C{number}", "Node", PUBLIC, [("own", f"LC{number};")]))
    return [file.hex() for file in files]


WORLDS = {classes: world_of(classes) for classes in (4, 64)}
SIZES = [10, 100, 1_000]
SHAPES = ["chain", "open", "types"]
# objects of the pictures of all calls together
WORK = 2_000_000

PROGRAM = Program(
    name=NAME,
    crates=CRATES,
    source=SOURCE,
    trial=["types", "10", "3", "input", "20", "1", *WORLDS[4]],
)


def wanted(shape, size, classes, call):
    """How many choices there are, or objects: an open location is one more. The abstract class has no objects."""
    if call == "choices":
        return size + classes
    if call == "accesses":
        return size + classes - 1
    return size if shape == "chain" else 2 * size


def measured(shape, size, classes, call, runs):
    """The processor seconds of one call."""
    words = [shape, size, classes - 1, call, wanted(shape, size, classes, call)]
    return PROGRAM.seconds_of_call(lambda times: [*words, times, *WORLDS[classes]], WORK // size, runs)


def ratio(took, before):
    return f"{took / before:>8.1f}" if before else f"{'':>8}"


def print_choices(name, shape, call, runs):
    print(f"{name:<16} {'classes':>8} {'objects':>8} {'us':>10} {'by ten':>8} {'ns a choice':>12}")
    for classes in WORLDS:
        before = None
        for size in SIZES:
            took = measured(shape, size, classes, call, runs)
            each = took * 1e9 / wanted(shape, size, classes, call)
            cells = f"{took * 1e6:>10.2f} {ratio(took, before)} {each:>12.1f}"
            print(f"{'':<16} {classes:>8} {size:>8} {cells}", flush=True)
            before = took


def print_inputs(runs):
    print(f"{'input_of':<12} {'classes':>8} {'objects':>8} {'us':>10} {'by ten':>8} {'copy, us':>10} {'by copy':>8}")
    for shape in SHAPES:
        for classes in WORLDS:
            before = None
            for size in SIZES:
                took, copy = (measured(shape, size, classes, call, runs) for call in ("input", "copy"))
                cells = f"{took * 1e6:>10.2f} {ratio(took, before)} {copy * 1e6:>10.2f} {ratio(took, copy)}"
                print(f"{shape:<12} {classes:>8} {size:>8} {cells}", flush=True)
                before = took


def main():
    words = argparse.ArgumentParser(description="Times the choices and inputs of pictures.")
    words.add_argument("--runs", type=int, default=3, help="runs of each, of which the fastest counts (3)")
    options = words.parse_args()
    if options.runs < 1:
        sys.exit("--runs must be at least 1")
    PROGRAM.build(__file__)
    print_choices("read_choices", "chain", "choices", options.runs)
    print_choices("resolve_choices", "open", "accesses", options.runs)
    print_inputs(options.runs)


if __name__ == "__main__":
    main()
