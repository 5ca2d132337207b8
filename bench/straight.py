#!/usr/bin/env python3
"""Times the built program on straight methods of 250, 500, 1,000 and 2,000 instructions.

A method is iload_0, then iload_1 and iadd again and again, then ireturn, so that each iadd is a term of its own. The
report of each run is compared with the one that is expected. The time of a method of two instructions is taken off
before the time per instruction is computed, since it is that of starting the program. Where the work is linear, the
time per instruction is about the same in each line.

Usage: bench/straight.py [--runs N] [--program FILE]
Build the program first, by running ./kiasan once.
"""

import argparse
import statistics
import struct
import subprocess
import sys
import tempfile
import time
from pathlib import Path

ROOT = Path(__file__).resolve().parent.parent
SIZES = [250, 500, 1000, 2000]
TARGET = "Bench.f(II)I"

ILOAD_0 = 0x1A
ILOAD_1 = 0x1B
IADD = 0x60
IRETURN = 0xAC


def utf8(text):
    # bytes that are no UTF-8 stand in the text as Python escapes them
    data = text.encode(errors="surrogateescape")
    return struct.pack(">BH", 1, len(data)) + data


def class_entry(name):
    return struct.pack(">BH", 7, name)


def string_entry(text):
    return struct.pack(">BH", 8, text)


def class_of(code, kind, stack, local, literals=0):
    """The bytes of class Bench with the static method f of that descriptor, code and most stack and locals.

    The class holds so many string literals, which f does not use.
    """
    pool = [
        utf8("Bench"),
        class_entry(1),
        utf8("java/lang/Object"),
        class_entry(3),
        utf8("f"),
        utf8(kind),
        utf8("Code"),
    ]
    for number in range(literals):
        pool += [utf8(f"literal {number}"), string_entry(len(pool) + 1)]
    content = struct.pack(">HHI", stack, local, len(code)) + code + struct.pack(">HH", 0, 0)
    attribute = struct.pack(">HI", 7, len(content)) + content
    method = struct.pack(">HHHH", 0x0009, 5, 6, 1) + attribute
    return (
        struct.pack(">IHHH", 0xCAFEBABE, 0, 52, len(pool) + 1)
        + b"".join(pool)
        + struct.pack(">HHHHHH", 0x0021, 2, 4, 0, 0, 1)
        + method
        + struct.pack(">H", 0)
    )


def class_file(sums, literals=0):
    """Class Bench with the static method f, which adds its second argument so many times, and with so many literals."""
    code = bytes([ILOAD_0]) + bytes([ILOAD_1, IADD]) * sums + bytes([IRETURN])
    return class_of(code, "(II)I", 2, 2, literals)


def report(sums):
    """The report of the method of class_file(sums)."""
    lines = [
        "kiasan report 1",
        f"target {TARGET}",
        "init lazy k 3 array 3 alloc 16 loops 10 depth 16 steps 2000 paths 1000 budget 2000",
        "path -",
        "see a0 v0",
        "see a1 v1",
    ]
    last = "v0"
    for number in range(sums):
        lines.append(f"let t{number} add {last} v1")
        last = f"t{number}"
    lines += [f"returns {last}", "arg 0", "arg 0", "total 1 ended 1 cut 0 undecided 0 open 0"]
    return "".join(line + "\n" for line in lines).encode()


def timed_run(program, file):
    """The seconds of one run, its exit status and what it wrote."""
    words = [str(program), "explore", "--method", TARGET, str(file)]
    start = time.perf_counter()
    run = subprocess.run(words, stdin=subprocess.DEVNULL, capture_output=True)
    return time.perf_counter() - start, run.returncode, run.stdout


def measured(program, folder, runs):
    """The seconds of each run by the number of instructions; the sizes take turns."""
    methods = {2: 0} | {size: (size - 2) // 2 for size in SIZES}
    files = {size: folder / f"Bench{size}.class" for size in methods}
    seconds = {size: [] for size in methods}
    for size, sums in methods.items():
        files[size].write_bytes(class_file(sums))
    for _ in range(runs):
        for size, sums in methods.items():
            took, status, text = timed_run(program, files[size])
            if status != 0 or text != report(sums):
                first = text.split(b"\n")[0].decode(errors="replace")
                sys.exit(f"{size} instructions: status {status}, not the report that is expected: {first!r}")
            seconds[size].append(took)
    return seconds


def print_table(seconds):
    base = min(seconds[2])
    print(f"{'instructions':>12} {'least ms':>10} {'median ms':>10} {'us/instr':>10} {'to the line above':>18}")
    print(f"{2:>12} {base * 1e3:>10.2f} {statistics.median(seconds[2]) * 1e3:>10.2f}")
    before = None
    for size in SIZES:
        least = min(seconds[size])
        each = (least - base) / size
        ratio = f"{each / before:.2f}" if before and before > 0 else ""
        print(
            f"{size:>12} {least * 1e3:>10.2f} {statistics.median(seconds[size]) * 1e3:>10.2f}"
            f" {each * 1e6:>10.2f} {ratio:>18}"
        )
        before = each


def read_options(description, what, runs):
    """The words of a bench: how many runs of what, and the built program, which must be there."""
    words = argparse.ArgumentParser(description=description)
    words.add_argument("--runs", type=int, default=runs, help=f"runs of each {what} ({runs})")
    words.add_argument("--program", type=Path, default=ROOT / "build" / "kiasan", help="the built program")
    options = words.parse_args()
    if not options.program.is_file():
        sys.exit(f"{options.program} is not there: run ./kiasan once")
    if options.runs < 1:
        sys.exit("--runs must be at least 1")
    options.program = options.program.resolve()
    return options


def main():
    options = read_options("Times the built program on straight methods.", "method", 30)
    with tempfile.TemporaryDirectory() as folder:
        print_table(measured(options.program, Path(folder), options.runs))


if __name__ == "__main__":
    main()
