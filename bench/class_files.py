#!/usr/bin/env python3
"""Times the built program on class files of near 1 MiB, beside cat of the same file.

One file has a pool of Utf8, Class, NameAndType and Methodref entries, one a pool of as many entries as there are numbers, one
many methods with handlers and skipped attributes, and one is a single attribute that is skipped. Each is read from half
its length and from its whole length. The program is asked for a method that the class does not have, so it reads the file
and does little else. The time of a small class file is taken off, since it is that of starting the program. Where the
work is linear, a file of half the length takes about half the time.

Usage: bench/class_files.py [--runs N] [--program FILE]
Build the program first, by running ./kiasan once.
"""

import statistics
import struct
import subprocess
import sys
import tempfile
import time
from dataclasses import dataclass
from pathlib import Path

from straight import class_entry, read_options, utf8

MOST_BYTES = 1 << 20
MOST_NUMBERS = 65_535
TARGET = "Bench.none()I"
# none of these answers tells of a fault that is found before all is read and decoded: the method is not found, or two methods
# have one name and descriptor
ALL_READ = {"refused 45", "refused 37"}


def name_and_type(name, kind):
    return struct.pack(">BHH", 12, name, kind)


def method_entry(owner, member):
    return struct.pack(">BHH", 10, owner, member)


def attribute(name, content):
    return struct.pack(">HI", name, len(content)) + content


def class_file(entries, methods, attributes):
    """Class Bench with these entries behind those that each class here has (1 to 8), and with these items."""
    pool = [
        utf8("Bench"),
        class_entry(1),
        utf8("java/lang/Object"),
        class_entry(3),
        utf8("()I"),
        utf8("Code"),
        utf8("Skipped"),
        utf8("f"),
    ] + entries
    return (
        struct.pack(">IHHH", 0xCAFEBABE, 0, 52, len(pool) + 1)
        + b"".join(pool)
        + struct.pack(">HHHHHH", 0x0021, 2, 4, 0, 0, len(methods))
        + b"".join(methods)
        + struct.pack(">H", len(attributes))
        + b"".join(attributes)
    )


def large_pool(size):
    """Names, each with a Class, a NameAndType and a Methodref, up to about that size."""
    entries = []
    length = 100
    while True:
        first = 9 + len(entries)
        text = f"company/product/package/of/many/classes/Name{first:05}"
        more = [utf8(text), class_entry(first), name_and_type(8, 5), method_entry(first + 1, first + 2)]
        length += sum(map(len, more))
        if length > size or first + len(more) > MOST_NUMBERS - 1:
            return class_file(entries, [], [])
        entries += more


def full_pool(size):
    """As many Utf8 entries as there are numbers, or half of them for half the size."""
    count = (MOST_NUMBERS - 9) * size // MOST_BYTES
    each = (size - 100) // count - 3
    return class_file([utf8("x" * each)] * count, [], [])


def many_methods(size):
    """Methods with two instructions, one handler, and an attribute beside the Code and in it."""
    table = struct.pack(">HHHHH", 1, 0, 1, 1, 2)
    content = struct.pack(">HHI", 1, 0, 2) + b"\x03\xac" + table + struct.pack(">H", 1) + attribute(7, b"\0" * 6)
    method = struct.pack(">HHHH", 0x0009, 8, 5, 2) + attribute(6, content) + attribute(7, b"")
    return class_file([], [method] * ((size - 100) // len(method)), [])


def one_attribute(size):
    return class_file([], [], [attribute(7, b"\0" * (size - 100))])


SHAPES = {
    "large pool": large_pool,
    "full pool": full_pool,
    "many methods": many_methods,
    "one attribute": one_attribute,
}


def timed(words):
    """The seconds of one run, its exit status and what it wrote."""
    start = time.perf_counter()
    run = subprocess.run(words, stdin=subprocess.DEVNULL, capture_output=True)
    return time.perf_counter() - start, run.returncode, run.stdout


def timed_read(program, file):
    """The seconds of one run of the program, which must read the whole file and then refuse the words."""
    took, status, text = timed([program, "explore", "--method", TARGET, file])
    if " ".join(text.decode(errors="replace").split()[:2]) not in ALL_READ:
        sys.exit(f"{file.name}: status {status}, and the file was not read: {text[:80]!r}")
    return took


@dataclass(frozen=True)
class Times:
    """The seconds of the runs on a file: the least of the program and of cat, and the program's median."""

    least: float
    copied: float
    median: float


def times_of(program, files, runs):
    """The times of each file; the files take turns."""
    reads = {file: [] for file in files}
    copies = {file: [] for file in files}
    for _ in range(runs):
        for file in files:
            reads[file].append(timed_read(program, file))
            copies[file].append(timed(["cat", file])[0])
    return {file: Times(min(reads[file]), min(copies[file]), statistics.median(reads[file])) for file in files}


def print_table(options, contents, header, line):
    """Times the program on class files with these contents by their labels, and prints a line for each, under the header.
    What starting the program takes is that of a small class file."""
    with tempfile.TemporaryDirectory() as folder:
        small = Path(folder) / "small.class"
        small.write_bytes(class_file([], [], []))
        labels = {}
        for number, (label, content) in enumerate(contents.items()):
            file = Path(folder) / f"{number}.class"
            file.write_bytes(content)
            labels[file] = label
        times = times_of(options.program, [small, *labels], options.runs)
        start = times[small].least
        print(f"starting the program: {start * 1e3:.2f} ms")
        print(header)
        for file, label in labels.items():
            own = max(times[file].least - start, 1e-9)
            print(line(label, file.stat().st_size, times[file], own))


HEADER = f"{'file':<14} {'bytes':>10} {'least ms':>10} {'median ms':>10} {'cat ms':>10} {'reading ms':>10} {'MB/s':>8}"


def line(label, length, times, own):
    return (
        f"{label[0]:<14} {length:>10} {times.least * 1e3:>10.2f} {times.median * 1e3:>10.2f} {times.copied * 1e3:>10.2f}"
        f" {own * 1e3:>10.2f} {length / own / 1e6:>8.0f}"
    )


def main():
    options = read_options("Times the built program on large class files.", "file", 20)
    contents = {(shape, size): made(size) for shape, made in SHAPES.items() for size in [MOST_BYTES // 2, MOST_BYTES]}
    print_table(options, contents, HEADER, line)


if __name__ == "__main__":
    main()
