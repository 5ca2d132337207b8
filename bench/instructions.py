#!/usr/bin/env python3
"""Times the built program on class files whose methods have code of 65,535 bytes.

The code of each file is of one kind: instructions of one byte, branches, one tableswitch or one lookupswitch over nearly all
of it, and wide iincs, with a return at the end. A file has 4, 8 and 15 such methods, which is near 1 MiB. The program is
asked for a method that the class does not have, so it reads the file and its code and does little else. The time of a
small class file is taken off, since it is that of starting the program. Where decoding is linear, the time per byte is about
the same in each line of a kind.

Usage: bench/instructions.py [--runs N] [--program FILE]
Build the program first, by running ./kiasan once.
"""

import struct
import sys

from class_files import attribute, class_file, print_table
from straight import read_options

MOST_CODE = 65_535
COUNTS = [4, 8, 15]

NOP = b"\x00"
RETURN = b"\xb1"


def filled(front):
    """The code, with nops up to the most bytes of code and a return as the last."""
    return front + NOP * (MOST_CODE - 1 - len(front)) + RETURN


def branches():
    """Branches, each to the next instruction."""
    return filled(struct.pack(">Bh", 0xA7, 3) * ((MOST_CODE - 1) // 3))


def table_switch():
    count = (MOST_CODE - 20) // 4
    return filled(struct.pack(">BxxxiII", 0xAA, 0, 0, count - 1) + struct.pack(">i", 0) * count)


def lookup_switch():
    count = (MOST_CODE - 20) // 8
    pairs = b"".join(struct.pack(">ii", key, 0) for key in range(count))
    return filled(struct.pack(">BxxxiI", 0xAB, 0, count) + pairs)


def wide_increments():
    return filled(b"\xc4\x84\x01\x2c\xff\xfe" * ((MOST_CODE - 1) // 6))


KINDS = {
    "one byte": filled(b""),
    "branches": branches(),
    "tableswitch": table_switch(),
    "lookupswitch": lookup_switch(),
    "wide iinc": wide_increments(),
}


def with_methods(code, count):
    """Class Bench with so many methods that have this code."""
    content = struct.pack(">HHI", 1, 400, len(code)) + code + struct.pack(">HH", 0, 0)
    method = struct.pack(">HHHH", 0x0009, 8, 5, 1) + attribute(6, content)
    return class_file([], [method] * count, [])


HEADER = f"{'code':<14} {'methods':>8} {'bytes':>10} {'least ms':>10} {'median ms':>10} {'decoding ms':>12} {'ns/byte':>10}"


def line(label, length, times, own):
    kind, count = label
    return (
        f"{kind:<14} {count:>8} {length:>10} {times.least * 1e3:>10.2f} {times.median * 1e3:>10.2f}"
        f" {own * 1e3:>12.2f} {own / length * 1e9:>10.2f}"
    )


def main():
    options = read_options("Times the built program on methods of 65,535 bytes.", "file", 20)
    for kind, code in KINDS.items():
        if len(code) != MOST_CODE:
            sys.exit(f"{kind}: {len(code)} bytes of code")
    contents = {(kind, count): with_methods(code, count) for kind, code in KINDS.items() for count in COUNTS}
    print_table(options, contents, HEADER, line)


if __name__ == "__main__":
    main()
