#!/usr/bin/env python3
"""Times the built program on many class files at once: what reading and linking them takes.

Each class has as many fields as methods, and in its constant pool a Fieldref or a Methodref for each. The classes stand
beside one another, or each extends the one before it, or each implements all before it that are interfaces. The program is
asked for a method that the first class does not have, so it reads and links the files and does little else. The time of one
class without members is taken off, since it is that of starting the program. Where the work is linear, twice the classes, or
twice the members, take about twice the time. Objects of a class at the end of a chain have the slots of all above it, and
each class keeps its own list of them, so a chain of twice the classes takes more than that.

Usage: bench/link.py [--runs N] [--program FILE]
Build the program first, by running ./kiasan once.
"""

import struct
import sys
import tempfile
from pathlib import Path

from class_files import attribute, method_entry, name_and_type, timed
from straight import class_entry, read_options, utf8

TARGET = "C0.none()I"
SIZES = [(16, 500), (32, 500), (64, 500), (64, 250), (64, 125)]
# access flags of a class, and of an interface (JVMS 8 table 4.1-A)
PUBLIC, INTERFACE = 0x0021, 0x0601


def field_entry(owner, member):
    return struct.pack(">BHH", 9, owner, member)


class Pool:
    """A constant pool: each entry is added once, and its number told."""

    def __init__(self):
        self.entries = []

    def add(self, entry):
        self.entries.append(entry)
        return len(self.entries)

    def named_class(self, name):
        return self.add(class_entry(self.add(utf8(name))))


def members(pool, owner, count):
    """Half as many fields of type int as members, and as many methods that return 0."""
    of_int, gives_int, code = pool.add(utf8("I")), pool.add(utf8("()I")), pool.add(utf8("Code"))
    content = struct.pack(">HHI", 1, 1, 2) + b"\x03\xac" + struct.pack(">HH", 0, 0)
    fields, methods = [], []
    for number in range(count // 2):
        name = pool.add(utf8(f"field{number}"))
        pool.add(field_entry(owner, pool.add(name_and_type(name, of_int))))
        fields.append(struct.pack(">HHHH", 0x0001, name, of_int, 0))
        name = pool.add(utf8(f"method{number}"))
        pool.add(method_entry(owner, pool.add(name_and_type(name, gives_int))))
        methods.append(struct.pack(">HHHH", 0x0001, name, gives_int, 1) + attribute(code, content))
    return fields, methods


def class_file(name, count, parent="java/lang/Object", interfaces=(), access=PUBLIC):
    pool = Pool()
    this, above = pool.named_class(name), pool.named_class(parent)
    listed = [pool.named_class(interface) for interface in interfaces]
    fields, methods = members(pool, this, count)
    return (
        struct.pack(">IHHH", 0xCAFEBABE, 0, 52, len(pool.entries) + 1)
        + b"".join(pool.entries)
        + struct.pack(">HHHH", access, this, above, len(listed))
        + b"".join(struct.pack(">H", number) for number in listed)
        + struct.pack(">H", len(fields))
        + b"".join(fields)
        + struct.pack(">H", len(methods))
        + b"".join(methods)
        + struct.pack(">H", 0)
    )


def beside(number, count):
    return class_file(f"C{number}", count)


def chain(number, count):
    return class_file(f"C{number}", count, parent=f"C{number - 1}" if number else "java/lang/Object")


def implementing(number, count):
    return class_file(f"C{number}", count, interfaces=[f"C{other}" for other in range(number)], access=INTERFACE)


SHAPES = {"beside one another": beside, "in a chain": chain, "implementing all before": implementing}


def write_classes(folder, shape, classes, count):
    files = []
    for number in range(classes):
        file = folder / f"C{number}.class"
        file.write_bytes(shape(number, count))
        files.append(file)
    return files


def timed_link(program, files):
    """The seconds of one run of the program, which must link the files and then not find the method."""
    took, status, text = timed([program, "explore", "--method", TARGET, *files])
    if not text.startswith(b"refused 45 "):
        sys.exit(f"{len(files)} files: status {status}, and they were not linked: {text[:80]!r}")
    return took


def least_seconds(program, shape, classes, count, runs):
    with tempfile.TemporaryDirectory() as folder:
        files = write_classes(Path(folder), shape, classes, count)
        size = sum(file.stat().st_size for file in files)
        return min(timed_link(program, files) for _ in range(runs)), size


def main():
    options = read_options("Times the built program on many class files at once.", "size", 5)
    start, _ = least_seconds(options.program, beside, 1, 0, options.runs)
    for name, shape in SHAPES.items():
        print(f"classes {name}")
        for classes, count in SIZES:
            took, size = least_seconds(options.program, shape, classes, count, options.runs)
            own = (took - start) * 1000
            print(f"  {classes:3} classes of {count:3} members, {size / 1e6:5.2f} MB: {own:7.1f} ms, {own * 1000 / (classes * count):5.2f} us a member")


if __name__ == "__main__":
    main()
