#!/usr/bin/env python3
"""Times the built program on methods that reach many others: what looking at all that is reached takes.

In the first files, of one class, static method number i calls method i + 1 so many times, and the last one returns: each
method is reached once, and all their instructions are looked at. In the others a method calls a virtual method so many
times, in a world of so many classes that declare it, so that each call is looked at for each class. The methods are no heap
methods, since they call others, so the program refuses them by 50 once all is found well. The time of the same files with a
target that is not there is taken off, since it is that of reading and linking them.

Where the work is linear, the time for an instruction, or for a call and a class, is about the same in each line.

Usage: bench/reach.py [--runs N] [--program FILE]
Build the program first, by running ./kiasan once.
"""

import struct
import sys
import tempfile
from pathlib import Path

from class_files import attribute, method_entry, name_and_type, timed
from link import Pool, PUBLIC
from straight import read_options, utf8

STATIC, OPEN = 0x0009, 0x0001
CALLS = [(100, 100), (100, 1000), (1000, 100), (2000, 100)]
CLASSES = [(8, 1000), (16, 1000), (60, 1000), (60, 4000)]


class Writer:
    """A class that extends java/lang/Object, with methods from int to int."""

    def __init__(self, name):
        self.pool = Pool()
        self.this = self.pool.named_class(name)
        self.above = self.pool.named_class("java/lang/Object")
        self.code, self.kind = self.pool.add(utf8("Code")), self.pool.add(utf8("(I)I"))
        self.methods = []

    def named(self, text):
        return self.pool.add(utf8(text))

    def reference(self, owner, name):
        return self.pool.add(method_entry(owner, self.pool.add(name_and_type(name, self.kind))))

    def add(self, access, name, code, locals_most):
        content = struct.pack(">HHI", 2, locals_most, len(code)) + code + struct.pack(">HH", 0, 0)
        self.methods.append(struct.pack(">HHHH", access, name, self.kind, 1) + attribute(self.code, content))

    def bytes(self):
        front = struct.pack(">IHHH", 0xCAFEBABE, 0, 52, len(self.pool.entries) + 1) + b"".join(self.pool.entries)
        items = struct.pack(">HHHHHH", PUBLIC, self.this, self.above, 0, 0, len(self.methods))
        return front + items + b"".join(self.methods) + struct.pack(">H", 0)


def static_calls(methods, calls):
    """Class C: each method hands its argument through so many calls of the next one."""
    writer = Writer("C")
    names = [writer.named(f"m{number}") for number in range(methods)]
    following = [writer.reference(writer.this, name) for name in names[1:]]
    for number, name in enumerate(names):
        code = b"\x1a" + (struct.pack(">BH", 0xB8, following[number]) * calls if number + 1 < methods else b"") + b"\xac"
        writer.add(STATIC, name, code, 1)
    return [writer.bytes()]


def virtual_calls(classes, calls):
    """Class C, whose method m0 calls Object's equals on its argument so many times, and classes that declare it."""
    files = []
    for number in range(classes):
        writer = Writer(f"C{number}" if number else "C")
        equals, same = writer.named("equals"), writer.named("(Ljava/lang/Object;)Z")
        writer.kind = same
        writer.add(OPEN, equals, b"\x03\xac", 2)
        if number == 0:
            callee = writer.reference(writer.above, equals)
            name, writer.kind = writer.named("m0"), writer.named("(I)I")
            code = (b"\x01\x01" + struct.pack(">BH", 0xB6, callee) + b"\x57") * calls + b"\x1a\xac"
            writer.add(STATIC, name, code, 1)
        files.append(writer.bytes())
    return files


def least_seconds(program, target, files, wanted, runs):
    def once():
        took, status, text = timed([program, "explore", "--method", target, *files])
        if not text.startswith(wanted):
            sys.exit(f"{len(files)} files: status {status}, {text[:80]!r}")
        return took

    return min(once() for _ in range(runs))


def own_seconds(program, contents, runs):
    """The time that looking at what C.m0 reaches takes beside reading and linking."""
    with tempfile.TemporaryDirectory() as folder:
        files = [Path(folder) / f"{number}.class" for number in range(len(contents))]
        for file, content in zip(files, contents):
            file.write_bytes(content)
        whole = least_seconds(program, "C.m0(I)I", files, b"refused 50", runs)
        return whole - least_seconds(program, "C.none()I", files, b"refused 45 ", runs)


def main():
    options = read_options("Times the built program on methods that reach many others.", "size", 5)
    print("static calls, each method calls the next one")
    for methods, calls in CALLS:
        own = own_seconds(options.program, static_calls(methods, calls), options.runs)
        print(f"  {methods:5} methods of {calls:5} calls: {own * 1000:8.2f} ms, {own * 1e9 / (methods * calls):7.1f} ns a call")
    print("virtual calls, of a method that each class declares")
    for classes, calls in CLASSES:
        own = own_seconds(options.program, virtual_calls(classes, calls), options.runs)
        print(f"  {classes:5} classes, {calls:5} calls: {own * 1000:8.2f} ms, {own * 1e9 / (classes * calls):7.1f} ns a call and class")


if __name__ == "__main__":
    main()
