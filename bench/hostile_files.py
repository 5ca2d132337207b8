#!/usr/bin/env python3
"""Measures how time and memory grow on class files that keep all rules but are hostile: long texts that many items share, many
overloads of one name, many array types, many short entries of a pool, many handlers, many switches, and names that share a hash.

Each family has three sizes, a quarter, half and all of it, and beside each size its twin: the same files with long texts cut to
three bytes, overloads with names of their own, array types that are only texts, which nothing names, and names of other hashes. For
each the script prints

- the processor time of the built program, the least of some runs, less that of its start;
- how many times that of half the size it is (goal: at most 2.4);
- how many times that of the twin it is, without what reading takes (goal: at most 2), and both. Reading is the time of files of
  the same lengths whose long texts are entries that nothing names, and of tests that of a text whose last line is no line;
- the most memory that the program had (goal: 100 times the bytes of the files, 64 bytes for each class and slot and for each class
  and method that can be selected in it, and 10 KB for each array type of the universe).

A run that takes more than its time or memory is ended and told as `over`, and so are the larger sizes of its family.

Usage: bench/hostile_files.py [--runs N] [--program FILE] [--seconds N] [--memory MIB] [--least SHARE] [--most SHARE] [FAMILY ..]
Build the program first, by running ./kiasan once. `--most 0.25` runs the quarter sizes alone, `--least 1` the full ones. Names that
share a hash are looked for by a program in C (same_hash.c), which needs a compiler, `cc`, and half a minute.
"""

import argparse
import os
import resource
import struct
import subprocess
import sys
import tempfile
from dataclasses import dataclass, field
from functools import cache
from pathlib import Path

from class_files import attribute, method_entry, name_and_type
from link import PUBLIC, Pool, field_entry
from needed import TIME, built_program, check_time
from straight import ROOT, class_entry, string_entry, utf8

SHARES = [0.25, 0.5, 1.0]
HALF_GOAL, TWIN_GOAL = 2.4, 2.0
LONGEST = 65_535
MOST_BYTES = 1 << 20
TEXT_BYTES = 1 << 26
# access flags of classes and methods (JVMS 8 tables 4.1-A and 4.6-A)
ABSTRACT_CLASS, OPEN, STATIC, ABSTRACT, PACKAGE = 0x0421, 0x0001, 0x0009, 0x0401, 0x0400
INVOKEVIRTUAL, INVOKESTATIC, NEW, POP, RETURN = 0xB6, 0xB8, 0xBB, 0x57, 0xB1
ALOAD_0, GETFIELD, CHECKCAST = 0x2A, 0xB4, 0xC0
ACONST_NULL, ICONST_0, ATHROW, LOOKUPSWITCH = 0x01, 0x03, 0xBF, 0xAB
# the most calls of three bytes in one method, beside the one that leads on and the return
CALLS_IN_METHOD = 21_840
PLATFORM = (
    "java/lang/Object java/lang/String java/lang/Throwable java/lang/Exception java/lang/RuntimeException java/lang/Error"
    " java/lang/ArithmeticException java/lang/IndexOutOfBoundsException java/lang/ArrayIndexOutOfBoundsException"
    " java/lang/ArrayStoreException java/lang/ClassCastException java/lang/IllegalArgumentException"
    " java/lang/IllegalStateException java/lang/NegativeArraySizeException java/lang/NullPointerException"
    " java/lang/UnsupportedOperationException java/lang/Cloneable java/lang/Comparable java/util/NoSuchElementException"
    " java/io/Serializable"
).split()
# the number by which the hash of a name multiplies: a name that ends with its bytes has the hash 0, whatever stands before them
MULTIPLIER = bytes.fromhex("157c4a7fb979379e").decode(errors="surrogateescape")
# how many texts of one hash there are, and the bits by which a table of so many has its groups
SHARING, GROUP_BITS = 16_000, 11
LETTERS = "abcdefghijklmnopqrstuvwxyzABCDEFGHIJKLMNOPQRSTUVWXYZ0123456789"
TYPES = "BCDFIJSZ"


def short_name(number):
    """A name of three bytes of its own, for each number below 238,328."""
    return LETTERS[number // 3844] + LETTERS[number // 62 % 62] + LETTERS[number % 62]


def overload(number):
    """A descriptor of its own, for each number below 262,144."""
    return "(" + "".join(TYPES[number >> shift & 7] for shift in (15, 12, 9, 6, 3, 0)) + ")V"


class ClassFile:
    """A class that grows. Each entry of its pool stands there once, but for references and strings that are added again."""

    def __init__(self, name, parent="java/lang/Object", access=PUBLIC):
        self.name, self.pool, self.numbers, self.access, self.fields, self.methods = name, Pool(), {}, access, [], []
        self.this, self.above = self.named(name), self.named(parent)

    def once(self, said, make):
        """The number of the entry that says so; `make` makes it where it is not there yet."""
        if said not in self.numbers:
            self.numbers[said] = self.pool.add(make(said))
        return self.numbers[said]

    def text(self, text):
        return self.once(text, utf8)

    def named(self, name):
        return self.once((self.text(name),), lambda said: class_entry(*said))

    def add_reference(self, owner, name, kind, entry=method_entry):
        member = self.once((self.text(name), self.text(kind)), lambda said: name_and_type(*said))
        return self.pool.add(entry(owner, member))

    def add_field(self, name, kind):
        self.fields.append(struct.pack(">HHHH", OPEN, self.text(name), self.text(kind), 0))

    def add_string(self, text):
        return self.pool.add(string_entry(self.text(text)))

    def add_method(self, access, name, kind, code=None, most_locals=0, handlers=b""):
        attributes = b""
        if code is not None:
            content = struct.pack(">HHI", 2, most_locals, len(code)) + code
            content += struct.pack(">H", len(handlers) // 8) + handlers + struct.pack(">H", 0)
            attributes = attribute(self.text("Code"), content)
        front = struct.pack(">HHHH", access, self.text(name), self.text(kind), 0 if code is None else 1)
        self.methods.append(front + attributes)

    def bytes(self, skipped=b""):
        attributes = [skipped] if skipped else []
        whole = (
            struct.pack(">IHHH", 0xCAFEBABE, 0, 52, len(self.pool.entries) + 1)
            + b"".join(self.pool.entries)
            + struct.pack(">HHHHH", self.access, self.this, self.above, 0, len(self.fields))
            + b"".join(self.fields)
            + struct.pack(">H", len(self.methods))
            + b"".join(self.methods)
            + struct.pack(">H", len(attributes))
            + b"".join(attributes)
        )
        assert len(whole) <= MOST_BYTES and len(self.pool.entries) < LONGEST and len(self.methods) <= LONGEST, len(whole)
        return whole


@dataclass(frozen=True)
class Case:
    """Class files with what is asked of the program: a method, or a text of tests; or an assembler text. `entries` counts each class
    with each slot and each method that can be selected in it, `arrays` the array types of the universe."""

    files: list
    target: str = ""
    tests: bytes = b""
    assembly: bytes = b""
    wanted: bytes = b"refused 45 "
    entries: int = 0
    arrays: int = 0
    texts: list = field(default_factory=list)

    @property
    def size(self):
        return sum(map(len, self.files)) + len(self.tests) + len(self.assembly)

    @property
    def memory_goal(self):
        return 100 * self.size + 64 * self.entries + 10_000 * self.arrays

    def words(self, folder):
        """Writes what is asked about into a folder, and returns the words of the call."""
        if self.assembly:
            (folder / "text").write_bytes(self.assembly)
            return ["assemble", str(folder / "text")]
        files = [folder / f"{number}.class" for number in range(len(self.files))]
        for file, content in zip(files, self.files):
            file.write_bytes(content)
        asked = ["explore", "--method", self.target]
        if self.tests:
            (folder / "tests").write_bytes(self.tests)
            asked = ["replay", "--tests", str(folder / "tests")]
        return [*asked, *map(str, files)]

    def read_alone(self):
        """Files of the same lengths whose long texts nothing names; texts of the same length whose last line is no line."""
        if self.assembly:
            return Case([], assembly=self.assembly + b"bad\n", wanted=b"refused 30 line ")
        if self.tests:
            cut = self.tests[: self.tests.rindex(b"end\n")] + b"bad\n"
            return Case(self.files, tests=cut, wanted=b"refused 60 ")
        files = [padded(f"R{number}", texts, len(file)) for number, (file, texts) in enumerate(zip(self.files, self.texts))]
        return Case(files, target="R0.none()I")


def padded(name, texts, length):
    """A class of so many bytes with these texts, which nothing names, and an attribute that is skipped."""
    file = ClassFile(name)
    for text in texts:
        file.text(text)
    skipped = file.text("Skipped")
    left = length - len(file.bytes()) - 6
    return file.bytes(attribute(skipped, b"\0" * left)) if left >= 0 else file.bytes()


# ---- the families: each makes its case of a share and says whether it is the twin


def long_descriptor(is_twin):
    return "()V" if is_twin else "(" + "I" * (LONGEST - 3) + ")V"


def long_name(is_twin, length=LONGEST):
    return "abc" if is_twin else "n" * length


def methods(share, is_twin):
    """60,000 methods of one descriptor of 65,535 bytes."""
    count, kind = int(60_000 * share), long_descriptor(is_twin)
    file = ClassFile("H", access=ABSTRACT_CLASS)
    for number in range(count):
        file.add_method(ABSTRACT, short_name(number), kind)
    return Case([file.bytes()], "H.none()I", entries=count, texts=[[kind]])


def references_class(name, parent, count, member):
    file = ClassFile(name, parent)
    for _ in range(count):
        file.add_reference(file.this, member, "()V")
    return file.bytes()


def references(share, is_twin):
    """65,000 Methodrefs of one name of 65,535 bytes."""
    member = long_name(is_twin)
    return Case([references_class("H", "java/lang/Object", int(65_000 * share), member)], "H.none()I", texts=[[member]])


def references_chain(share, is_twin):
    """64 classes in a chain, each with 65,000 such Methodrefs."""
    count, member = int(64 * share), long_name(is_twin)
    parents = ["java/lang/Object"] + [f"H{number}" for number in range(count)]
    files = [references_class(f"H{number}", parents[number], 65_000, member) for number in range(count)]
    return Case(files, "H0.none()I", texts=[[member]] * count)


def strings_class(name, count, text):
    file = ClassFile(name)
    for _ in range(count):
        file.add_string(text)
    return file.bytes()


def literals(share, is_twin):
    """65,000 String entries of one text of 65,535 bytes."""
    text = long_name(is_twin)
    return Case([strings_class("H", int(65_000 * share), text)], "H.none()I", texts=[[text]])


def literals_beside(share, is_twin):
    """64 classes, each with 65,000 such String entries."""
    count, text = int(64 * share), long_name(is_twin)
    return Case([strings_class(f"H{number}", 65_000, text) for number in range(count)], "H0.none()I", texts=[[text]] * count)


def add_overloads(file, access, numbers, is_twin):
    """Adds methods of one name, or of names of their own."""
    for number in numbers:
        if is_twin:
            file.add_method(access, f"m{number}", "()V")
        else:
            file.add_method(access, "m", overload(number))


def overloads(share, is_twin):
    """30,000 overloads of one name, and 35,000 Methodrefs to the last of them."""
    count, references = int(30_000 * share), int(35_000 * share)
    file = ClassFile("H", access=ABSTRACT_CLASS)
    add_overloads(file, ABSTRACT, range(count), is_twin)
    for place in range(references - 500):
        number = count - 1 - place % 500
        file.add_reference(file.this, f"m{number}" if is_twin else "m", "()V" if is_twin else overload(number))
    return Case([file.bytes()], "H.none()I", entries=count, texts=[[]])


def packages(share, is_twin, classes, count):
    """Overloads that only classes of their package may override, in a chain whose packages alternate."""
    names = [f"{'pq'[number % 2]}/H{number}" for number in range(classes)]
    parents = ["java/lang/Object"] + names
    files = []
    for number, name in enumerate(names):
        file = ClassFile(name, parents[number], ABSTRACT_CLASS)
        add_overloads(file, PACKAGE, range(count * number, count * (number + 1)), is_twin)
        files.append(file.bytes())
    entries = sum(count * (number + 1) for number in range(classes))
    return Case(files, f"{names[0]}.none()I", entries=entries, texts=[[]] * classes)


def two_packages(share, is_twin):
    """30,000 overloads of one name in each of two classes, one above the other in another package."""
    return packages(share, is_twin, 2, int(30_000 * share))


def packages_chain(share, is_twin):
    """4,000 overloads of one name in each of eight classes in a chain whose packages alternate."""
    return packages(share, is_twin, 8, int(4_000 * share))


def add_calls(file, count, call, leads_to=None):
    """Adds static methods m0, m1 and so on that make so many times what the three bytes do, each leading on to the next one, and
    the last one to the method of that entry."""
    add_call_list(file, [call] * count, leads_to)


def add_call_list(file, calls, leads_to=None):
    """The same for what these do, three bytes each."""
    count = len(calls) // CALLS_IN_METHOD + 1
    for number in range(count):
        leads = leads_to if number + 1 == count else file.add_reference(file.this, f"m{number + 1}", "()V")
        on = struct.pack(">BH", INVOKESTATIC, leads) if leads else b""
        part = calls[CALLS_IN_METHOD * number : CALLS_IN_METHOD * (number + 1)]
        file.add_method(STATIC, f"m{number}", "()V", b"".join(part) + on + bytes([RETURN]))


def calls(share, is_twin):
    """305,000 static calls of one method with 65,532 parameters."""
    kind = long_descriptor(is_twin)
    file = ClassFile("H")
    file.add_method(STATIC, "f", kind, bytes([RETURN]), LONGEST - 3)
    called = file.add_reference(file.this, "f", kind)
    add_calls(file, int(305_000 * share), struct.pack(">BH", INVOKESTATIC, called))
    return Case([file.bytes()], "H.m0()V", wanted=b"refused 50", texts=[[kind]])


def with_arrays(share, is_twin, files):
    """These classes and others, 64 at the most, that name the array types of up to 255 dimensions over each of them, over the
    platform's classes, int and boolean: 21,930 types. Of a twin they are texts that nothing names, but for the last one. Returns
    the files, the texts that are long in each, and that last type."""
    count = int(86 * share)
    files = files + [ClassFile(f"A{number:02}") for number in range(min(count, 64) - len(files))]
    own = [f"L{file.name};" for file in files]
    others = [f"L{name};" for name in PLATFORM] + ["I", "Z"]
    bases = (own + others)[:count]
    last = max("[" * 255 + base for base in bases)
    texts = [[] for _ in files]
    for number, base in enumerate(bases):
        place = number % len(files)
        for dims in range(1, 256):
            kind = "[" * dims + base
            texts[place].append(kind)
            if is_twin and kind != last:
                files[place].text(kind)
            else:
                files[place].named(kind)
    return [file.bytes() for file in files], texts, last


def virtual_calls(share, is_twin):
    """350,000 virtual calls beside 21,930 named array types."""
    count = int(350_000 * share)
    low, high = ClassFile("V"), ClassFile("W")
    low.add_method(OPEN, "v", "()V", bytes([RETURN]), 1)
    for file, part, leads in [(low, count // 2, low.add_reference(low.named("W"), "m0", "()V")), (high, count - count // 2, None)]:
        called = file.add_reference(file.named("V"), "v", "()V")
        add_calls(file, part, struct.pack(">BH", INVOKEVIRTUAL, called), leads)
    files, texts, _ = with_arrays(share, is_twin, [low, high])
    return Case(files, "V.m0()V", wanted=b"refused 50", arrays=1 if is_twin else sum(map(len, texts)), entries=2, texts=texts)


def receivers(share, is_twin):
    """Virtual calls of 65,000 Methodrefs, each with 63 classes in a chain as receivers, whose names have 65,535 bytes."""
    names = [short_name(number) if is_twin else "n" * (LONGEST - 3) + short_name(number) for number in range(63)]
    caller = ClassFile("C")
    owner, count = caller.named(names[0]), int(65_000 * share)
    code = [struct.pack(">BH", INVOKEVIRTUAL, caller.add_reference(owner, "v", "()V")) for _ in range(count - 10)]
    add_call_list(caller, code)
    files, parents = [caller], ["java/lang/Object"] + names
    for number, name in enumerate(names):
        file = ClassFile(name, parents[number])
        file.add_method(OPEN, "v", "()V", bytes([RETURN]), 1)
        files.append(file)
    texts = [[names[0]], *([name, above] for name, above in zip(names, parents))]
    return Case([file.bytes() for file in files], "C.m0()V", wanted=b"refused 50", entries=len(names), texts=texts)


def arrays(share, is_twin):
    """255 array descriptors over one class name of 65,000 bytes."""
    name = long_name(is_twin, 65_000)
    kinds = ["[" * dims + f"L{name};" for dims in range(1, int(255 * share) + 1)]
    texts = [kinds[start : start + 15] for start in range(0, len(kinds), 15)]
    files = [ClassFile(f"A{number}") for number in range(len(texts))]
    for file, part in zip(files, texts):
        for kind in part:
            file.named(kind)
    contents = [file.bytes() for file in [*files, ClassFile(name)]]
    return Case(contents, "A0.none()I", arrays=len(kinds), texts=[*texts, [name]])


def test_lines(target, *lines):
    return "\n".join([f"test {target}", "bounds alloc 16 loops 10 depth 16 steps 50000", *lines, "end", ""]).encode()


def passing(count):
    """The answer to so many tests that pass."""
    lines = "".join(f"test {number} passes\n" for number in range(count))
    return (lines + f"tests {count} passed {count} differed 0\n").encode()


def test_of(kinds):
    """A test of a method that does nothing, with an empty array of each of these types in its input."""
    inputs = [f"in i{number} {kind}" for number, kind in enumerate(kinds)]
    return test_lines("T.f()V", *inputs, "returns", *(f"out i{number}" for number in range(len(kinds))))


def tests(share, is_twin):
    """Tests of 64 MiB beside 21,930 array types: each object of an input is asked whether its type is of the universe."""
    file = ClassFile("T")
    file.add_method(STATIC, "f", "()V", bytes([RETURN]))
    files, texts, last = with_arrays(share, is_twin, [file])
    test = test_of([last] * 100)
    count = int(TEXT_BYTES * share) // len(test)
    arrays = 1 if is_twin else sum(map(len, texts))
    return Case(files, tests=test * count, wanted=passing(count), arrays=arrays)


def creations(share, is_twin):
    """30,000 `new` of a class whose name has 65,535 bytes, in code that is reached."""
    name = long_name(is_twin)
    made, file = ClassFile(name), ClassFile("H")
    add_calls(file, int(30_000 * share), struct.pack(">BH", NEW, file.named(name)))
    return Case([file.bytes(), made.bytes()], "H.m0()V", wanted=b"refused 50", texts=[[name], [name]])


def making(name, count):
    """Class H, whose method m makes so many objects of the class of that name, and that class."""
    made, file = ClassFile(name), ClassFile("H")
    create = struct.pack(">BHB", NEW, file.named(name), POP)
    file.add_method(STATIC, "m", "()V", create * count + bytes([RETURN]))
    return [file.bytes(), made.bytes()]


def made_objects(share, is_twin):
    """100 tests of a method that makes 10 objects of a class whose name has 65,535 bytes: a test lists all that it makes."""
    name, count = long_name(is_twin), int(100 * share)
    test = test_lines("H.m()V", "returns", *(f"new n{number} {name}" for number in range(10)))
    return Case(making(name, 10), tests=test * count, wanted=passing(count))


def answers(share, is_twin):
    """8 tests that differ, of a method that makes 1,025 objects of such a class: the answer lists all of them, 67 MB a test."""
    name, count = long_name(is_twin), int(8 * share)
    front = f"test 0 differs\nreturns\nnew n0 {name}\n".encode()
    return Case(making(name, 1_025), tests=test_lines("H.m()V", "past steps") * count, wanted=front)


def spelled(name):
    """A name as texts of tests have it: a byte that may not stand for itself by its number."""
    plain = (LETTERS + "_$/<>-").encode()
    return "".join(chr(byte) if byte in plain else f"%{byte:02X}" for byte in name.encode(errors="surrogateescape"))


def uses_of(names, count, repeats):
    """So many tests of a method that reads a field of an object of the last of these classes, casts it and calls it, so often each."""
    made, file = [ClassFile(name) for name in names], ClassFile("H")
    made[-1].add_field("f", "I")
    made[-1].add_method(OPEN, "v", "()V", bytes([RETURN]), 1)
    owner = file.named(names[-1])
    read, called = file.add_reference(owner, "f", "I", field_entry), file.add_reference(owner, "v", "()V")
    each = struct.pack(">BBHB", ALOAD_0, GETFIELD, read, POP)
    each += struct.pack(">BBHB", ALOAD_0, CHECKCAST, file.named("java/lang/Object"), POP)
    each += struct.pack(">BBH", ALOAD_0, INVOKEVIRTUAL, called)
    file.add_method(STATIC, "m", "(Ljava/lang/Object;)V", each * repeats + bytes([RETURN]), 1)
    test = test_lines("H.m(Ljava/lang/Object;)V", "arg i0", f"in i0 {spelled(names[-1])} 0", "returns", "out i0 0")
    return Case([used.bytes() for used in [file, *made]], tests=test * count, wanted=passing(count))


def uses(share, is_twin):
    """8 tests of a method that reads a field of an object of such a class, casts it and calls it, 4,000 times each."""
    return uses_of([long_name(is_twin)], int(8 * share), 4_000)


@cache
def texts_of_one_hash():
    """Texts of seven letters that stand at one place of the program's tables."""
    with tempfile.TemporaryDirectory() as folder:
        search = Path(folder) / "same_hash"
        subprocess.run(["cc", "-O3", "-o", search, Path(__file__).with_name("same_hash.c")], check=True)
        found = subprocess.run([search, str(SHARING), str(GROUP_BITS)], check=True, stdout=subprocess.PIPE, text=True)
    return found.stdout.split()


def texts_of(share, is_twin):
    count = int(SHARING * share)
    return [f"a{number:06}" for number in range(count)] if is_twin else texts_of_one_hash()[:count]


def same_hash(share, is_twin):
    """16,000 fields whose names share a hash, as far as a table looks at it; the names of the twin do not."""
    file, names = ClassFile("H"), texts_of(share, is_twin)
    for name in names:
        file.add_field(name, "I")
    return Case([file.bytes()], "H.none()I", entries=len(names), texts=[[]])


def same_hash_assembly(share, is_twin):
    """The assembler text of such a class."""
    lines = ["class 0021 H java/lang/Object", *(f"field 0001 {name} I" for name in texts_of(share, is_twin))]
    return Case([], assembly="".join(f"{line}\n" for line in lines).encode(), wanted=b"\xca\xfe\xba\xbe")


def same_hash_classes(share, is_twin):
    """8 tests that use an object of the last of 62 classes 1,000 times each; the names of all have 65,535 bytes and one hash."""
    end = "n" * len(MULTIPLIER) if is_twin else MULTIPLIER
    names = ["n" * (LONGEST - 3 - len(end)) + short_name(number) + end for number in range(62)]
    return uses_of(names, int(8 * share), 1_000)


def one_byte_entries(share, is_twin):
    """65,000 texts of one byte; the twin has as many bytes of text in few entries."""
    count, file = int(65_000 * share), ClassFile("H")
    if is_twin:
        for start in range(0, 4 * count, LONGEST):
            file.pool.add(utf8("n" * min(LONGEST, 4 * count - start)))
    else:
        for number in range(count):
            file.pool.add(utf8(LETTERS[number % len(LETTERS)]))
    return Case([file.bytes()], "H.none()I", texts=[[]])


def handlers(share, is_twin):
    """A test of a method with 65,535 handlers, which throws 1,000 times and is caught by the last of them; the twin has that one alone."""
    count, file = 0 if is_twin else int(65_534 * share), ClassFile("H")
    other = file.named("java/lang/ClassCastException")
    rows = struct.pack(">HHHH", 0, 2, 0, other) * count + struct.pack(">HHHH", 0, 2, 0, 0)
    file.add_method(STATIC, "m", "()V", bytes([ACONST_NULL, ATHROW]), handlers=rows)
    test = ["test H.m()V", "bounds alloc 16 loops 1000 depth 16 steps 50000", "past steps", "end", ""]
    return Case([file.bytes()], tests="\n".join(test).encode(), wanted=b"test 0 differs\npast loops\n")


def switches_code():
    """Switches without a pair, side by side, each leading to the next one."""
    code = b""
    while len(code) < LONGEST - 20:
        pads = 3 - (len(code) + 1) % 4
        code += bytes([ICONST_0, LOOKUPSWITCH]) + bytes(pads) + struct.pack(">iI", 1 + pads + 8, 0)
    return code + bytes([RETURN])


def switches(share, is_twin):
    """15 methods of 65,535 bytes of switches side by side; the twin has instructions of one byte."""
    file, code = ClassFile("H"), switches_code()
    for number in range(int(15 * share)):
        file.add_method(STATIC, f"m{number}", "()V", bytes(len(code) - 1) + code[-1:] if is_twin else code)
    return Case([file.bytes()], "H.none()I", entries=int(15 * share), texts=[[]])


FAMILIES = [
    methods,
    references,
    references_chain,
    literals,
    literals_beside,
    overloads,
    two_packages,
    packages_chain,
    calls,
    virtual_calls,
    receivers,
    arrays,
    tests,
    creations,
    made_objects,
    answers,
    uses,
    one_byte_entries,
    handlers,
    switches,
    same_hash,
    same_hash_assembly,
    same_hash_classes,
]


# ---- runs


@dataclass(frozen=True)
class Run:
    """The processor seconds of a run, the most bytes that it had, and whether it came to an end."""

    seconds: float
    memory: int
    is_over: bool = False


def limited(options):
    """Sets the limits of a child."""

    def set_limits():
        resource.setrlimit(resource.RLIMIT_CPU, (options.seconds, options.seconds + 1))
        resource.setrlimit(resource.RLIMIT_AS, (options.memory << 20, options.memory << 20))

    return set_limits


def run_once(options, words, wanted, folder):
    """One run. Its output begins with what is wanted, unless it went past a limit."""
    told = folder / "memory"
    timed = [TIME, "--quiet", "--format", "%M", "--output", str(told), str(options.program), *words]
    with open(folder / "stdout", "w+b") as out:
        child = subprocess.Popen(timed, stdin=subprocess.DEVNULL, stdout=out, stderr=subprocess.DEVNULL, preexec_fn=limited(options))
        _, status, used = os.wait4(child.pid, 0)
        child.returncode = os.waitstatus_to_exitcode(status)
        out.seek(0)
        text = out.read(len(wanted))
    memory = int(told.read_text().splitlines()[-1]) << 10
    run = Run(used.ru_utime + used.ru_stime, memory, child.returncode > 128 or child.returncode == 8)
    if not run.is_over and text != wanted:
        sys.exit(f"{' '.join(words)[:200]}: status {child.returncode}, and not what is wanted: {text[:80]!r}")
    return run


def least_run(options, case):
    """The run of a case that took the least time, or one that was over."""
    with tempfile.TemporaryDirectory() as name:
        folder = Path(name)
        words, runs = case.words(folder), []
        for _ in range(options.runs):
            runs.append(run_once(options, words, case.wanted, folder))
            if runs[-1].is_over:
                return runs[-1]
    return min(runs, key=lambda run: run.seconds)


def ratio(above, below):
    return f"{above / below:.2f}" if below > 1e-4 else "-"


class Table:
    """A line for each size of each family."""

    def __init__(self, options):
        self.options = options
        self.start = least_run(options, Case([ClassFile("H").bytes()], "H.none()I")).seconds

    def own(self, case):
        run = least_run(self.options, case)
        return run, max(run.seconds - self.start, 0.0)

    def print_family(self, family):
        print(f"{family.__name__}: {family.__doc__.splitlines()[0]}", flush=True)
        before = None
        for share in [share for share in SHARES if self.options.least <= share <= self.options.most]:
            before = self.print_size(family, share, before)
            if before is None:
                return

    def print_size(self, family, share, before):
        """Prints a line, and returns the time; None where the run was over."""
        case, twin = family(share, False), family(share, True)
        run, took = self.own(case)
        label = f"  {share:>5.0%} {case.size / 1e6:>8.2f} MB"
        if run.is_over:
            print(f"{label}     over ({run.seconds:.0f} s, {run.memory / 1e6:.0f} MB)", flush=True)
            return None
        twin_run, twin_took = self.own(twin)
        beside = "over" if twin_run.is_over else self.beside_twin(case, took, twin, twin_took)
        half = ratio(took, before) if before is not None else "-"
        print(
            f"{label} {took * 1e3:>10.1f} ms, to half {half:>5} (goal {HALF_GOAL}), to its twin {beside} (goal {TWIN_GOAL}),"
            f" {run.memory / 1e6:>7.1f} MB (goal {case.memory_goal / 1e6:.0f})",
            flush=True,
        )
        return took

    def beside_twin(self, case, took, twin, twin_took):
        """How many times its twin a case takes, without what reading takes, and what both take so."""
        _, reading = self.own(case.read_alone())
        _, twin_reading = self.own(twin.read_alone())
        both = [max(took - reading, 0.0), max(twin_took - twin_reading, 0.0)]
        return f"{ratio(*both)} ({both[0] * 1e3:.1f} to {both[1] * 1e3:.1f} ms)"


def read_options():
    words = argparse.ArgumentParser(description="Measures the built program on class files that keep all rules but are hostile.")
    words.add_argument("families", nargs="*", metavar="FAMILY", help="of " + ", ".join(family.__name__ for family in FAMILIES))
    words.add_argument("--runs", type=int, default=3, help="runs of each size (3)")
    words.add_argument("--program", type=Path, default=ROOT / "build" / "kiasan", help="the built program")
    words.add_argument("--seconds", type=int, default=60, help="the most processor seconds of a run (60)")
    words.add_argument("--memory", type=int, default=8192, help="the most memory of a run, in MiB (8192)")
    words.add_argument("--least", type=float, default=0.0, help="the least share of the full size (0)")
    words.add_argument("--most", type=float, default=1.0, help="the greatest share of the full size (1.0)")
    options = words.parse_args()
    unknown = set(options.families) - {family.__name__ for family in FAMILIES}
    if unknown:
        words.error(f"no family: {' '.join(sorted(unknown))}")
    check_time()
    options.program = built_program(options.program)
    return options


def main():
    options = read_options()
    table = Table(options)
    print(f"starting the program: {table.start * 1e3:.2f} ms", flush=True)
    for family in FAMILIES:
        if not options.families or family.__name__ in options.families:
            table.print_family(family)


if __name__ == "__main__":
    main()
