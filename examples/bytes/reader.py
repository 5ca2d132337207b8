"""A reader of class files that says why bytes are refused, and of the code of methods: JVMS 8 sections 4.1 to 4.7.3 and 6.5, with
what docs/REFUSALS.md says of each refusal. It shares nothing with the crates."""

import sys
from bisect import bisect_left
from pathlib import Path

sys.path.append(str(Path(__file__).resolve().parent.parent))

from runs import runs  # noqa: E402

CONSTANTS = {3: 4, 4: 4, 5: 8, 6: 8, 7: 2, 8: 2, 9: 4, 10: 4, 11: 4, 12: 4, 15: 3, 16: 2, 18: 4}
UTF8, LONG, DOUBLE, CLASS, STRING, FIELD, METHOD, INTERFACE_METHOD, NAME_TYPE = 1, 5, 6, 7, 8, 9, 10, 11, 12
# which kinds of entries an entry names, in order
NAMES = {CLASS: [UTF8], STRING: [UTF8], NAME_TYPE: [UTF8, UTF8]}
NAMES |= {tag: [CLASS, NAME_TYPE] for tag in (FIELD, METHOD, INTERFACE_METHOD)}
MOST_BYTES, MOST_CODE = 1 << 20, 65_535


class Refused(Exception):
    """Why bytes are refused, in the words of the answers."""


class Bytes:
    """Bytes that are read from left to right up to an end, past which nothing is."""

    def __init__(self, content, at, end, past):
        self.content, self.at, self.end, self.past = content, at, end, past

    def run(self, size):
        """One item: where it begins, and its bytes."""
        at = self.at
        if self.end - at < size:
            raise self.past(at)
        self.at += size
        return at, self.content[at : at + size]

    def number(self, size):
        return int.from_bytes(self.run(size)[1], "big")


class ClassReader:
    """The methods of a class file, each None or its code and handlers."""

    def __init__(self, content):
        if len(content) > MOST_BYTES:
            raise Refused("Long")
        self.content = content
        self.bytes = Bytes(content, 0, len(content), lambda at: Refused(f"Short({at})"))
        self.kinds, self.texts = {}, {}
        self.methods = []

    def read(self):
        of = self.bytes
        if of.number(4) != 0xCAFEBABE:
            raise Refused("Magic")
        of.number(2)
        major = of.number(2)
        if not 45 <= major <= 52:
            raise Refused(f"Version({major})")
        self.read_pool(of.number(2))
        of.number(2)
        self.reference(of, CLASS)
        self.reference(of, CLASS)
        for _ in range(of.number(2)):
            self.reference(of, CLASS)
        for _ in range(of.number(2)):
            self.member_head()
            self.skip_attributes(of)
        for place in range(of.number(2)):
            self.member_head()
            self.methods.append(self.read_method(place))
        self.skip_attributes(of)
        if of.at < of.end:
            raise Refused(f"Extra({of.at})")
        return self.methods

    def read_pool(self, count):
        of, named, number = self.bytes, [], 1
        self.count = count
        while number < count:
            tag = of.number(1)
            if tag == UTF8:
                self.texts[number] = of.run(of.number(2))[1]
            elif tag not in CONSTANTS:
                raise Refused(f"Tag({number}, {tag})")
            elif tag in NAMES:
                for kind in NAMES[tag]:
                    at, part = of.run(2)
                    named.append((at, int.from_bytes(part, "big"), kind))
            elif tag in (15, 18):
                # a method handle's kind and entry, or two numbers
                of.run(1 if tag == 15 else 2)
                of.run(2)
            else:
                of.run(CONSTANTS[tag])
            self.kinds[number] = tag
            number += 2 if tag in (LONG, DOUBLE) else 1
        for at, index, kind in named:
            self.check(at, index, kind)

    def check(self, at, index, kind):
        if not 0 < index < self.count:
            raise Refused(f"PoolIndex({at}, {index})")
        if self.kinds.get(index) != kind:
            raise Refused(f"PoolKind({at}, {index})")

    def reference(self, of, kind, or_none=False):
        at, part = of.run(2)
        index = int.from_bytes(part, "big")
        if index or not or_none:
            self.check(at, index, kind)
        return index

    def member_head(self):
        self.bytes.number(2)
        self.reference(self.bytes, UTF8)
        self.reference(self.bytes, UTF8)

    def skip_attributes(self, of):
        for _ in range(of.number(2)):
            self.reference(of, UTF8)
            of.run(of.number(4))

    def read_method(self, place):
        of, code = self.bytes, None
        for _ in range(of.number(2)):
            is_code = self.texts[self.reference(of, UTF8)] == b"Code"
            if is_code and code:
                raise Refused(f"TwoCodes({place})")
            at, content = of.run(of.number(4))
            if is_code:
                code = self.read_code(at, len(content))
        return code

    def read_code(self, at, length):
        fault = Refused(f"CodeLength({at})")
        of = Bytes(self.content, at, at + length, lambda _: fault)
        of.number(2)
        of.number(2)
        size = of.number(4)
        if not 0 < size <= MOST_CODE:
            raise fault
        _, code = of.run(size)
        handlers = []
        for _ in range(of.number(2)):
            places = [of.number(2) for _ in range(3)]
            self.reference(of, CLASS, or_none=True)
            handlers.append(places)
        self.skip_attributes(of)
        if of.at < of.end:
            raise fault
        return code, handlers


# ---- code

# how many bytes an instruction takes that is neither wide nor a switch, where that is not one
SIZES = {opcode: 2 for opcode in (0x10, 0x12, *range(0x15, 0x1A), *range(0x36, 0x3B), 0xA9, 0xBC)}
SIZES |= {opcode: 3 for opcode in (0x11, 0x13, 0x14, 0x84, *range(0x99, 0xA9), *range(0xB2, 0xB9), 0xBB, 0xBD, 0xC0, 0xC1, 0xC6, 0xC7)}
SIZES |= {0xB9: 5, 0xBA: 5, 0xC5: 4, 0xC8: 5, 0xC9: 5}
WIDE = {opcode: 4 for opcode in (*range(0x15, 0x1A), *range(0x36, 0x3B), 0xA9)} | {0x84: 6}
LAST_OPCODE, TABLE, LOOKUP, WIDE_OPCODE, GOTO_W = 0xC9, 0xAA, 0xAB, 0xC4, 0xC8
# jsr and jsr_w are passed over
BRANCHES = {*range(0x99, 0xA8), 0xC6, 0xC7, GOTO_W}


class CodeReader:
    """How many instructions a code has."""

    def __init__(self, code, handlers):
        self.code, self.handlers = code, handlers
        self.starts, self.targets = [], []

    def read(self):
        at = 0
        while at < len(self.code):
            self.starts.append(at)
            at = self.instruction(at)
        for at, to in self.targets:
            if not self.is_start(to):
                raise Refused(f"Target({at}, {to})")
        for place, (start, end, target) in enumerate(self.handlers):
            is_end = end == len(self.code) or self.is_start(end)
            if start >= end or not (self.is_start(start) and is_end and self.is_start(target)):
                raise Refused(f"Range({place})")
        return len(self.starts)

    def is_start(self, at):
        place = bisect_left(self.starts, at)
        return place < len(self.starts) and self.starts[place] == at

    def int_at(self, place, size=4):
        return int.from_bytes(self.code[place : place + size], "big", signed=True)

    def instruction(self, at):
        """Notes where the instruction leads, and returns the offset behind it."""
        opcode = self.code[at]
        if opcode > LAST_OPCODE:
            raise Refused(f"Opcode({at}, {opcode})")
        if opcode in (TABLE, LOOKUP):
            return self.switch(at, opcode)
        size = SIZES.get(opcode, 1)
        if opcode == WIDE_OPCODE:
            if at + 1 == len(self.code):
                raise Refused(f"Cut({at})")
            size = WIDE.get(self.code[at + 1])
            if size is None:
                raise Refused(f"Opcode({at}, {self.code[at + 1]})")
        self.whole(at, at + size)
        if opcode in BRANCHES:
            self.targets.append((at, at + self.int_at(at + 1, 4 if opcode == GOTO_W else 2)))
        return at + size

    def whole(self, at, end):
        if end > len(self.code):
            raise Refused(f"Cut({at})")

    def switch(self, at, opcode):
        front = at + 4 - at % 4
        head = 12 if opcode == TABLE else 8
        self.whole(at, front + head)
        numbers = [self.int_at(front + place) for place in range(0, head, 4)]
        count = numbers[2] - numbers[1] + 1 if opcode == TABLE else numbers[1]
        if count < (1 if opcode == TABLE else 0):
            raise Refused(f"Switch({at})")
        size = 4 if opcode == TABLE else 8
        end = front + head + count * size
        self.whole(at, end)
        keys = [self.int_at(place) for place in range(front + head, end, size)] if opcode == LOOKUP else []
        if any(one >= other for one, other in zip(keys, keys[1:])):
            raise Refused(f"Switch({at})")
        leads = [numbers[0], *(self.int_at(place + size - 4) for place in range(front + head, end, size))]
        self.targets += [(at, at + lead) for lead in leads]
        return end


def code_verdict(code):
    """How many instructions, or why the code is refused."""
    if code is None:
        return "none"
    try:
        return str(CodeReader(*code).read())
    except Refused as refused:
        return str(refused)


def verdict(content):
    """What is read of a class file: the code of each method, or why it is refused."""
    try:
        methods = ClassReader(content).read()
    except Refused as refused:
        return str(refused)
    return " ".join(["methods", *map(code_verdict, methods)])


def cuts(content):
    return runs(verdict(content[:end]) for end in range(len(content)))


def changes(content, byte):
    return runs(verdict(content[:at] + bytes([byte]) + content[at + 1 :]) for at in range(len(content)))
