#!/usr/bin/env python3
"""Writes `data/` and `stdout` of crates/bytes_rows: class files and code by their bytes, with what JVMS 8 chapters 4 and 6 and
`javap -v` say of them, and `reader.py` beside it of those that are cut or spoiled.

Usage: examples/bytes/make.py
It needs javac of a JDK from 9 to 19 (later ones no longer make files of version 52).
"""

import re
import subprocess
import tempfile
from pathlib import Path

from reader import changes, cuts, verdict

HERE = Path(__file__).resolve().parent
ROOT = HERE.parent.parent
CRATE = ROOT / "crates" / "bytes_rows"


def sample(name):
    """The bytes of that constant of kb_samples."""
    source = (ROOT / "crates" / "kb_samples" / "src" / "lib.rt").read_text()
    array = re.search(rf"pub const {name}: \[u8; \d+\] = \[(.*?)\];", source, re.DOTALL)
    return bytes(int(byte, 16) for byte in re.findall(r"0x(..)", array[1]))


A = sample("CLASS_A")
B = sample("CLASS_B")
WHOLE_A = "(52, 33, 2, 4) 8 [] 0 1"
WHOLE_B = "(52, 33, 2, 3) 16 [] 0 2"
rows = []


def ask(name, question, spelled, answer, detail=""):
    text = spelled if isinstance(spelled, str) else spelled.hex() or "-"
    rows.append((name, f"{question} {text} {detail}".rstrip(), answer))


def changed(of, *changes):
    content = bytearray(of)
    for at, byte in changes:
        content[at] = byte
    return bytes(content)


def items(content):
    """The offset and size of each number and each run of bytes of a class file (JVMS 8 section 4.1): the numbers of its
    structures, the bytes of a Utf8 entry, and the content of an attribute."""
    found, at = [], 0

    def run(size):
        nonlocal at
        if size:
            found.append((at, size))
        at += size
        return int.from_bytes(content[at - size : at], "big")

    def numbers(*sizes):
        return [run(size) for size in sizes]

    def attributes():
        for _ in range(run(2)):
            _, length = numbers(2, 4)
            run(length)

    _, _, _, count = numbers(4, 2, 2, 2)
    for _ in range(1, count):
        tag = run(1)
        if tag == 1:
            run(run(2))
        else:
            # Class; Fieldref, Methodref and NameAndType
            numbers(*{7: [2], 9: [2, 2], 10: [2, 2], 12: [2, 2]}[tag])
    numbers(2, 2, 2)
    numbers(*[2] * run(2))
    for _ in ("fields", "methods"):
        for _ in range(run(2)):
            numbers(2, 2, 2)
            attributes()
    attributes()
    assert at == len(content)
    return found


def class_rows():
    ask("class A", "class", A, WHOLE_A)
    ask("the method of class A", "method", A, "(9, 5, 6) (2, 2, 4)", "0")
    ask("its code", "body", A, "1a1b60ac", "0")
    ask("class B", "class", B, WHOLE_B)
    ask("the constructor of class B", "method", B, "(1, 4, 5) (1, 1, 5)", "0")
    ask("its code", "body", B, "2ab70001b1", "0")
    ask("abs of class B", "method", B, "(9, 8, 9) (1, 1, 9)", "1")
    ask("its code", "body", B, "1a9b00051aac1a74ac", "1")
    ask("entry 1 of class B", "entry", B, "Method(3, 13)", "1")
    ask("entry 2 of class B", "entry", B, "Class 14 B", "2")
    for number, answer in ((0, "Skipped"), (2, "Class 1 A"), (4, "Class 3 java/lang/Object"), (6, "Utf8 (II)I"), (8, "none")):
        ask(f"entry {number} of class A", "entry", A, answer, str(number))


PARTS = {1: "Method(2, 3)", 7: "Field(8, 9)", 8: "Class 10 Parts", 17: "Integer(100000)", 22: "Skipped", 27: "Wide", 28: "Second"}
PARTS |= {40: "Skipped", 44: "InterfaceMethod(45, 46)", 46: "NameType(42, 48)", 81: "Str(82)", 94: "Class 95 java/lang/Runnable", 104: "Utf8 [[I"}


def compiled(flag, source="Parts.java"):
    with tempfile.TemporaryDirectory() as folder:
        subprocess.run(["javac", flag, "-nowarn", "--release", "8", "-d", folder, HERE / source], check=True, stderr=subprocess.DEVNULL)
        return {path.stem: path.read_bytes() for path in Path(folder).glob("*.class")}


def javac_rows():
    """Class Parts with debug attributes and without, an inner class, and class Switched."""
    plain, debug, switched = compiled("-g:none"), compiled("-g"), compiled("-g", "Switched.java")
    [inner] = [name for name in debug if "$" in name]
    files = {"plain": plain["Parts"], "debug": debug["Parts"], "inner": debug[inner], "switched": switched["Switched"]}
    for name, content in files.items():
        (CRATE / "data" / f"{name}.class").write_bytes(content)
    for kind, entries, run in (("plain", 143, 109), ("debug", 157, 115)):
        ask(f"{kind} Parts", "class", f"@{kind}.class", f"(52, 1056, 8, 2) {entries} [94, 70] 13 6")
        for number, answer in PARTS.items():
            ask(f"entry {number} of {kind} Parts", "entry", f"@{kind}.class", answer, str(number))
        ask(f"field 10 of {kind} Parts", "field", f"@{kind}.class", "(0, 103, 104)", "10")
        handlers = "(7, 28, 36, 63) (7, 28, 50, 0) (36, 42, 50, 0)"
        ask(f"run of {kind} Parts", "method", f"@{kind}.class", f"(1, {run}, 6) (3, 4, 59) {handlers}", "1")
    ask("size of plain Parts", "method", "@plain.class", "(1024, 114, 115) without code", "3")
    ask("size of debug Parts", "method", "@debug.class", "(1024, 126, 127) without code", "3")
    ask("the inner class", "class", "@inner.class", "(52, 32, 4, 10) 35 [] 1 2")
    ask("entry 20 of the inner class", "entry", "@inner.class", "Second", "20")
    ask("class Switched", "class", "@switched.class", "(52, 32, 8, 2) 35 [] 2 3")
    caught = "(0, 30, 55, 17) (36, 38, 55, 17) (44, 49, 55, 17) (0, 30, 64, 0) (36, 38, 64, 0) (44, 49, 64, 0) (55, 58, 64, 0)"
    ask("sparse of class Switched", "method", "@switched.class", f"(8, 28, 25) (2, 4, 71) {caught}", "2")


def fault_rows():
    # a file that ends within an item is refused where that begins, and one that ends between two where the next one would
    for at, size in items(B):
        for length in range(at, at + size):
            ask(f"{length} bytes of class B", "class", B[:length], f"Short({at})")
    ask("class A without its last byte", "class", A[:101], "Short(100)")
    ask("a byte behind class B", "class", B + b"\0", "Extra(261)")
    ask("another magic number", "class", changed(A, (0, 0xCB)), "Magic")
    for at, byte, answer in ((7, 0x35, "Version(53)"), (7, 44, "Version(44)"), (7, 45, WHOLE_B.replace("52", "45", 1)), (5, 3, WHOLE_B)):
        ask(f"class B, byte {at} = {byte}", "class", changed(B, (at, byte)), answer)
    ask("1048577 zeros", "class", "00*1048577", "Long")
    ask("1048576 zeros", "class", "00*1048576", "Magic")
    for tag in (0, 2, 13, 14, 17, 19, 255):
        for at, entry in ((10, 1), (117, 14)):
            ask(f"class B, tag {tag} at {at}", "class", changed(B, (at, tag)), f"Tag({entry}, {tag})")
    # entries, the class and its superclass; name, descriptor and attribute of a method; attributes of a Code and of the class
    for at, byte in ((12, 0), (12, 16), (143, 0), (155, 16), (184, 0)):
        ask(f"class B, number {byte} at {at}", "class", changed(B, (at, byte)), f"PoolIndex({at - 1}, {byte})")
    for at, byte in ((12, 4), (14, 3), (17, 1), (116, 2), (143, 1), (145, 14), (157, 2), (161, 13), (254, 3)):
        ask(f"class B, number {byte} at {at}", "class", changed(B, (at, byte)), f"PoolKind({at - 1}, {byte})")
    for count in (0, 1):
        # what stands in place of the pool is read as access flags and the class, 0x0141
        ask(f"a pool with the count {count}", "class", changed(A, (9, count)), "PoolIndex(12, 321)")
    long = bytes((5, 0, 0, 0, 0, 0, 0, 0, 1))
    # a Long takes two numbers, and may have the last one
    for count, this, answer in ((10, 2, WHOLE_A.replace(" 8 ", " 10 ")), (10, 9, "PoolKind(69, 9)"), (10, 10, "PoolIndex(69, 10)"), (9, 2, WHOLE_A.replace(" 8 ", " 9 ")), (9, 9, "PoolIndex(69, 9)")):
        content = A[:9] + bytes([count]) + A[10:58] + long + bytes((0, 0x21, 0, this)) + A[62:]
        ask(f"a Long, the count {count} and the class {this}", "class", content, answer)
    ask("four bytes of a Long", "class", A[:9] + b"\x0a" + A[10:58] + long[:5], "Short(59)")
    # the first entry of class B names nothing, and so does the second one
    nothing = changed(B, (12, 0), (17, 0))
    ask("two entries that name nothing", "class", nothing, "PoolIndex(11, 0)")
    ask("the same without the end of the pool", "class", nothing[:118], "Short(118)")
    ask("the same with a tag that there is not", "class", changed(nothing, (117, 2)), "Tag(14, 2)")


def attribute_rows():
    # code of no bytes, of 65,540 and of more than the content has; a content shorter and longer than its items
    for at, byte in ((91, 0), (89, 1), (91, 9), (83, 15), (83, 18)):
        ask(f"class A, byte {at} = {byte}", "class", changed(A, (at, byte)), "CodeLength(84)")
    ask("an attribute that runs past its Code", "class", changed(B, (185, 0xFF)), "CodeLength(166)")
    ask("a Code longer than the file", "class", changed(A, (80, 0xFF)), "Short(84)")
    ask("an attribute longer than the file", "class", changed(B, (255, 0xFF)), "Short(259)")
    ask("two Codes", "class", A[:77] + b"\2" + A[78:100] + A[78:], "TwoCodes(0)")
    ask("two Codes of a second method", "class", B[:202] + b"\2" + B[203:251] + b"\0\6", "TwoCodes(1)")
    for catch, answer in ((2, WHOLE_A), (0, WHOLE_A), (1, "PoolKind(104, 1)"), (8, "PoolIndex(104, 8)")):
        handler = bytes((0, 1, 0, 0, 0, 2, 0, 3, 0, catch))
        content = A[:83] + b"\x18" + A[84:96] + handler + A[98:]
        ask(f"a handler that catches {catch}", "class", content, answer)
        if catch == 2:
            ask("its method", "method", content, "(9, 5, 6) (2, 2, 4) (0, 2, 3, 2)", "0")
    for length, answer in ((65535, WHOLE_A), (65536, "CodeLength(84)")):
        front = A[:80] + (length + 12).to_bytes(4, "big") + A[84:88] + length.to_bytes(4, "big")
        ask(f"code of {length} bytes", "class", f"{front.hex()}.00*{length}.{A[96:].hex()}", answer)
    empty = bytes((0, 7, 0, 0, 0, 0))
    ask("two attributes Code of the class", "class", A[:100] + b"\0\2" + empty * 2, WHOLE_A)
    ask("two attributes Code in a Code", "class", A[:83] + b"\x1c" + A[84:98] + b"\0\2" + empty * 2 + A[100:], WHOLE_A)
    ask("a Code of no bytes and a second Code", "class", A[:77] + b"\2" + A[78:91] + b"\0" + A[92:100] + A[78:], "CodeLength(84)")
    nameless = A[:83] + b"\x17" + A[84:98] + bytes((0, 1, 0, 0, 0, 0, 0, 0, 0)) + A[100:]
    ask("an attribute without a name and a byte behind it", "class", nameless, "PoolIndex(100, 0)")


# How many bytes the instruction of each opcode takes at the least (JVMS 8 section 6.5); the switches stand at offset 0, a
# tableswitch with one target and a lookupswitch without pairs.
SIZES = {opcode: 1 for opcode in range(202)}
SIZES |= {opcode: 2 for opcode in (0x10, 0x12, *range(0x15, 0x1A), *range(0x36, 0x3B), 0xA9, 0xBC)}
SIZES |= {opcode: 3 for opcode in (0x11, 0x13, 0x14, 0x84, *range(0x99, 0xA9), *range(0xB2, 0xB9), 0xBB, 0xBD, 0xC0, 0xC1, 0xC6, 0xC7)}
SIZES |= {0xAA: 20, 0xAB: 12, 0xB9: 5, 0xBA: 5, 0xC4: 4, 0xC5: 4, 0xC8: 5, 0xC9: 5}
WIDE_SIZES = {opcode: 4 for opcode in (*range(0x15, 0x1A), *range(0x36, 0x3B), 0xA9)} | {0x84: 6}

# The opcodes that are looked at, with their mnemonics.
NAMES = dict(enumerate("nop aconst_null iconst_m1 iconst_0 iconst_1 iconst_2 iconst_3 iconst_4 iconst_5".split()))
NAMES |= {0x10: "bipush", 0x11: "sipush", 0x12: "ldc", 0x13: "ldc_w", 0x15: "iload", 0x19: "aload", 0x36: "istore", 0x3A: "astore"}
for place in range(4):
    NAMES |= {0x1A + place: f"iload_{place}", 0x2A + place: f"aload_{place}", 0x3B + place: f"istore_{place}", 0x4B + place: f"astore_{place}"}
NAMES |= {0x2E: "iaload", 0x32: "aaload", 0x33: "baload", 0x4F: "iastore", 0x53: "aastore", 0x54: "bastore"}
NAMES |= dict(enumerate("pop pop2 dup dup_x1 dup_x2 dup2 dup2_x1 dup2_x2 swap".split(), 0x57))
NAMES |= {0x60: "iadd", 0x64: "isub", 0x68: "imul", 0x6C: "idiv", 0x70: "irem", 0x74: "ineg", 0x78: "ishl", 0x7A: "ishr", 0x7C: "iushr"}
NAMES |= {0x7E: "iand", 0x80: "ior", 0x82: "ixor", 0x84: "iinc", 0x91: "i2b", 0x92: "i2c", 0x93: "i2s", 0xA7: "goto", 0xAC: "ireturn"}
NAMES |= dict(enumerate("ifeq ifne iflt ifge ifgt ifle if_icmpeq if_icmpne if_icmplt if_icmpge if_icmpgt if_icmple if_acmpeq if_acmpne".split(), 0x99))
NAMES |= {0xAA: "tableswitch", 0xAB: "lookupswitch", 0xC4: "wide", 0xC6: "ifnull", 0xC7: "ifnonnull", 0xC8: "goto_w"}
NAMES |= dict(enumerate("areturn return".split(), 0xB0))
NAMES |= dict(enumerate("getfield putfield invokevirtual invokespecial invokestatic invokeinterface".split(), 0xB4))
NAMES |= dict(enumerate("new newarray anewarray arraylength athrow checkcast instanceof".split(), 0xBB))


def with_length(content, at, length):
    return content[:at] + length.to_bytes(4, "big") + content[at + 4 :]


def length_rows():
    """An attribute that says to be 4,294,967,295 bytes long, wherever one may stand: what is behind its length is not there, of one
    inside a Code what is behind it in the Code."""
    longest = 0xFFFFFFFF
    empty = bytes((0, 7, 0, 0, 0, 0))
    field = A[:66] + bytes((0, 1, 0, 0, 0, 5, 0, 6, 0, 1)) + empty + A[68:]
    method = A[:77] + b"\2" + A[78:100] + bytes((0, 5, 0, 0, 0, 0)) + A[100:]
    of_class = A[:100] + b"\0\1" + empty
    inner = A[:83] + b"\x16" + A[84:98] + b"\0\1" + bytes((0, 5, 0, 0, 0, 0)) + A[100:]
    for name, content, at, answer in (
        ("of a field", field, 78, "Short(82)"),
        ("of a method, its Code", A, 80, "Short(84)"),
        ("of a method, behind its Code", method, 102, "Short(106)"),
        ("of the class", of_class, 104, "Short(108)"),
        ("inside a Code", inner, 102, "CodeLength(84)"),
    ):
        assert verdict(content) == "methods 4", name
        ask(f"an attribute {name}, of no bytes or its own", "class", content, WHOLE_A.replace("0 1", "1 1") if content is field else WHOLE_A)
        for length in (longest, 0x80000000, 0x7FFFFFFF):
            ask(f"an attribute {name}, of {length} bytes", "class", with_length(content, at, length), answer)


def spoiled_rows():
    """Class files that are cut at each length, or of which each byte in turn is ff, by the reader beside this script. Class A is told
    byte by byte; of each that is read, the code is decoded too."""
    for at in range(len(A)):
        answer = verdict(changed(A, (at, 0xFF)))
        assert re.match(r"Magic|Version|Short|Tag|Pool|CodeLength|Extra|TwoCodes|methods (none|\d+|Opcode|Cut|Target|Switch|Range)", answer)
    ask("class A, each byte 255", "changes", A, changes(A, 255), "255")
    ask("class A, each byte 0", "changes", A, changes(A, 0), "0")
    ask("class B, each byte 255", "changes", B, changes(B, 255), "255")
    ask("class B, each byte 0", "changes", B, changes(B, 0), "0")
    ask("class A, each front", "cuts", A, cuts(A))
    for file, name in (("plain", "plain Parts"), ("inner", "inner Parts"), ("debug", "debug Parts"), ("switched", "class Switched")):
        content = (CRATE / "data" / f"{file}.class").read_bytes()
        ask(f"{name}, each front", "cuts", f"@{file}.class", cuts(content))
        ask(f"{name}, each byte 255", "changes", f"@{file}.class", changes(content, 255), "255")
        if file == "switched":
            ask(f"{name}, each byte 0", "changes", f"@{file}.class", changes(content, 0), "0")


def opcode_rows():
    for opcode in range(256):
        if opcode not in SIZES:
            ask(f"opcode {opcode}", "count", bytes((opcode, 0)), f"Opcode(0, {opcode})")
            continue
        # behind wide stands iload
        code = bytes([opcode]) + (b"\x15" if opcode == 0xC4 else b"\0") + bytes(18)
        code = code[: SIZES[opcode]]
        ask(f"opcode {opcode}", "count", code, "1")
        ask(f"opcode {opcode} by name", "looked", code, NAMES.get(opcode, "skipped"))
        if len(code) > 1:
            ask(f"opcode {opcode} cut", "count", code[:-1], "Cut(0)")
    for opcode in range(256):
        if opcode in WIDE_SIZES:
            code = bytes((0xC4, opcode, 0, 0, 0, 0))[: WIDE_SIZES[opcode]]
            ask(f"wide {opcode}", "count", code, "1")
            ask(f"wide {opcode} cut", "count", code[:-1], "Cut(0)")
        else:
            ask(f"wide {opcode}", "count", bytes((0xC4, opcode, 0, 0, 0, 0)), f"Opcode(0, {opcode})")
    ask("wide at the end", "count", b"\0\xc4", "Cut(1)")


def code_rows():
    ask("a sum", "code", "1a1b60ac", "0 LoadInt(0); 1 LoadInt(1); 2 Int2(Add); 3 ReturnInt; ")
    wide = "c415012c.c43a012c.c484012cfffe.c4160000"
    ask("wide forms", "code", wide, "0 LoadInt(300); 4 StoreRef(300); 8 Inc(300, -2); 14 Other(22); ")
    ask("a tableswitch over all ints", "code", "aa000000.00000000.80000000.7fffffff.00000000", "Cut(0)")
    ask("a lookupswitch of 2147483647 pairs", "code", "ab000000.00000000.7fffffff.00000000.00000000", "Cut(0)")
    for nops in range(4):
        # pads are not zero, and all targets are the switch
        pads = "ff" * (3 - nops)
        front = (f"00*{nops}." if nops else "")
        table = f"{front}aa{pads}.00000000.00000007.00000007.00000000"
        ask(f"a tableswitch behind {nops}", "last", table, f"({nops}, Table(7, {nops}, Row {{ inner: [{nops}] }}))")
        lookup = f"{front}ab{pads}.00000000.00000001.ffffffff.00000000"
        ask(f"a lookupswitch behind {nops}", "last", lookup, f"({nops}, Lookup({nops}, Row {{ inner: [(-1, {nops})] }}))")
    ask("from 1 to 0", "code", "aa000000.00000000.00000001.00000000", "Switch(0)")
    ask("from 1 to 0, cut", "code", "aa000000.00000000.00000001.000000", "Cut(0)")
    ask("-1 pairs", "code", "ab000000.00000000.ffffffff", "Switch(0)")
    pairs = "ab000000.00000000.00000002.00000005.00000000.00000005.000000"
    ask("two pairs with one int", "code", pairs + "00", "Switch(0)")
    ask("two pairs with one int, cut", "code", pairs, "Cut(0)")
    ask("a bad opcode behind a bad target", "code", "a7ffffca", "Opcode(3, 202)")
    ask("a target before the code", "code", "a7ffff", "Target(0, -1)")
    ask("a target inside an instruction", "code", "110000a7fffe", "Target(3, 1)")
    ask("a target behind the code", "code", "a70003", "Target(0, 3)")
    ask("a far target", "code", "c800010000", "Target(0, 65536)")
    ask("jsr and jsr_w", "code", "a8ffffc9ff000000", "0 Other(168); 3 Other(201); ")
    ask("two bad targets of a switch", "code", "ab000000.00000002.00000001.00000005.ffffffff", "Target(0, 2)")
    ask("one bad target of a switch", "code", "ab000000.00000000.00000001.00000005.ffffffff", "Target(0, -1)")
    # sipush, pop, return
    good = "0-5-3-0"
    ask("two handlers", "count", "11000057b1", "3", f"{good},{good}")
    for bad in ("3-3-0", "4-3-0", "1-3-0", "0-2-0", "0-6-0", "0-5-1", "0-5-5"):
        ask(f"the handler {bad}", "count", "11000057b1", "Range(1)", f"{good},{bad}-0")
    ask("a bad target and a bad handler", "count", "a7ffff", "Target(0, -1)", "3-3-0-0")
    ask("65535 bytes of code", "count", "00*65534.b1", "65535")
    # a try around all of the code in another one, and so on; and one in it that begins at its end
    ask("65535 nested tries", "count", "00*65534.b1", "65535", "0-65535-65534-0*65535")
    ask("65535 nested tries with a bad one last", "count", "00*65534.b1", "Range(65534)", "0-65535-65534-0*65534,65534-65534-0-0")
    ask("the last of 65535 instructions", "last", "00*65534.b1", "(65534, Return)")


def javac_code_rows():
    """Code of javac, by `javac --release 8 -g:none`, as `javap -c` shows it."""
    # switch (x) { case -1: return 10; case 0: return 20; case 2: return 30; default: return 40; }
    table = "1aaa000000000028ffffffff000000020000001f000000220000002800000025100aac1014ac101eac1028ac"
    listed = "0 LoadInt(0); 1 Table(-1, 41, Row { inner: [32, 35, 41, 38] }); "
    listed += "".join(f"{at} PushInt({value}); {at + 2} ReturnInt; " for at, value in ((32, 10), (35, 20), (38, 30), (41, 40)))
    ask("a tableswitch of javac", "code", table, listed)
    # switch (x) { case 1000: y = 1; break; case -7: y = 2; break; default: y += 300; }
    lookup = "033c1aab0000002300000002fffffff90000001e000003e800000019043ca7000e053ca70009c4840001012c1bac"
    listed = "0 PushInt(0); 1 StoreInt(1); 2 LoadInt(0); 3 Lookup(38, Row { inner: [(-7, 33), (1000, 28)] }); 28 PushInt(1); 29 StoreInt(1); "
    listed += "30 Goto(44); 33 PushInt(2); 34 StoreInt(1); 35 Goto(44); 38 Inc(1, 300); 44 LoadInt(1); 45 ReturnInt; "
    ask("a lookupswitch of javac", "code", lookup, listed)
    # for (int i = 0; i < n; i++) { sum += numbers[i] * i; } in a try with a catch and a finally
    loop = "033d033e1d1ba200141c2ab400071d2e1d68603d840301a7ffed033da700134e023604033d1504ac3a05033d1905bf1cac"
    listed = "0 PushInt(0); 1 StoreInt(2); 2 PushInt(0); 3 StoreInt(3); 4 LoadInt(3); 5 LoadInt(1); 6 IfPair(Ge, 26); 9 LoadInt(2); "
    listed += "10 LoadRef(0); 11 GetField(7); 14 LoadInt(3); 15 LoadElem(Int); 16 LoadInt(3); 17 Int2(Mul); 18 Int2(Add); 19 StoreInt(2); "
    listed += "20 Inc(3, 1); 23 Goto(4); 26 PushInt(0); 27 StoreInt(2); 28 Goto(47); 31 StoreRef(3); 32 PushInt(-1); 33 StoreInt(4); "
    listed += "35 PushInt(0); 36 StoreInt(2); 37 LoadInt(4); 39 ReturnInt; 40 StoreRef(5); 42 PushInt(0); 43 StoreInt(2); 44 LoadRef(5); "
    listed += "46 Throw; 47 LoadInt(2); 48 ReturnInt; "
    ask("a loop with handlers of javac", "code", loop, listed, "2-26-31-13,2-26-40-0,31-35-40-0,40-42-40-0")
    # r.run(); if (next instanceof Codes && next != this && next != null) { return a + 5L; } throw new IllegalStateException("no");
    calls = "2db9000f01002ab40014c100089900182ab400142aa500102ab40014c600091f14001861adbb001a59121cb7001ebf"
    listed = "0 LoadRef(3); 1 Interface(15); 6 LoadRef(0); 7 GetField(20); 10 InstanceOf(8); 13 IfInt(Eq, 37); 16 LoadRef(0); "
    listed += "17 GetField(20); 20 LoadRef(0); 21 IfSame(true, 37); 24 LoadRef(0); 25 GetField(20); 28 IfNull(true, 37); 31 Other(31); "
    listed += "32 Other(20); 35 Other(97); 36 Other(173); 37 New(26); 40 Dup; 41 Ldc(28); 43 Special(30); 46 Throw; "
    ask("calls of javac", "code", calls, listed)


def main():
    (CRATE / "data").mkdir(exist_ok=True)
    for make in (class_rows, javac_rows, fault_rows, attribute_rows, length_rows, spoiled_rows, opcode_rows, code_rows, javac_code_rows):
        make()
    (CRATE / "data" / "rows").write_text("".join(f"{name}: {asked}\n" for name, asked, _ in rows))
    (CRATE / "stdout").write_text("".join(f"{name}: {answer}\n" for name, _, answer in rows))


if __name__ == "__main__":
    main()
