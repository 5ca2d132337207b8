#!/usr/bin/env python3
"""Writes the class files of crates/kiasan_rows/data and crates/kb_world_rows/data: from the Java sources beside this script, and
by hand.

Usage: examples/rows/make.py
It needs javac of a JDK from 9 to 19 (later ones no longer make files of version 52). The tests and the table of rows beside the
class files are written by hand.
"""

import re
import struct
import subprocess
import tempfile
from pathlib import Path

HERE = Path(__file__).resolve().parent
ROOT = HERE.parent.parent
DATA = ROOT / "crates" / "kiasan_rows" / "data"
WORLD_DATA = ROOT / "crates" / "kb_world_rows" / "data"
CLASS_A = (ROOT / "examples" / "A.class").read_bytes()
PUBLIC_STATIC = 9
CLASS_LIMIT = 1_048_576


def sample(name):
    """The bytes of that constant of kb_samples."""
    source = (ROOT / "crates" / "kb_samples" / "src" / "lib.rt").read_text()
    array = re.search(rf"pub const {name}: \[u8; \d+\] = \[(.*?)\];", source, re.DOTALL)
    return bytes(int(byte, 16) for byte in re.findall(r"0x(..)", array[1]))


CLASS_B = sample("CLASS_B")


def compiled(source, names):
    """The class files that javac makes of the source, by their names in the data."""
    with tempfile.TemporaryDirectory() as folder:
        subprocess.run(["javac", "-g:none", "-nowarn", "--release", "8", "-d", folder, HERE / source], check=True, stderr=subprocess.DEVNULL)
        return {file: (Path(folder) / f"{name}.class").read_bytes() for name, file in names.items()}


def same_names(*names):
    return {name: f"{name}.class" for name in names}


def class_like_a(name, parent, flag=PUBLIC_STATIC):
    """Class A with another name, another superclass and other access flags of its method, which are below 256."""
    spelled = [struct.pack(">H", len(text)) + text for text in (name, parent)]
    return CLASS_A[:11] + spelled[0] + CLASS_A[14:18] + spelled[1] + CLASS_A[36:71] + bytes([flag]) + CLASS_A[72:]


def changed(at, content, of=CLASS_A):
    return of[:at] + content + of[at + len(content) :]


def utf8(text):
    return struct.pack(">BH", 1, len(text)) + text


def method(name, kind, code, stack=2, locals=2):
    """A public static method by the numbers of its name and descriptor; `Code` is entry 5."""
    content = struct.pack(">HHI", stack, locals, len(code)) + code + struct.pack(">HH", 0, 0)
    return struct.pack(">HHHHHI", PUBLIC_STATIC, name, kind, 1, 5, len(content)) + content


def class_g():
    """Class G: g()V is iconst_0, iconst_0, fadd, pop, return; h()I and k(J)I are iconst_4, ireturn; o(LG;)I is aload_0,
    getfield of a Methodref, ireturn."""
    entries = [utf8(b"G"), b"\7\0\1", utf8(b"java/lang/Object"), b"\7\0\3", utf8(b"Code"), utf8(b"g"), utf8(b"()V"), utf8(b"h")]
    entries += [utf8(b"()I"), utf8(b"k"), utf8(b"(J)I"), utf8(b"o"), utf8(b"(LG;)I"), b"\x0c\0\x08\0\x09", b"\x0a\0\2\0\x0e"]
    methods = [
        method(6, 7, b"\x03\x03\x62\x57\xb1"),
        method(8, 9, b"\x07\xac"),
        method(10, 11, b"\x07\xac"),
        method(12, 13, b"\x2a\xb4\0\x0f\xac"),
    ]
    front = struct.pack(">IHHH", 0xCAFEBABE, 0, 52, len(entries) + 1) + b"".join(entries)
    return front + struct.pack(">HHHHHH", 0x21, 2, 4, 0, 0, len(methods)) + b"".join(methods) + b"\0\0"


def descriptor(ints):
    """That of a method that takes so many ints and returns one."""
    return b"(" + b"I" * ints + b")I"


def class_of_methods(name, methods):
    """A class of public static methods: of each its name, how many ints it takes, its limits of stack and locals, and its code."""
    entries = [utf8(name), b"\7\0\1", utf8(b"java/lang/Object"), b"\7\0\3", utf8(b"Code")]
    bodies = []
    for called, ints, stack, locals, code in methods:
        entries += [utf8(called.encode()), utf8(descriptor(ints))]
        bodies.append(method(len(entries) - 1, len(entries), code, stack, locals))
    front = struct.pack(">IHHH", 0xCAFEBABE, 0, 52, len(entries) + 1) + b"".join(entries)
    return front + struct.pack(">HHHHHH", 0x21, 2, 4, 0, 0, len(bodies)) + b"".join(bodies) + b"\0\0"


# What is explored. The opcodes are those of JVMS 8 section 6.5.
CONSTANTS = [
    ("iconst_m1", 0, 2, 1, b"\x02\xac"),
    ("iconst_0", 0, 2, 1, b"\x03\xac"),
    ("iconst_1", 0, 2, 1, b"\x04\xac"),
    ("iconst_2", 0, 2, 1, b"\x05\xac"),
    ("iconst_3", 0, 2, 1, b"\x06\xac"),
    ("iconst_4", 0, 2, 1, b"\x07\xac"),
    ("iconst_5", 0, 2, 1, b"\x08\xac"),
    ("bipush", 0, 2, 1, b"\x10\x80\xac"),
    ("sipush", 0, 2, 1, b"\x11\x80\x01\xac"),
    ("nop", 0, 2, 1, b"\x00\x04\x00\xac"),
]
# The largest int is -1 shifted right by 1 without its sign, and the least is 1 shifted left by 31.
FOLDED = [
    ("largest_plus_1", 0, 2, 1, b"\x02\x04\x7c\x04\x60\xac"),
    ("least_minus_1", 0, 2, 1, b"\x04\x10\x1f\x78\x04\x64\xac"),
    ("least_negated", 0, 2, 1, b"\x04\x10\x1f\x78\x74\xac"),
    ("largest_doubled", 0, 2, 1, b"\x02\x04\x7c\x05\x68\xac"),
    ("shl_by_33", 0, 2, 1, b"\x05\x10\x21\x78\xac"),
    ("shr_by_33", 0, 2, 1, b"\x10\xf8\x10\x21\x7a\xac"),
    ("ushr_by_33", 0, 2, 1, b"\x02\x10\x21\x7c\xac"),
    ("ushr_by_minus_1", 0, 2, 1, b"\x02\x02\x7c\xac"),
    ("and_of_12_and_minus_6", 0, 2, 1, b"\x10\x0c\x10\xfa\x7e\xac"),
    ("or_of_12_and_minus_6", 0, 2, 1, b"\x10\x0c\x10\xfa\x80\xac"),
    ("xor_of_12_and_minus_6", 0, 2, 1, b"\x10\x0c\x10\xfa\x82\xac"),
    ("byte_of_200", 0, 2, 1, b"\x11\x00\xc8\x91\xac"),
    ("char_of_minus_1", 0, 2, 1, b"\x02\x92\xac"),
    ("short_of_40000", 0, 2, 1, b"\x11\x4e\x20\x05\x68\x93\xac"),
    ("iinc_by_minus_128", 0, 2, 1, b"\x03\x3b\x84\x00\x80\x1a\xac"),
    ("iinc_by_127", 0, 2, 1, b"\x05\x3b\x84\x00\x7f\x1a\xac"),
]
LOCALS = [
    ("iload_0", 5, 1, 5, b"\x1a\xac"),
    ("iload_1", 5, 1, 5, b"\x1b\xac"),
    ("iload_2", 5, 1, 5, b"\x1c\xac"),
    ("iload_3", 5, 1, 5, b"\x1d\xac"),
    ("istore_0", 5, 1, 5, b"\x15\x04\x3b\x1a\xac"),
    ("istore_1", 5, 1, 5, b"\x15\x04\x3c\x1b\xac"),
    ("istore_2", 5, 1, 5, b"\x15\x04\x3d\x1c\xac"),
    ("istore_3", 5, 1, 5, b"\x15\x04\x3e\x1d\xac"),
    ("istore_5", 1, 1, 6, b"\x1a\x36\x05\x15\x05\xac"),
    ("iinc_1", 2, 1, 2, b"\x84\x01\xff\x1b\xac"),
]
OPERATIONS = [
    ("iadd", 2, 2, 2, b"\x1a\x1b\x60\xac"),
    ("isub", 2, 2, 2, b"\x1a\x1b\x64\xac"),
    ("imul", 2, 2, 2, b"\x1a\x1b\x68\xac"),
    ("ishl", 2, 2, 2, b"\x1a\x1b\x78\xac"),
    ("ishr", 2, 2, 2, b"\x1a\x1b\x7a\xac"),
    ("iushr", 2, 2, 2, b"\x1a\x1b\x7c\xac"),
    ("iand", 2, 2, 2, b"\x1a\x1b\x7e\xac"),
    ("ior", 2, 2, 2, b"\x1a\x1b\x80\xac"),
    ("ixor", 2, 2, 2, b"\x1a\x1b\x82\xac"),
    ("ineg", 1, 1, 1, b"\x1a\x74\xac"),
    ("i2b", 1, 1, 1, b"\x1a\x91\xac"),
    ("i2c", 1, 1, 1, b"\x1a\x92\xac"),
    ("i2s", 1, 1, 1, b"\x1a\x93\xac"),
]
# A term stands once, after its operands, the left one first, and only where the result needs it. The walk of `negation_first`
# ends with the negation first, though the sum is older.
NUMBERED = [
    ("left_first", 2, 3, 2, b"\x1a\x1b\x64\x1a\x1b\x60\x68\xac"),
    ("sum_once", 2, 3, 2, b"\x1a\x1b\x60\x1a\x1b\x60\x68\xac"),
    ("doubled", 1, 2, 1, b"\x1a\x59\x60\xac"),
    ("sum_popped", 2, 2, 2, b"\x1a\x1b\x60\x57\x1a\xac"),
    ("negation_first", 1, 2, 2, b"\x1a\x10\x07\x60\x3c\x1a\x74\x1b\x68\xac"),
    ("negation_popped", 1, 1, 1, b"\x1a\x74\x57\x10\x07\xac"),
    ("of_2000_instructions", 0, 1, 0, b"\0" * 1998 + b"\x04\xac"),
]

# What is not explored: faults of frames, and code that is not straight.
FAULTS_OF_FRAMES = [
    ("above_max_stack", 2, 1, 2, b"\x1a\x1b\x60\xac"),
    ("dup_above_max_stack", 1, 1, 1, b"\x1a\x59\x57\xac"),
    ("read_above_max_locals", 2, 1, 1, b"\x1b\xac"),
    ("write_above_max_locals", 1, 1, 1, b"\x1a\x3c\x1a\xac"),
    ("read_before_write", 0, 1, 1, b"\x1a\xac"),
    ("iinc_before_write", 0, 1, 1, b"\x84\x00\x01\x04\xac"),
    ("nothing_to_return", 0, 1, 0, b"\xac"),
    ("one_operand_for_two", 1, 1, 1, b"\x1a\x60\xac"),
    ("nothing_to_pop", 1, 1, 1, b"\x1a\x57\x57\x1a\xac"),
]
NOT_STRAIGHT = [
    ("idiv", 2, 2, 2, b"\x1a\x1b\x6c\xac"),
    ("irem", 1, 1, 1, b"\x1a\x04\x70\xac"),
    ("return_in_the_middle", 1, 1, 1, b"\x1a\xac\x1a\xac"),
    ("no_return", 1, 1, 1, b"\x1a\x00"),
    ("return_as_an_operand", 0, 1, 0, b"\x10\xac"),
    ("return_of_nothing", 1, 1, 1, b"\xb1"),
    ("wide_iload", 1, 1, 1, b"\xc4\x15\x00\x00\xac"),
    ("wide_istore", 1, 1, 1, b"\x1a\xc4\x36\x00\x00\x1a\xac"),
    ("wide_iinc", 1, 1, 1, b"\xc4\x84\x00\x00\x00\x01\x1a\xac"),
    ("goto", 1, 1, 1, b"\xa7\x00\x03\x1a\xac"),
    ("of_2001_instructions", 0, 1, 0, b"\0" * 1999 + b"\x04\xac"),
]


def faults_of_files():
    """Class files with a fault of their bytes: mostly class A, in some part another."""
    method_of_a = CLASS_A[70:100]
    bad_code = changed(92, b"\xcb")
    return {
        "magic.class": changed(0, b"PK\x03\x04"),
        "version_53.class": changed(6, b"\0\x35"),
        "version_44.class": changed(6, b"\0\x2c"),
        "b_of_version_53.class": changed(7, b"\x35", CLASS_B),
        # tags that there are not, and numbers of no entry and of one of another kind
        "tag_2.class": changed(14, b"\2"),
        "tag_255.class": changed(36, b"\xff"),
        "name_8.class": changed(15, b"\0\x08"),
        "class_0.class": changed(60, b"\0\0"),
        "name_2.class": changed(37, b"\0\2"),
        "superclass_5.class": changed(62, b"\0\5"),
        # no code, and code of a byte more than there is; two codes of one method; a method without code
        "empty_code.class": changed(91, b"\0"),
        "code_of_5.class": changed(91, b"\5"),
        "two_codes.class": CLASS_A[:76] + b"\0\2" + method_of_a[8:] + method_of_a[8:] + CLASS_A[100:],
        "without_code.class": CLASS_A[:76] + b"\0\0" + CLASS_A[100:],
        # a byte too many; files that end in the count of attributes of the class, in its flags, in the magic number, and at once
        "longer.class": CLASS_A + b"\0",
        "cut_count.class": CLASS_A[:101],
        "b_cut_count.class": CLASS_B[:260],
        "cut_flags.class": CLASS_A[:59],
        "cut_magic.class": CLASS_A[:3],
        "empty.class": b"",
        # the front of a jar file; as long as a file may be, and longer
        "jar.class": b"PK\x03\x04",
        "zeros.class": bytes(CLASS_LIMIT),
        "more_zeros.class": bytes(CLASS_LIMIT + 1),
        # a fault of the code in the second method, in both, behind a byte too many, and before an interface that is none
        "second_code.class": changed(217, b"\xcb", CLASS_B),
        "both_codes.class": changed(174, b"\xca", changed(217, b"\xcb", CLASS_B)),
        "longer_code.class": bad_code + b"\0",
        "interface_code.class": bad_code[:64] + b"\0\1\0\4\0\0" + bad_code[68:],
    }


def class_with_code(code):
    """Class A with `f(I)I` of this code."""
    return class_of_methods(b"A", [("f", 1, 1, 1, code)])


def faults_of_code():
    """Class A with a fault of the code of its method."""
    table = b"\xaa" + bytes(7)
    lookup = b"\xab" + bytes(7)
    one = b"\0\0\0\1" + bytes(4)
    codes = {
        # opcodes that there are not, and nop behind wide
        "opcode_cb.class": b"\xcb",
        "opcode_ff.class": b"\x1a\xff",
        "wide_nop.class": b"\x1a\xc4\x00\xac",
        # bipush and iinc without a byte of theirs
        "cut_bipush.class": b"\x10",
        "cut_iinc.class": b"\x1a\x84\x00",
        # goto into itself, before the code and behind it
        "goto_itself.class": b"\xa7\x00\x01\xac",
        "goto_before.class": b"\x00\xa7\xff\xfe",
        "goto_behind.class": b"\x00\xa7\x00\x03",
        # switches, whose default target is 0: from 1 to 0, twice the same int, and from the least int to the largest
        "falling_switch.class": table + b"\0\0\0\1\0\0\0\0",
        "twice_the_same.class": lookup + b"\0\0\0\2" + one + one,
        "longest_switch.class": table + b"\x80\0\0\0\x7f\xff\xff\xff",
    }
    return {name: class_with_code(code) for name, code in codes.items()}


def class_with_handlers(*rows):
    """Class A with these handlers, each a start, an end, a target and 0. Instructions are at 0, 1, 2 and 3, and the code ends at 4."""
    table = struct.pack(">H", len(rows)) + b"".join(struct.pack(">HHHH", *row, 0) for row in rows)
    length = struct.pack(">I", 14 + len(table))
    return CLASS_A[:80] + length + CLASS_A[84:96] + table + CLASS_A[98:]


def with_handlers():
    good = (0, 4, 3)
    return {
        "handler.class": class_with_handlers((0, 1, 0)),
        "good_handler.class": class_with_handlers(good),
        "empty_handler.class": class_with_handlers(good, (1, 1, 0)),
        "falling_handler.class": class_with_handlers(good, (2, 1, 0)),
        "longer_handler.class": class_with_handlers(good, (0, 5, 0)),
        "handler_behind.class": class_with_handlers(good, (0, 1, 4)),
    }


def by_hand():
    method_of_a = CLASS_A[70:100]
    return {
        "A.class": CLASS_A,
        "B.class": CLASS_B,
        "G.class": class_g(),
        "Straight.class": class_of_methods(b"Straight", CONSTANTS + FOLDED + LOCALS + OPERATIONS + NUMBERED),
        "NotStraight.class": class_of_methods(b"NotStraight", FAULTS_OF_FRAMES + NOT_STRAIGHT),
        # a method that is not static
        "instance.class": changed(71, b"\1"),
        # two methods f(II)I; a name and a descriptor that may not be one; an interface that is none; a field of a method's type
        "twice.class": CLASS_A[:68] + b"\0\2" + method_of_a + method_of_a + CLASS_A[100:],
        "name.class": changed(13, b";"),
        "descriptor.class": changed(46, b"I"),
        "interface.class": CLASS_A[:64] + b"\0\1\0\4\0\0" + CLASS_A[68:],
        "field.class": CLASS_A[:64] + b"\0\0\0\1\0\x09\0\5\0\6\0\0" + CLASS_A[68:],
        # other names and superclasses
        "string.class": class_like_a(b"java/lang/String", b"java/lang/Object"),
        "object.class": changed(61, b"\4"),
        "missing.class": class_like_a(b"A", b"Missing"),
        "itself.class": class_like_a(b"A", b"A"),
        "final.class": class_like_a(b"A", b"java/lang/String"),
        "comparable.class": class_like_a(b"A", b"java/lang/Comparable"),
        "space.class": class_like_a(b" ", b" "),
        "a_below_b.class": class_like_a(b"A", b"B"),
        "b_below_a.class": class_like_a(b"B", b"A"),
        "below_a.class": class_like_a(b"C", b"A"),
        # f(II)I of two packages, without access flags; private, public and static; and of one package
        "low.class": class_like_a(b"q/B", b"p/A", 0),
        "high.class": class_like_a(b"p/A", b"java/lang/Object", 0),
        "private.class": class_like_a(b"p/A", b"java/lang/Object", 2),
        "public.class": class_like_a(b"q/B", b"p/A", 1),
        "static.class": class_like_a(b"q/B", b"p/A", 8),
        "same_package.class": class_like_a(b"p/B", b"p/A", 0),
        # three overloads in each of two packages, the third of which both may override inside their package alone
        "high_overloads.class": HIGH,
        "third_overload.class": class_of_overloads(b"q/Low", b"p/High", (1, 0, 0)),
    }


def class_of_pattern(name, parent=b"two", extends=4, implements=10, first=15, flags=0x21):
    """A class with a field `int m` and methods `void m()` and `void n()`, all without access flags: by its name, a name for its
    superclass, the numbers of the entries of its superclass, its interface and the name of its first method, and its flags.

    Its constant pool: 1 is its name, 2 its class, 3 the other name, 4 its class; classes are 6 java/lang/Object,
    8 java/lang/String, 10 java/lang/Cloneable and 12 `[[I`; 13 is the text `I`, 14 `()V`, 15 `m`, 16 `n`, 17 `<clinit>`,
    18 `Code`, 19 the string constant `m`, and 20 the int 7.
    """
    entries = []
    for text in (name, parent, b"java/lang/Object", b"java/lang/String", b"java/lang/Cloneable", b"[[I"):
        entries += [utf8(text), struct.pack(">BH", 7, len(entries) + 1)]
    entries += [utf8(text) for text in (b"I", b"()V", b"m", b"n", b"<clinit>", b"Code")]
    entries += [struct.pack(">BH", 8, 15), struct.pack(">Bi", 3, 7)]
    code = struct.pack(">HIHHIBHH", 18, 13, 0, 1, 1, 0xB1, 0, 0)
    methods = [struct.pack(">HHHH", 0, number, 14, 1) + code for number in (first, 16)]
    front = struct.pack(">IHHH", 0xCAFEBABE, 0, 52, len(entries) + 1) + b"".join(entries)
    members = struct.pack(">HHHHH", 1, 0, 15, 13, 0) + struct.pack(">H", 2) + b"".join(methods)
    return front + struct.pack(">HHHHH", flags, 2, extends, 1, implements) + members + b"\0\0"


def class_t():
    """Class T, which keeps the rules of names and descriptors, and with a byte changed breaks one. The entries 5 and 10 are both
    the text `f`, 6 is `I`, 7 is `()V`, 12 is `J`, 15 is `()J`, 16 is `.;[`, and 9 and 13 are both empty. Entry 11 is a second Class
    entry, and 8 and 14 are the NameAndType entries `f:I` and `f:()V`. The fields are `int f`, `long f` and `int .;[`, the methods
    `void f()`, `long f()` and `void .;[()`, all without access flags."""
    entries = [utf8(b"T"), b"\7\0\1", utf8(b"java/lang/Object"), b"\7\0\3", utf8(b"f"), utf8(b"I"), utf8(b"()V"), b"\x0c\0\5\0\6"]
    entries += [utf8(b""), utf8(b"f"), b"\7\0\1", utf8(b"J"), utf8(b""), b"\x0c\0\5\0\7", utf8(b"()J"), utf8(b".;[")]
    front = struct.pack(">IHHH", 0xCAFEBABE, 0, 52, len(entries) + 1) + b"".join(entries)
    members = [struct.pack(">HHHH", 0, *numbers, 0) for numbers in ((5, 6), (10, 12), (16, 6), (5, 7), (10, 15), (16, 7))]
    fields, methods = b"".join(members[:3]), b"".join(members[3:])
    return front + struct.pack(">HHHHH", 0x21, 2, 4, 0, 3) + fields + struct.pack(">H", 3) + methods + b"\0\0"


def class_d():
    """Class D, whose methods `void m()` and `static void m(int)` have the text `m` of two entries, 6 and 8. It names the array types
    `[[[[LD;` and `[[LD;`. Its static methods take a D: t calls m() by invokevirtual, at 5 by invokespecial and at 8 by
    invokestatic, u calls m(int) by invokestatic and at 6 by invokevirtual, and v calls each as it may be called."""
    entries = [utf8(b"D"), b"\7\0\1", utf8(b"java/lang/Object"), b"\7\0\3", utf8(b"Code"), utf8(b"m"), utf8(b"()V"), utf8(b"m")]
    entries += [utf8(b"(I)V"), b"\x0c\0\6\0\x09", b"\x0a\0\2\0\x0a", b"\x0c\0\x08\0\7", b"\x0a\0\2\0\x0c"]
    entries += [utf8(b"[[[[LD;"), b"\7\0\x0e", utf8(b"[[LD;"), b"\7\0\x10", utf8(b"t"), utf8(b"(LD;)V"), utf8(b"u"), utf8(b"v")]
    instance = method(6, 7, b"\xb1", 0, 1)
    methods = [
        b"\0\0" + instance[2:],
        method(8, 9, b"\xb1", 0, 1),
        method(18, 19, b"\x2a\xb6\0\x0d\x2a\xb7\0\x0d\xb8\0\x0d\xb1", 1, 1),
        method(20, 19, b"\x03\xb8\0\x0b\x2a\x03\xb6\0\x0b\xb1", 2, 1),
        method(21, 19, b"\x2a\xb6\0\x0d\x2a\xb7\0\x0d\x03\xb8\0\x0b\xb1", 1, 1),
    ]
    front = struct.pack(">IHHH", 0xCAFEBABE, 0, 52, len(entries) + 1) + b"".join(entries)
    return front + struct.pack(">HHHHHH", 0x21, 2, 4, 0, 0, len(methods)) + b"".join(methods) + b"\0\0"


def class_of_overloads(name, parent, flags):
    """A class with the methods `void m()`, `void m(int)` and `void m(boolean)`, with these access flags, and its superclass."""
    entries = [utf8(name), b"\7\0\1", utf8(parent), b"\7\0\3", utf8(b"Code"), utf8(b"m"), utf8(b"()V"), utf8(b"(I)V"), utf8(b"(Z)V")]
    methods = [struct.pack(">H", of) + method(6, kind, b"\xb1", 0, 2)[2:] for kind, of in zip((7, 8, 9), flags)]
    front = struct.pack(">IHHH", 0xCAFEBABE, 0, 52, len(entries) + 1) + b"".join(entries)
    return front + struct.pack(">HHHHHH", 0x21, 2, 4, 0, 0, len(methods)) + b"".join(methods) + b"\0\0"


# p/High, of whose overloads the first and the third may be overridden inside its package alone
HIGH = class_of_overloads(b"p/High", b"java/lang/Object", (0, 1, 0))


def for_worlds():
    """Class one is below two, and low below the interface six; java/lang/Object is above the others. q/Low is below p/High, and of
    its overloads the second may be overridden inside its package alone."""
    return {
        "one.class": class_of_pattern(b"one"),
        "two.class": class_of_pattern(b"two", extends=6),
        "low.class": class_of_pattern(b"low", b"six", extends=6, implements=4),
        "six.class": class_of_pattern(b"six", extends=6, flags=0x621),
        "T.class": class_t(),
        "D.class": class_d(),
        "high_overloads.class": HIGH,
        "low_overloads.class": class_of_overloads(b"q/Low", b"p/High", (1, 0, 2)),
        "plain_a.class": CLASS_A,
        "plain_b.class": CLASS_B,
    }


def main():
    shapes = same_names("Shape", "Base", "Square", "H", "S") | {"A": "below_s.class", "B": "beside.class"}
    files = compiled("Shapes.java", shapes)
    files |= compiled("Reached.java", same_names("Reached", "Ready", "Heir", "Gone", "Pair", "Sized"))
    files |= compiled("Bridge.java", same_names("Bridge", "Source", "Ints"))
    files |= compiled("WithoutMembers.java", {"Gone": "without.class"})
    files |= compiled("Turned.java", {"Gone": "turned.class"})
    files |= compiled("Abstract.java", {"Gone": "abstract.class"})
    files |= compiled("Interface.java", {"Gone": "gone_interface.class"})
    files |= compiled("Called.java", same_names("Called", "Upper", "Lower", "Fine", "Low", "Top", "Started", "Below"))
    files |= compiled("Literals.java", same_names("Literals"))
    files |= compiled("First.java", {"P": "p.class"})
    files |= compiled("Second.java", {"Q": "q.class"})
    files |= faults_of_files() | faults_of_code() | with_handlers() | by_hand()
    for name, content in files.items():
        (DATA / name).write_bytes(content)
    worlds = compiled("World.java", same_names("H", "S", "A", "B")) | for_worlds()
    worlds |= compiled("Store.java", same_names("Store")) | compiled("Kinds.java", {"shop/Kinds": "Kinds.class"})
    for name, content in worlds.items():
        (WORLD_DATA / name).write_bytes(content)


if __name__ == "__main__":
    main()
