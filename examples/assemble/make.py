#!/usr/bin/env python3
"""Writes `data/` and `stdout` of crates/asm_rows: assembler texts, with what the format of docs/USING.md and JVMS 8 chapters 4
and 6 say of them.

Class files are expected byte by byte as assembler.py makes them, which shares nothing with the crates. Whole.asm has a line of
every form: `javap` reads its class file back, instruction by instruction, and a Java virtual machine runs it.

Usage: examples/assemble/make.py
It needs java and javap of a JDK from 8 to 19 (later ones verify every class).
"""

import re
import subprocess
import sys
import tempfile
from pathlib import Path

HERE = Path(__file__).resolve().parent
sys.path.append(str(HERE.parent))

from assembler import BRANCHES, assemble  # noqa: E402
from runs import runs  # noqa: E402
from sample import sample_text  # noqa: E402

CRATE = HERE.parent.parent / "crates" / "asm_rows"
WHOLE = (HERE / "Whole.asm").read_text()
rows = []


def expanded(spelled):
    """The text of a spelling, as crates/asm_rows reads it."""
    *lines, cut = spelled.split("|")
    text = []
    for line in lines:
        line, _, times = line.partition("*")
        line = re.sub(r"~(\d+)~", lambda letters: "a" * int(letters[1]), line)
        text.extend(line.replace("#", str(count)) + "\n" for count in range(int(times or 1)))
    return "".join(text) + cut


def ask(name, question, spelled, answer):
    rows.append((f"{name}: {question} {spelled}", f"{name}: {answer}"))


def refused(name, spelled, line):
    ask(name, "size", spelled, f"Line({line})")


def taken(name, spelled):
    ask(name, "size", spelled, f"{len(assemble(expanded(spelled)))} bytes")


def lines_of(*lines):
    return "".join(f"{line}|" for line in lines)


# ---- the whole of the format

CONDITIONS = ["Eq", "Ne", "Lt", "Ge", "Gt", "Le"]
NAMES = {
    "pop": "Pop", "aconst_null": "PushNull", "ireturn": "ReturnInt", "areturn": "ReturnRef", "return": "Return",
    "iadd": "Int2(Add)", "idiv": "Int2(Div)", "ineg": "Neg", "nop": "Nop",
}  # fmt: skip


def instruction_text(name, words, to, entry):
    """The instruction as the decoder names it."""
    local = re.fullmatch(r"([ia])(load|store)_(\d)", name)
    if local:
        return f"{local[2].capitalize()}{'Int' if local[1] == 'i' else 'Ref'}({local[3]})"
    if name in ("iload", "istore"):
        return f"{name[1:].capitalize()}Int({words[0]})"
    if name.startswith("iconst_"):
        return f"PushInt({name[7:].replace('m', '-')})"
    if name in ("getfield", "putfield"):
        return f"{name[:3].capitalize()}Field({entry})"
    if name.startswith("if_icmp"):
        return f"IfPair({name[7:].capitalize()}, {to})"
    if name in ("ifnull", "ifnonnull"):
        return f"IfNull({str(name == 'ifnull').lower()}, {to})"
    if name in BRANCHES and name[2:].capitalize() in CONDITIONS:
        return f"IfInt({name[2:].capitalize()}, {to})"
    return NAMES[name]


def method_row(name, head, *body, fields=()):
    """A row for a method of the class Node, whose instructions the decoder gives back."""
    spelled = lines_of("class 0021 Node java/lang/Object", *fields, head, *body, "end")
    listing = javap_listing(assemble(expanded(spelled)), "Node")[0]
    lines = [line.split(" ") for line in body if not line.startswith(":")]
    assert [mnemonic for _, mnemonic, _ in listing] == [line[0] for line in lines], name
    told = [
        f"{at} {instruction_text(mnemonic, words, operand, operand.removeprefix('#'))}; "
        for (at, mnemonic, operand), (_, *words) in zip(listing, lines)
    ]
    ask(name, "code", spelled, "".join(told))


def javap_listing(content, name):
    """What javap reads of the code of each method: offsets, mnemonics, operands."""
    with tempfile.TemporaryDirectory() as folder:
        (Path(folder) / f"{name}.class").write_bytes(content)
        told = subprocess.run(
            ["javap", "-c", "-p", "-s", "-cp", folder, name], capture_output=True, text=True, check=True
        ).stdout
    methods = told.split("    Code:\n")[1:]
    return [re.findall(r"^ *(\d+): ([a-z]\S*) *([^\s,]*)", method, re.MULTILINE) for method in methods]


def check_whole(content):
    """javap reads the instructions of Whole.asm, and a Java virtual machine runs its class."""
    told = [mnemonic for method in javap_listing(content, "Whole") for _, mnemonic, _ in method]
    raw = {"02": "iconst_m1", "ac": "ireturn"}
    wide = {("astore", "256"), ("aload", "256"), ("istore", "300"), ("iload", "300")}
    meant, is_body = [], False
    for name, *words in (line.split(" ") for line in WHOLE.splitlines()):
        if name == "method":
            is_body = len(words) == 5
        elif name == "end":
            is_body = False
        elif is_body and not name.startswith(":") and name != "catch":
            shown = raw[words[0]] if name == "raw" else name
            meant.append(f"{shown}_w" if (name, *words[:1]) in wide else shown)
    assert told == meant, (told, meant)
    with tempfile.TemporaryDirectory() as folder:
        (Path(folder) / "Whole.class").write_bytes(content)
        flags = ["-XX:+UnlockDiagnosticVMOptions", "-XX:-BytecodeVerificationRemote"]
        status = subprocess.run(["java", *flags, "-cp", folder, "Whole"]).returncode
    assert status == 42, status


whole = assemble(WHOLE)
check_whole(whole)
ask("a line of every form", "bytes", "@Whole.asm", whole.hex())

# ---- methods, and the instructions that are decoded of them

method_row("a sum", "method 0009 f (II)I 2 2", "iload_0", "iload_1", "iadd", "ireturn")
method_row("an absolute value", "method 0009 abs (I)I 1 1", "iload_0", "ifge X", "iload_0", "ineg", "ireturn", ":X", "iload_0", "ireturn")  # fmt: skip
method_row("a quotient", "method 0009 div (II)I 2 2", "iload_0", "iload_1", "idiv", "ireturn")
NODE = ("field 0000 elem I", "field 0000 next LNode;")
NEXT, ELEM = "getfield Node next LNode;", "getfield Node elem I"
method_row(
    "a swap of nodes", "method 0001 swapNode ()LNode; 3 2", "aload_0", NEXT, "ifnull e", "aload_0", ELEM, "aload_0", NEXT, ELEM,
    "if_icmple e", "aload_0", NEXT, "astore_1", "aload_0", "aload_1", NEXT, "putfield Node next LNode;", "aload_1", "aload_0",
    "putfield Node next LNode;", "aload_1", "areturn", ":e", "aload_0", "areturn", fields=NODE,
)  # fmt: skip
method_row(
    "a node cut off", "method 0009 m (LNode;LNode;)I 2 2", "aload_0", "aconst_null", "putfield Node next LNode;", "aload_1", NEXT,
    "ifnonnull z", "iconst_1", "ireturn", ":z", "iconst_0", "ireturn", fields=NODE,
)  # fmt: skip

HEAD = "class 0021 A java/lang/Object"
METHOD = "method 0009 f ()V 1 1"
# no instruction begins with cb
ask("a byte that begins no instruction", "code", lines_of(HEAD, METHOD, "raw cb", "return", "end"), "Opcode(0, 203)")
ask("a byte behind an instruction", "code", lines_of(HEAD, METHOD, "nop", "raw cb", "return", "end"), "Opcode(1, 203)")

# ---- texts that end too early

SUM = [HEAD, "implements B", "field 0001 x I", "method 0401 g ()V", METHOD, ":here", "goto here", "end"]
for count in range(len(SUM) + 1):
    text = lines_of(*SUM[:count])
    if count == 0 or count in (5, 6, 7):
        refused(f"{count} lines", text, count + 1)
    else:
        taken(f"{count} lines", text)
for count in range(len(SUM)):
    refused(f"{count} lines and a part of one", lines_of(*SUM[:count]) + SUM[count][:-1], count + 1)

# ---- faults, each at its line


def body(*lines):
    return lines_of(HEAD, METHOD, *lines, "end")


refused("a class twice", lines_of(HEAD, HEAD), 2)
refused("a field behind a method", lines_of(HEAD, "method 0401 g ()V", "field 0001 x I"), 3)
refused("a superinterface behind a field", lines_of(HEAD, "field 0001 x I", "implements B"), 3)
refused("an instruction outside of a body", lines_of(HEAD, "return"), 2)
refused("flags of three digits", lines_of("class 021 A java/lang/Object"), 1)
refused("flags in upper case", lines_of("class 002A A java/lang/Object"), 1)
refused("two spaces", lines_of(HEAD, "field 0001  x I"), 2)
refused("a space at the end", lines_of(HEAD, "field 0001 x I "), 2)
refused("an empty line", lines_of(HEAD, ""), 2)
refused("a descriptor of no type", lines_of(HEAD, "field 0001 x V"), 2)
refused("a number with a zero in front", body("bipush 01", "return"), 3)
refused("a byte too high", body("bipush 128", "return"), 3)
taken("the least byte", body("bipush -128", "return"))
refused("a short too high", body("sipush 40000", "return"), 3)
taken("the least short", body("sipush -32768", "return"))
taken("the highest local", body("iload 65535", "return"))
refused("a local too high", body("iload 65536", "return"), 3)
taken("an increment in its ranges", body("iinc 255 -128", "return"))
refused("an increment of a local too high", body("iinc 256 1", "return"), 3)
refused("wide alone", body("wide", "return"), 3)
refused("an instruction that is not looked at", body("lload_0", "return"), 3)
refused("a tableswitch without a target", body(":a", "tableswitch 0 a", "return"), 4)
taken("a lookupswitch without a pair", body(":a", "lookupswitch a", "return"))
refused("keys that do not rise", body(":a", "lookupswitch a 1:a 1:a", "return"), 4)
refused("a tableswitch that ends above the ints", body(":a", "tableswitch 2147483647 a a a", "return"), 4)
taken("a tableswitch that ends at the highest int", body(":a", "tableswitch 2147483646 a a a", "return"))
refused("a label twice", body(":a", "return", ":a", "return"), 5)
taken("a label in each of two methods", lines_of(HEAD, METHOD, ":a", "return", "end", METHOD, ":a", "return", "end"))
refused("a label that is missing", body("nop", "goto nowhere", "return"), 4)
refused("a label of another method", lines_of(HEAD, METHOD, ":a", "return", "end", METHOD, "goto a", "return", "end"), 7)
refused("a handler whose label is missing", body(":a", "return", ":b", "catch a b c any"), 6)
refused("a missing label before another fault", body("goto nowhere", "return") + lines_of("nonsense"), 3)
refused("a missing label before a label twice", body("goto b", ":a", ":a", "return"), 3)
refused("no label is missing where the body goes on", lines_of(HEAD, METHOD, "goto nowhere", "nonsense"), 4)
refused("code of no bytes", body(":a", ":b"), 5)
refused("a number for a byte", body("raw 1", "return"), 3)
refused("a handler of three labels", body(":a", "return", "catch a a a"), 5)

# ---- limits, at and past

taken("the farthest target ahead", body("goto far", "nop*32764", ":far", "return"))
refused("a target too far ahead", body("goto far", "nop*32765", ":far", "return"), 3)
taken("the farthest target behind", body(":far", "nop*32768", "goto far"))
refused("a target too far behind", body(":far", "nop*32769", "goto far"), 32_773)
taken("a wide jump ahead", body("goto_w far", "nop*32765", ":far", "return"))
taken("the most code", body("nop*65534", "return"))
refused("too much code", body("nop*65535", "return"), 65_539)
taken("the most constants of ldc lines", body("ldc int #*255", "ldc int 0", "ldc_w int -1", "return"))
refused("too many constants of ldc lines", body("ldc int #*255", "ldc str #"), 258)
taken("the longest name", lines_of("class 0021 ~65535~ B"))
refused("a name too long", lines_of("class 0021 ~65536~ B"), 1)
taken("the longest string", body("ldc str ~65535~", "return"))
refused("a string too long", body("ldc str ~65536~", "return"), 3)
refused("a descriptor too long", lines_of(HEAD, "field 0001 x I", "field 0001 y L~65534~;"), 3)
# five entries of the pool are those of the class, of its superclass and of the kind of the fields, which have one each
taken("the most entries of a pool", lines_of(HEAD, "field 0001 x# I*65529"))
refused("too many entries of a pool", lines_of(HEAD, "field 0001 x# I*65530"), 65_531)
taken("the most superinterfaces", lines_of(HEAD, "implements B*65535"))
refused("too many superinterfaces", lines_of(HEAD, "implements B*65536"), 65_537)
taken("the most fields", lines_of(HEAD, "field 0001 x I*65535"))
refused("too many fields", lines_of(HEAD, "field 0001 x I*65536"), 65_537)
taken("the most methods", lines_of(HEAD, "method 0401 g ()V*65535"))
refused("too many methods", lines_of(HEAD, "method 0401 g ()V*65536"), 65_537)
taken("the most handlers", body(":a", "return", ":b", "catch a b a any*65535"))
refused("too many handlers", body(":a", "return", ":b", "catch a b a any*65536"), 65_541)
WORDS = "I" * 254
taken("the most words of arguments", body(f"invokeinterface B g ({WORDS})V", "return"))
refused("too many words of arguments", body(f"invokeinterface B g ({WORDS}I)V", "return"), 3)
refused("too many words of wide arguments", body(f"invokeinterface B g ({WORDS[:253]}J)V", "return"), 3)

# ---- lines, each alone

for name, line in {
    "a label": ":L0",
    "the least byte": "bipush -128",
    "the highest local": "iload 65535",
    "the ends of an increment": "iinc 255 -128",
    "a string with a space": "ldc_w str a%20b",
    "a far branch": "goto_w top",
    "a tableswitch of the highest int": "tableswitch 2147483647 L0 L1",
    "a lookupswitch of two ints": "lookupswitch L0 -5:L1 7:L2",
    "a field of an array type": "putfield A n [LB%2E;",
    "a call through an interface": "invokeinterface A f ()V",
    "a cast to an array type": "checkcast [I",
    "a byte of its own": "raw cb",
    "a handler of any class": "catch a b c any",
}.items():
    ask(f"{name}, alone", "line", line, "a line")
for name, line in {
    "nothing": "",
    "a space behind a mnemonic": "nop ",
    "wide": "wide",
    "an instruction on longs": "lload_0",
    "a label with a dash": ":a-b",
    "a short above the shorts": "sipush 40000",
    "a local of three bytes": "iload 65536",
    "a string without a word": "ldc str ",
    "two spaces before a label": "ifeq  L",
    "a tableswitch above the highest int": "tableswitch 2147483647 L L L",
    "a lookupswitch of one int twice": "lookupswitch L 7:a 7:b",
    "a field with the type of a method": "getfield A n (I)V",
    "digits in lower case": "putfield A n [LB%2e;",
    "flags of two digits": "class 21 A B",
}.items():
    ask(f"{name}, alone", "line", line, "no line")
ask("an int that is pushed", "int", "ldc int -7", "12 -7")

# ---- texts up to the first line that does not fit

EACH = ("class 0021 A java/lang/Object", "implements I", "field 0002 n I", "method 0401 g ()V", "method 0009 f (I)I 1 1", ":top", "iload_0", "ireturn", "end")  # fmt: skip
ask("each line fits", "front", lines_of(*EACH), "(9, Methods, true)")
ask("a line without its end", "front", "class 0021 A B", "(0, Start, false)")
ask("an interface too late", "front", lines_of("class 0021 A B", "field 0000 n I", "implements C"), "(2, Fields, false)")
ask("an open body", "front", lines_of("class 0021 A B", METHOD, "return"), "(3, Body, true)")

# ---- the line that is told


def in_method(*lines):
    return lines_of("class 0021 A B", METHOD, *lines)


taken("a label behind its branch", in_method("goto a", "return", ":a", "end"))
refused("a body of no lines", in_method("end"), 3)
refused("a label that is missing in an open body", in_method("goto a", "not_a_line"), 4)
refused("a label that is missing before a line that is none", in_method("goto a", "return", "end", "not_a_line"), 3)
refused("two labels of one name", in_method(":a", ":a", "return", "end"), 4)
refused("a missing label before two of one name", in_method("goto b", ":a", ":a", "return", "end"), 3)
refused("two labels of one name before a missing one", in_method(":a", ":a", "goto b", "return", "end"), 4)
refused("no line at all", "", 1)
refused("a class without the end of its line", "class 0021 A B", 1)

# ---- code and class files as they were laid out by hand or by javac

# `switch (x) { case -1: return 10; case 0: return 20; case 2: return 30; default: return 40; }`, by `javac --release 8 -g:none`
ask(
    "a tableswitch of javac", "body",
    in_method("iload_0", "tableswitch -1 d a b d c", ":a", "bipush 10", "ireturn", ":b", "bipush 20", "ireturn", ":c", "bipush 30",
              "ireturn", ":d", "bipush 40", "ireturn", "end"),
    "1aaa000000000028ffffffff000000020000001f000000220000002800000025100aac1014ac101eac1028ac",
)  # fmt: skip
# JVMS 8 section 6.5: iload 0, wide iload 300, and a goto to the offset 0
ask("a local above 255", "body", in_method(":s", "iload 0", "iload 300", "goto s", "end"), "1500c415012ca7fffa")
ask("a wide load and a far branch", "code", in_method("iload 300", "goto_w a", ":a", "return", "end"), "0 LoadInt(300); 4 Goto(9); 9 Return; ")  # fmt: skip
# the class and its name, which both lines need, and the superclass and its name
ask("entries that two lines need", "pool", lines_of("class 0021 A B", "implements A"), "4 entries")
ask(
    "class A", "bytes", lines_of(HEAD, "method 0009 f (II)I 2 2", "iload_0", "iload_1", "iadd", "ireturn", "end"),
    "cafebabe000000340008010001410700010100106a6176612f6c616e672f4f626a656374070003010001660100052849492949010004436f6465"
    "0021000200040000000000010009000500060001000700000010000200020000"
    "00041a1b60ac000000000000",
)  # fmt: skip

# ---- the program's own text

for blocks in (0, 1, 7):
    ask(f"a sample of {blocks} blocks", "bytes", f"%{blocks}", assemble(sample_text(blocks)).hex())

# ---- texts that are cut or spoiled


def front_verdict(front):
    """A front of a good text is a class where it ends behind a line that stands in no body; else its last line is bad, which may be
    missing."""
    bodies = [line for line in front.splitlines() if line == "end" or re.match(r"method( \S+){5}$", line)]
    is_open = bool(bodies) and bodies[-1] != "end"
    whole = front.endswith("\n") and not is_open
    return "a class file" if whole else f"Line({front.count(chr(10)) + 1})"


for name, spelled, text in (
    ("Whole.asm", "@Whole.asm", WHOLE),
    ("a sample of 2 blocks", "%2", sample_text(2)),
    ("a class of each line", lines_of(*EACH), expanded(lines_of(*EACH))),
):
    ask(f"{name}, each front", "cuts", spelled, runs(front_verdict(text[:end]) for end in range(len(text))))
    # a byte that no text has makes its line one that does not fit, or joins it with the next one
    ask(f"{name}, each byte 255", "changes", spelled, runs(f"Line({text[:at].count(chr(10)) + 1})" for at in range(len(text))))

(CRATE / "data" / "Whole.asm").write_text(WHOLE)
(CRATE / "data" / "rows").write_text("".join(f"{asked}\n" for asked, _ in rows))
(CRATE / "stdout").write_text("".join(f"{told}\n" for _, told in rows))
