#!/usr/bin/env python3
"""Runs the built program on inputs that are as deep as they may be, with the stack that the system gives and with a small one: nested
arrays, chains of terms, superclasses and objects, frames, and nested tries. Each answer is known beforehand, by the rules of
docs/USING.md; the same comes with either stack, since nothing calls itself once for each part of an input.

For each it prints the status, the processor time and the most memory that the program had.

Usage: bench/deep_inputs.py [--program FILE] [--stack KIB] [CASE ..]
Build the program first, by running ./kiasan once. CASE picks the cases whose names have it in them.
"""

import argparse
import resource
import struct
import subprocess
import sys
import tempfile
from pathlib import Path

from hostile_files import ACONST_NULL, ATHROW, LONGEST, OPEN, RETURN, STATIC, ClassFile
from link import field_entry
from needed import TIME, built_program
from straight import ROOT

POP, ALOAD_0, IRETURN, GETFIELD, NEG = 0x57, 0x2A, 0xAC, 0xB4, "ineg"
# so many negations fit twice into a run of 100,000 instructions
NEGATIONS = 49_990
STEPS = 100_000


class Case:
    """Words with the files that they name, the status and the last line of the answer, and lines that stand in it."""

    def __init__(self, name, words, files, last, status=0, lines=()):
        self.name, self.words, self.files, self.last, self.status, self.lines = name, words, files, last, status, lines


def total(paths, ended, cut=0):
    return f"total {paths} ended {ended} cut {cut} undecided 0 open 0"


def test_text(target, *lines, depth=16, steps=STEPS):
    return "\n".join([f"test {target}", f"bounds alloc 16 loops 10 depth {depth} steps {steps}", *lines, "end", ""]).encode()


def assembled(*lines):
    return "".join(f"{line}\n" for line in lines).encode()


PASSES = "tests 1 passed 1 differed 0"


def dimensions():
    """A parameter of 255 dimensions: it is null, an array of 0 to 3 elements, or a longer one, which is cut; and a test of one."""
    kind = "[" * 255 + "I"
    file = ClassFile("D")
    file.add_method(STATIC, "f", f"({kind})V", bytes([ALOAD_0, POP, RETURN]), 1)
    files = {"D.class": file.bytes()}
    yield Case("dimensions", ["explore", "--method", f"D.f({kind})V", "D.class"], files, total(6, 5, 1))
    test = test_text(f"D.f({kind})V", "arg i0", f"in i0 {kind} null i0", "returns", "out i0 null i0")
    # an element has one dimension less than its array
    yield Case("dimensions, an array in itself", ["replay", "--tests", "t", "D.class"], {**files, "t": test}, "refused 62 test 0", 9)
    test = test_text(f"D.f({kind})V", "arg i0", f"in i0 {kind} null i1", f"in i1 {kind[1:]} null", "returns", "out i0 null i1", "out i1 null")
    yield Case("dimensions, a test", ["replay", "--tests", "t", "D.class"], {**files, "t": test}, PASSES)


def negations():
    """An int that is negated 99,980 times, in two turns of a loop whose count is known; and a test of it."""
    turn = ["iload 0", *[NEG] * NEGATIONS, "istore 0", "iinc 1 1", "iload 1", "iconst_2", "if_icmpge END", "goto_w START"]
    method = ["method 0009 f (I)I 2 2", "iconst_0", "istore 1", ":START", *turn, ":END", "iload 0", "ireturn", "end"]
    files = {"N.asm": assembled("class 0021 N java/lang/Object", *method)}
    last = f"let t{2 * NEGATIONS - 1} neg t{2 * NEGATIONS - 2}"
    words = ["explore", "--steps", str(STEPS), "--method", "N.f(I)I", "N.class"]
    yield Case("negations", words, files, total(1, 1), lines=(last, f"returns t{2 * NEGATIONS - 1}"))
    test = test_text("N.f(I)I", "arg 7", "returns 7")
    yield Case("negations, a test", ["replay", "--tests", "t", "N.class"], {**files, "t": test}, PASSES)


def asked():
    """An int that is negated 10,000 times and then compared with 0: the solver is asked about a chain of so many terms."""
    lines = ["method 0009 f (I)I 1 1", "iload 0", *[NEG] * 10_000, "ifeq ZERO", "iconst_1", "ireturn", ":ZERO", "iconst_0", "ireturn", "end"]
    files = {"Q.asm": assembled("class 0021 Q java/lang/Object", *lines)}
    words = ["explore", "--steps", str(STEPS), "--method", "Q.f(I)I", "Q.class"]
    yield Case("a chain that is asked about", words, files, total(2, 2))


def superclasses():
    """64 classes, each above the next one: an argument of the first is null or of each of them, and a field of the first is read."""
    files, above = {}, "java/lang/Object"
    for number in range(64):
        name = f"S{number}"
        file = ClassFile(name, above)
        if number == 0:
            file.add_field("f", "I")
            read = struct.pack(">BBHB", ALOAD_0, GETFIELD, file.add_reference(file.this, "f", "I", field_entry), IRETURN)
            file.add_method(STATIC, "m", "(LS0;)I", read, 1)
        files[f"{name}.class"], above = file.bytes(), name
    yield Case("superclasses", ["explore", "--method", "S0.m(LS0;)I", *files], files, total(65, 65))
    test = test_text("S0.m(LS0;)I", "arg i0", "in i0 S63 5", "returns 5", "out i0 5")
    yield Case("superclasses, a test", ["replay", "--tests", "t", *files], {**files, "t": test}, PASSES)


def interfaces():
    """63 interfaces, each above the next one, and a class of the last: an argument of the first is null or of that class."""
    files, above = {}, []
    for number in range(63):
        lines = [f"class 0601 I{number} java/lang/Object", *(f"implements {name}" for name in above)]
        files[f"I{number}.asm"], above = assembled(*lines), [f"I{number}"]
    method = ["method 0009 m (LI0;)V 1 1", "aload 0", "pop", "return", "end"]
    files["C.asm"] = assembled("class 0021 C java/lang/Object", "implements I62", *method)
    classes = [name.replace("asm", "class") for name in files]
    yield Case("interfaces", ["explore", "--method", "C.m(LI0;)V", *classes], files, total(2, 2))


def frames():
    """A method that calls itself: 256 frames and no more."""
    lines = ["method 0009 r (I)I 2 1", "iload 0", "ifne DOWN", "iconst_0", "ireturn", ":DOWN", "iload 0", "iconst_1", "isub"]
    lines += ["invokestatic R r (I)I", "iconst_1", "iadd", "ireturn", "end"]
    files = {"R.asm": assembled("class 0021 R java/lang/Object", *lines)}
    words = ["replay", "--tests", "t", "R.class"]
    yield Case("frames", words, {**files, "t": test_text("R.r(I)I", "arg 255", "returns 255", depth=256)}, PASSES)
    yield Case("frames, one more", words, {**files, "t": test_text("R.r(I)I", "arg 256", "past depth", depth=256)}, PASSES)


def tries():
    """65,535 tries, each around the one before; what is thrown at the last instruction is caught by the outermost alone."""
    file = ClassFile("T")
    other = file.named("java/lang/ClassCastException")
    code = bytes(LONGEST - 4) + bytes([ACONST_NULL, ATHROW, POP, RETURN])
    target = LONGEST - 2
    tries = [struct.pack(">HHHH", 0, end, target, other) for end in range(1, LONGEST)] + [struct.pack(">HHHH", 0, LONGEST, target, 0)]
    file.add_method(STATIC, "m", "()V", code, handlers=b"".join(tries))
    words, files = ["replay", "--tests", "t", "T.class"], {"T.class": file.bytes()}
    yield Case("tries", words, {**files, "t": test_text("T.m()V", "returns", "new n0 java/lang/NullPointerException")}, PASSES)


def objects():
    """A list of 100,000 objects in a test, of which the first two are swapped; and one that is a ring."""
    swap = ["aload 0", "getfield L next LL;", "astore 1", "aload 0", "aload 1", "getfield L next LL;", "putfield L next LL;"]
    swap += ["aload 1", "aload 0", "putfield L next LL;", "aload 1", "areturn", "end"]
    files = {"L.asm": assembled("class 0021 L java/lang/Object", "field 0001 next LL;", "method 0001 s ()LL; 2 2", *swap)}
    count = 100_000
    for name, end in (("objects", "null"), ("objects in a ring", "i0")):
        after = [f"i{number + 1}" for number in range(count - 1)] + [end]
        inputs = [f"in i{number} L {next_one}" for number, next_one in enumerate(after)]
        outputs = [f"out i{number} {next_one}" for number, next_one in enumerate(["i2", "i0", *after[2:]])]
        test = test_text("L.s()LL;", "arg i0", *inputs, "returns i1", *outputs)
        yield Case(name, ["replay", "--tests", "t", "L.class"], {**files, "t": test}, PASSES)


CASES = [dimensions, negations, asked, superclasses, interfaces, frames, tries, objects]


class Runs:
    """Runs of the program in a folder of its own."""

    def __init__(self, options, folder):
        self.options, self.folder, self.bad = options, folder, 0

    def run(self, case):
        for name, content in case.files.items():
            (self.folder / name).write_bytes(content)
            if name.endswith(".asm"):
                with open(self.folder / name.replace(".asm", ".class"), "wb") as out:
                    subprocess.run([self.options.program, "assemble", name], cwd=self.folder, stdout=out, check=True)
        for stack in (None, self.options.stack):
            self.run_with(case, stack)

    def run_with(self, case, stack):
        """Prints a line, with what is otherwise than wanted."""

        def set_stack():
            if stack is not None:
                resource.setrlimit(resource.RLIMIT_STACK, (stack << 10, stack << 10))

        timed = [TIME, "--quiet", "--format", "%U %S %M", "--output", "cost", str(self.options.program), *case.words]
        ran = subprocess.run(timed, cwd=self.folder, stdin=subprocess.DEVNULL, capture_output=True, text=True, preexec_fn=set_stack)
        lines = ran.stdout.splitlines()
        good = (ran.returncode, lines[-1:], ran.stderr) == (case.status, [case.last], "") and set(case.lines) <= set(lines)
        self.bad += not good
        user, system, memory = (self.folder / "cost").read_text().splitlines()[-1].split()
        label = case.name if stack is None else f"{case.name}, a stack of {stack} KiB"
        otherwise = "" if good else f", and not {case.status} with {case.last}: {lines[-1:]} {ran.stderr[:80]}"
        print(f"{label}: status {ran.returncode}, {float(user) + float(system):.2f} s, {int(memory) / 1024:.0f} MiB{otherwise}", flush=True)


def main():
    words = argparse.ArgumentParser(description="Runs the built program on inputs that are as deep as they may be.")
    words.add_argument("cases", nargs="*", metavar="CASE", help="a part of the name of a case")
    words.add_argument("--program", type=Path, default=ROOT / "build" / "kiasan", help="the built program")
    words.add_argument("--stack", type=int, default=128, help="the small stack, in KiB (128)")
    options = words.parse_args()
    options.program = built_program(options.program)
    with tempfile.TemporaryDirectory() as name:
        runs = Runs(options, Path(name))
        for make in CASES:
            for case in make():
                if not options.cases or any(part in case.name for part in options.cases):
                    runs.run(case)
    sys.exit(1 if runs.bad else 0)


if __name__ == "__main__":
    main()
