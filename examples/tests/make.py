#!/usr/bin/env python3
"""Writes `data/rows` and `stdout` of crates/test_rows: texts of tests, with what the grammar in docs/USING.md says of them.

Usage: examples/tests/make.py
In a row `|` is a line feed, `~` the first lines of a test without arguments and objects, and `-` alone no text.
"""

from pathlib import Path

HERE = Path(__file__).resolve().parent
CRATE = HERE.parent.parent / "crates" / "test_rows"

HEAD = "test A.f()V|bounds alloc 0 loops 0 depth 1 steps 1|"
BOUNDS = "bounds alloc 16 loops 10 depth 16 steps 2000|"
rows = []


def ask(question, text, answer, literals=2):
    rows.append((f"{question} {literals} {text}", answer))


def good(text, literals=2):
    """The text is that of its tests, of which each has one last line, and is written as it was."""
    ask("read", text, [f"tests {whole(text)}"], literals)


def bad(text, line, literals=2):
    """No list of tests goes on at that line."""
    ask("read", text, [f"bad line {line}"], literals)


def whole(text):
    return text.split("|").count("end")


def cut(text):
    """What each front of a good text is: tests where it ends behind one, else its last line is bad, which may be missing."""
    full, answers, last = text.replace("~", HEAD), [], None
    for end in range(len(full)):
        front = full[:end]
        behind = front == "" or front.endswith("|end|")
        answer = f"tests {whole(front)}" if behind else f"bad line {front.count('|') + 1}"
        if answer != last:
            answers.append(f"from {end}: {answer}")
            last = answer
    ask("cut", text, answers)


SUM = f"test A.f(II)I|{BOUNDS}arg 0|arg -7|returns 0|end|"
SWAP = (
    f"test Node.swapNode()LNode;|{BOUNDS}arg i0|in i0 Node 5 i1|in i1 Node 3 null|"
    "returns i1|out i0 5 null|out i1 3 i0|end|"
)
LEAST = f"test D.div(II)I|{BOUNDS}arg -2147483648|arg -1|returns -2147483648|end|"
ZERO = f"test D.div(II)I|{BOUNDS}arg 0|arg 0|throws n0|new n0 java/lang/ArithmeticException|end|"
NAMES = (
    "test p/A%20b.%3Cx%2E(I[[Lp/%C3%A9;)V|bounds alloc 1024 loops 1000 depth 256 steps 100000|"
    "arg i2|arg s1|arg n0|arg -2147483648|arg 2147483647|arg null|"
    "in i0 p/A%20b i0 s0 n1 7|in i1 [I 1 2 3|in i2 [[Lp/%C3%A9; null|in i3 [Z|in i4 %5BI|"
    "throws n1|"
    "out i0 i4 s1 n0 8|out i1 1 2 4|out i2 i2|out i3|out i4 5|"
    "new n0 java/lang/String|new n1 java/lang/Error|new n2 [LA; n2 n1 s0 i3|end|"
).replace("%3Cx%2E", "<x%2E>")
ENDINGS = [
    "returns|",
    "returns 0|",
    "returns null|",
    "returns s1|",
    "in i0 A|returns i0|out i0|",
    "in i0 A|throws i0|out i0|",
    "throws s0|",
    "returns n0|new n0 A|",
    "throws n1|new n0 A|new n1 A|",
    "illtyped p/%20B.a%20b([[I)L%C3%A9; 4294967295|",
    "past alloc|",
    "past loops|",
    "past depth|",
    "past steps|",
]

# Worked tests, and none.
ask("read", "-", ["tests 0"])
good(SUM)
good(SWAP)
good(SWAP.replace("out i1 3 i0", "out i1 4 i0"))
good(SWAP + SWAP)
good(LEAST)
good(ZERO)
good(NAMES)
for ending in ENDINGS:
    good(f"~{ending}end|")
good("".join(f"~{ending}end|" for ending in ENDINGS))
for text in [SUM + LEAST, SWAP, NAMES, "~illtyped A.f()V 0|end|~past depth|end|"]:
    cut(text)

# How a run ends, in the words of the test.
ask("run", SWAP, ["returns i1|out i0 5 null|out i1 3 i0|"])
ask("run", ZERO, ["throws n0|new n0 java/lang/ArithmeticException|"])
MADE = f"test A.f(LNode;)V|{BOUNDS}arg i0|in i0 Node 5 null|throws n0|out i0 5 n0|new n0 Node 3 s0|end|"
ask("run", MADE, ["throws n0|out i0 5 n0|new n0 Node 3 s0|"], 1)
ask("run", "".join(f"~{ending}end|" for ending in ENDINGS[9:]), ENDINGS[9:])

# An object's number in the heap: the input's first, then the literals, then the run's.
ask("numbers", SWAP, [
    "args #0", "Node 5 #1", "Node 3 null", "returned #1", "Node 5 null", "Node 3 #0", "java/lang/String",
], 1)
ask("numbers", NAMES, [
    "args #2 #6 #7 -2147483648 2147483647 null",
    "p/A%20b #0 #5 #8 7", "array of I 1 2 3", "array of [Lp/%C3%A9; null", "array of Z", "%5BI",
    "threw #8",
    "p/A%20b #4 #6 #7 8", "array of I 1 2 4", "array of [Lp/%C3%A9; #2", "array of Z", "%5BI 5",
    "java/lang/String", "java/lang/String",
    "java/lang/String", "java/lang/Error", "array of LA; #9 #8 #5 #3",
])

# A number that is too high, where it is settled: of an input object that an argument or a first value names, behind the last
# `in` line, since more of them may come; elsewhere at its own line.
bad("~arg i0|returns|end|", 4)
bad("~arg i1|in i0 A|returns|out i0|end|", 5)
bad("~in i0 A i1|in i1 A i2|returns|out i0|out i1|end|", 5)
good("~in i0 A i1|in i1 A i1|returns|out i0|out i1|end|")
bad("~arg i5|arg 1|in i0 A|broken|", 6)
bad("~in i0 A i0|throws i1|out i0|end|", 4)
bad("~in i0 A i0|returns i1|out i0|end|", 4)
bad("~in i0 A i0|returns|out i0 i1|end|", 5)
bad("~in i0 A i0|returns|out i0 i0|new n0 A i1|end|", 6)
# Of a literal, at its own line.
bad("~arg s2|returns|end|", 3)
good("~arg s2|returns|end|", 3)
bad("~arg s0|returns|end|", 3, 0)
bad("~in i0 A s2|returns|out i0|end|", 3)
bad("~returns s2|end|", 3)
bad("~throws s2|end|", 3)
bad("~in i0 A|returns|out i0 s2|end|", 5)
bad("~returns|new n0 A s2|end|", 4)
# Of an object of the run, at the end.
bad("~arg n0|returns|end|", 5)
bad("~throws n1|new n0 A|end|", 5)
bad("~in i0 A n0|returns|out i0|end|", 6)
bad("~in i0 A|returns|out i0 n0|end|", 6)
bad("~returns|new n0 A n1|new n1 A n2|end|", 6)
good("~returns|new n0 A n1|new n1 A n0|end|")
# No number has more than 32 bits.
bad("~arg i4294967296|returns|end|", 3)
bad("~arg n4294967296|returns|end|", 3)

# Lines out of their order, twice, missing or too many.
bad("text", 1)
bad("text|", 1)
bad("|", 1)
bad("end|", 1)
bad(BOUNDS, 1)
bad("test A.f()V|", 2)
bad("test A.f()V|test A.f()V|", 2)
bad("test A.f()V|returns|", 2)
bad("~", 3)
bad(f"~{BOUNDS}", 3)
bad("~end|", 3)
bad("~in i0 A|arg 0|", 4)
bad("~in i1 A|", 3)
bad("~in i0 A|in i0 A|", 4)
bad("~in i0 A|in i2 A|", 4)
bad("~out i0|", 3)
bad("~new n0 A|", 3)
bad("~in i0 A|returns|end|", 5)
bad("~in i0 A|in i1 A|returns|out i0|end|", 7)
bad("~in i0 A|returns|out i1|end|", 5)
bad("~in i0 A|returns|out i0|out i1|end|", 6)
bad("~in i0 A|returns|out i0|out i0|end|", 6)
bad("~in i0 A|returns|new n0 A|out i0|end|", 5)
bad("~returns|new n1 A|end|", 4)
bad("~returns|new n0 A|new n0 A|end|", 5)
bad("~returns|returns|end|", 4)
bad("~returns|arg 0|end|", 4)
bad("~returns|in i0 A|end|", 4)
bad("~returns|test A.f()V|", 4)
bad("~returns|end|end|", 5)
bad("~returns|end|text|", 5)
bad("~returns|end", 4)
bad("~returns|end||", 5)
bad("~returns|end| ", 5)

# Other spellings.
for line in [
    "arg", "arg ", "arg 0 ", "arg  0", " arg 0", "Arg 0", "arg 0 1", "arg -0", "arg 00", "arg +1", "arg 2147483648",
    "arg -2147483649", "arg nulls", "arg Null", "arg i", "arg i00", "arg i-1", "arg o0", "arg i0 ",
    "in i0", "in 0 A", "in i00 A", "in i0 A ", "in i0 A  0", "in i0  A", "in i0 ", "in i0 LA;", "in i0 [V", "in i0 [", "in i0 [I0",
    "in i0 A%41", "in i0 A%5b", "in i0 A%5", "in i0 A;", "in i0 A.B", "in n0 A",
    "returns ", "returns 0 ", "returns 0 0", "return", "returns x", "throws", "throws null", "throws 0", "throws i0 ",
    "illtyped", "illtyped A.f()V", "illtyped A.f()V ", "illtyped A.f()V -1", "illtyped A.f()V 01", "illtyped A.f()V 4294967296",
    "illtyped A 0", "illtyped A.f() 0", "illtyped .f()V 0",
    "past", "past k", "past array", "past paths", "past steps ", "past  steps", "Past steps",
]:
    bad(f"~{line}|", 3)
for line in ["out i00", "out i0 ", "out i0  0", "out 0", "out n0", "out i0 x", "out i0 A 0"]:
    bad(f"~in i0 A|returns|{line}|", 5)
for line in ["new n00 A", "new i0 A", "new n0", "new n0 A ", "new 0 A", "END", "end ", " end"]:
    bad(f"~returns|{line}|", 4)
for line in ["test", "test ", "test A", "test A.f", "test A.f()", "test A.f()V ", " test A.f()V", "test  A.f()V", "test .f()V", "test A%2fB.f()V"]:
    bad(f"{line}|", 1)

# The ranges of the bounds, and their spelling.
for bounds in [
    "alloc 1025 loops 10 depth 1 steps 20", "alloc 0 loops 1001 depth 1 steps 20", "alloc 0 loops 0 depth 0 steps 20",
    "alloc 0 loops 0 depth 257 steps 20", "alloc 0 loops 0 depth 1 steps 0", "alloc 0 loops 0 depth 1 steps 100001",
    "alloc 0 loops 0 depth 1 steps 01", "alloc 0 loops 0 depth 1 steps -1", "alloc 0 loops 0 depth 1 steps 1 ",
    "alloc 0 loops 0 depth 1", "loops 0 alloc 0 depth 1 steps 1", "alloc 0  loops 0 depth 1 steps 1",
    "alloc -1 loops 0 depth 1 steps 1", "alloc 0 loops -1 depth 1 steps 1", "alloc 4294967296 loops 0 depth 1 steps 1", "k 3 alloc 0 loops 0 depth 1 steps 1",
]:
    bad(f"test A.f()V|bounds {bounds}|", 2)
good("~illtyped A.()V 0|end|")
good("test A.f()V|bounds alloc 0 loops 0 depth 1 steps 1|returns|end|")
good("test A.f()V|bounds alloc 1024 loops 1000 depth 256 steps 100000|returns|end|")

(CRATE / "data" / "rows").write_text("".join(f"{row}\n" for row, _ in rows))
(CRATE / "stdout").write_text("".join("".join(f"{line}\n" for line in [f"> {row}", *answer]) for row, answer in rows))
print(len(rows), "rows")
