#!/usr/bin/env python3
"""Prints the processor time of the built program on assembler texts of about 20,000, 40,000, 80,000 and 160,000 lines.

A text is a class of methods of 500 lines: blocks that compare two arguments, jump over an addition and read a field whose name
no other block has, so that labels, branches and the constant pool grow with the text. Each class file is compared with the one
that examples/assemble/assembler.py makes. The time of a text of one line is taken off before the time per line is computed,
since it is that of starting the program. Where the work is linear, the time per line is about the same in each line.

Usage: bench/assemble.py [--runs N] [--program FILE]
Build the program first, by running ./kiasan once.
"""

import sys
import tempfile
from pathlib import Path

from replay import processor_seconds
from straight import ROOT, read_options

sys.path.insert(0, str(ROOT / "examples" / "assemble"))
from assembler import assemble  # noqa: E402

SIZES = [20_000, 40_000, 80_000, 160_000]
HEAD = "class 0021 Bench java/lang/Object"
BLOCKS = 62


def text_of(size):
    """A class of about so many lines."""
    lines, count = [HEAD], 0
    while len(lines) < size:
        lines.append(f"method 0001 m{count} (II)V 2 4")
        for _ in range(BLOCKS):
            lines += ["iload_1", "iload_2", f"if_icmpge L{count}", "iinc 3 1", f":L{count}"]
            lines += ["aload_0", f"getfield Bench f{count} I", "pop"]
            count += 1
        lines += ["return", "end"]
    return "".join(f"{line}\n" for line in lines)


def least_time(program, file, text, runs):
    """The least processor seconds of so many runs on a text."""
    file.write_text(text)
    expected = assemble(text)
    seconds = []
    for _ in range(runs):
        took, status, written = processor_seconds([str(program), "assemble", str(file)])
        if status != 0 or written != expected:
            sys.exit(f"status {status}, {len(written)} bytes that are not the {len(expected)} that are expected")
        seconds.append(took)
    return min(seconds)


def main():
    options = read_options("Times the built program on assembler texts.", "text", 5)
    with tempfile.TemporaryDirectory() as folder:
        file = Path(folder) / "Bench.asm"
        base = least_time(options.program, file, f"{HEAD}\n", options.runs)
        print(f"{'lines':>8} {'least ms':>10} {'us/line':>10} {'to the line above':>18}")
        print(f"{1:>8} {base * 1e3:>10.2f}")
        before = None
        for size in SIZES:
            text = text_of(size)
            least = least_time(options.program, file, text, options.runs)
            each = (least - base) / text.count("\n")
            ratio = f"{each / before:.2f}" if before else ""
            print(f"{text.count(chr(10)):>8} {least * 1e3:>10.2f} {each * 1e6:>10.2f} {ratio:>18}")
            before = each


if __name__ == "__main__":
    main()
