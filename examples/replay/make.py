#!/usr/bin/env python3
"""Writes the class files and the tests of heaps of crates/kiasan_rows/data, whose ends are those of the Java virtual machine, and
the rows there in which several workers replay tests.

Usage: examples/replay/make.py
It needs javac and java of a JDK 17.
"""

import subprocess
from pathlib import Path

from workers import write_rows

HERE = Path(__file__).resolve().parent
DATA = HERE.parent.parent / "crates" / "kiasan_rows" / "data"
SOURCES = ("Node.java", "Tree.java", "Heavy.java", "Sorts.java")
ASSEMBLER = HERE.parent / "machine" / "Assembler.java"
ASM = "java.base/jdk.internal.org.objectweb.asm"
EXPORTS = [word for package in (ASM, f"{ASM}.util") for word in ("--add-exports", f"{package}=ALL-UNNAMED")]


def run(*words, **options):
    return subprocess.run([str(word) for word in words], check=True, **options)


def main():
    sources = [HERE / name for name in SOURCES]
    run("javac", "-g:none", "-nowarn", "--release", "8", "-d", DATA, *sources, stderr=subprocess.DEVNULL)
    run("java", *EXPORTS, ASSEMBLER, DATA, HERE / "Small.text", HERE / "Odd.text")
    tests = run("java", HERE / "Written.java", HERE / "heaps.tests", DATA, stdout=subprocess.PIPE)
    (DATA / "heaps.tests").write_bytes(tests.stdout)
    write_rows()


if __name__ == "__main__":
    main()
