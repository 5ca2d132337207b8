#!/usr/bin/env python3
"""Writes the class files of crates/machine_rows/data, and the endings of its table of rows into its `stdout`.

The class files are those of the Java sources and of the texts beside this script; the texts have what javac does not write.
The endings are those of the Java virtual machine, but for the rows whose ending the table has.

Usage: examples/machine/make.py
It needs javac and java of a JDK 17: later ones move their own ASM, which Assembler.java uses.
"""

import subprocess
from pathlib import Path

HERE = Path(__file__).resolve().parent
CRATE = HERE.parent.parent / "crates" / "machine_rows"
DATA = CRATE / "data"
ASM = "java.base/jdk.internal.org.objectweb.asm"
EXPORTS = [word for package in (ASM, f"{ASM}.util") for word in ("--add-exports", f"{package}=ALL-UNNAMED")]
TOOLS = ("Assembler.java", "Expect.java")


def run(*words, **options):
    return subprocess.run([str(word) for word in words], check=True, **options)


def main():
    for file in DATA.glob("*.class"):
        file.unlink()
    sources = [source for source in sorted(HERE.glob("*.java")) if source.name not in TOOLS]
    for source in sources:
        run("javac", "-g:none", "-nowarn", "--release", "8", "-d", DATA, source, stderr=subprocess.DEVNULL)
    run("java", *EXPORTS, HERE / "Assembler.java", DATA, *sorted(HERE.glob("*.text")))
    endings = run("java", HERE / "Expect.java", DATA / "rows", DATA, stdout=subprocess.PIPE)
    (CRATE / "stdout").write_bytes(endings.stdout)


if __name__ == "__main__":
    main()
