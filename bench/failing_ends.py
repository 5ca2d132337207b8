#!/usr/bin/env python3
"""What the built program answers where the system fails it: files that are none or may not be read, pipes, and outputs that take
nothing. Each line is a case with its status, which must be the one that docs/USING.md has, and nothing is written to standard error.

Usage: bench/failing_ends.py [--program FILE]
Build the program first, by running ./kiasan once. As root, a file without rights is read by a user without any.
"""

import argparse
import os
import subprocess
import sys
import tempfile
import threading
from pathlib import Path

from needed import built_program

ROOT = Path(__file__).resolve().parent.parent
CLASS_FILE = ROOT / "examples" / "A.class"
COMPLETE, CLASS, READ_FAULT, WRITE_FAULT = 0, 3, 6, 7
NOBODY = 65_534
TIME = 60


def explore(*files):
    return ["explore", "--method", "A.f(II)I", *map(str, files)]


def as_nobody():
    if os.geteuid() == 0:
        os.setgid(NOBODY)
        os.setuid(NOBODY)


class Ends:
    """Runs of the program in a folder of its own."""

    def __init__(self, program, folder):
        self.program, self.folder, self.bad = program, folder, 0
        self.content = CLASS_FILE.read_bytes()

    def file(self, name, content=None):
        path = self.folder / name
        path.write_bytes(self.content if content is None else content)
        return path

    def case(self, name, words, wanted, **how):
        """Prints a line, with what is otherwise than wanted."""
        said = tempfile.TemporaryFile()
        how.setdefault("stdout", subprocess.DEVNULL)
        ran = subprocess.run([self.program, *words], cwd=self.folder, stdin=subprocess.DEVNULL, stderr=said, timeout=TIME, **how)
        said.seek(0)
        text = said.read()
        good = ran.returncode == wanted and not text
        self.bad += not good
        print(f"{name}: status {ran.returncode}" + ("" if good else f", and not {wanted}; standard error {text[:80]!r}"), flush=True)

    def files(self):
        self.case("a file whose name has blanks at both ends", explore(self.file(" A.class ")), COMPLETE)
        self.case("a folder in place of a file", explore(self.folder), READ_FAULT)
        self.case("a file that is not there", explore(self.folder / "none"), READ_FAULT)
        self.case("a file of no bytes", explore(self.file("empty", b"")), CLASS)
        self.case("a damaged file with an absent one behind it", explore(self.file("bad", b"x"), self.folder / "none"), READ_FAULT)
        closed = self.file("closed")
        closed.chmod(0)
        # a user without rights must still be able to reach the folder and the program
        self.folder.chmod(0o755)
        self.case("a file without rights", explore(closed), READ_FAULT, preexec_fn=as_nobody)
        pipe = self.folder / "pipe"
        os.mkfifo(pipe)
        writer = threading.Thread(target=pipe.write_bytes, args=(self.content,), daemon=True)
        writer.start()
        self.case("a file that is a pipe", explore(pipe), COMPLETE)
        writer.join(TIME)

    def outputs(self):
        words = explore(self.file("A.class"))
        self.case("a closed standard output", words, WRITE_FAULT, stdout=None, preexec_fn=lambda: os.close(1))
        if Path("/dev/full").exists():
            with open("/dev/full", "wb") as full:
                self.case("a full disk (/dev/full)", words, WRITE_FAULT, stdout=full)
        reader, writer = os.pipe()
        os.close(reader)
        # the signal of a pipe that nobody reads is passed over, so that the write itself fails
        self.case("a pipe that nobody reads", words, WRITE_FAULT, stdout=writer, restore_signals=False)
        os.close(writer)


def main():
    words = argparse.ArgumentParser(description="What the built program answers where the system fails it.")
    words.add_argument("--program", type=Path, default=ROOT / "build" / "kiasan", help="the built program")
    options = words.parse_args()
    with tempfile.TemporaryDirectory() as name:
        ends = Ends(built_program(options.program), Path(name))
        ends.files()
        ends.outputs()
    sys.exit(1 if ends.bad else 0)


if __name__ == "__main__":
    main()
