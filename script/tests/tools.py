"""What tests of the script share: calls, the stored rows, and what the pages say."""

import os
import subprocess
import tempfile
from concurrent.futures import ThreadPoolExecutor
from contextlib import contextmanager
from pathlib import Path

ROOT = Path(__file__).resolve().parent.parent.parent
SCRIPT = ROOT / "kiasan"
ROWS = ROOT / "crates" / "kiasan_rows"
DATA = ROWS / "data"
AT_ONCE, MOST_CHARACTERS = 3, 300
# Words that set each bound to its least, by docs/USING.md.
LEAST = "--k 0 --array 0 --alloc 0 --loops 0 --depth 1 --steps 1 --paths 1 --budget 1"
# The program that the tests are run on; `run` sets it.
PROGRAM = ""


class Ran:
    """How a call ended: its status, and what it wrote."""

    def __init__(self, status, out, err):
        self.status, self.out, self.err = status, out, err

    @property
    def said(self):
        """The lines on standard error, without `kiasan: `, which each has."""
        lines = self.err.split("\n")
        same(lines.pop(), "", "the end of the last line")
        for line in lines:
            if not line.startswith("kiasan: "):
                raise AssertionError(f"a line without kiasan: {line!r}")
        return [line[len("kiasan: ") :] for line in lines]


def same(found, wanted, what):
    if found != wanted:
        raise AssertionError(f"{what}: {found!r} in place of {wanted!r}")


def judge_all(judge, items):
    """Judges all items, several at once, and tells of all that fail."""

    def failure(item):
        try:
            judge(item)
        except AssertionError as error:
            return str(error)[:MOST_CHARACTERS]
        return None

    with ThreadPoolExecutor(AT_ONCE) as pool:
        failures = list(filter(None, pool.map(failure, items)))
    if failures:
        raise AssertionError("\n".join([f"{len(failures)} of {len(items)}", *failures]))


def environment(**more):
    """The environment of a call, with the program that the tests are run on."""
    return {**os.environ, "KIASAN_PROGRAM": PROGRAM, **more}


def call(*words, cwd=DATA, script=SCRIPT, **more):
    """Runs the script on words."""
    more.setdefault("env", environment())
    more.setdefault("stdin", subprocess.DEVNULL)
    more.setdefault("stdout", subprocess.PIPE)
    ran = subprocess.run([script, *words], cwd=cwd, stderr=subprocess.PIPE, check=False, **more)
    return Ran(ran.returncode, ran.stdout, ran.stderr.decode("utf-8", "surrogateescape"))


def direct(*words, cwd=DATA, **more):
    """Runs the program itself on words."""
    ran = subprocess.run([PROGRAM, *words], cwd=cwd, stdin=subprocess.DEVNULL, stdout=subprocess.PIPE, check=False, **more)
    return Ran(ran.returncode, ran.stdout, "")


def stand_in(path, text, **more):
    """An environment whose program is a shell script in that folder."""
    (path / "program").write_text(f"#!/bin/sh\n{text}", encoding="ascii")
    (path / "program").chmod(0o755)
    return environment(KIASAN_PROGRAM=str(path / "program"), **more)


@contextmanager
def folder():
    """A folder of its own, which is removed."""
    with tempfile.TemporaryDirectory() as path:
        yield Path(path)


def rows():
    """Each stored row: its words, output and status."""
    found = []
    for block in ("\n" + (ROWS / "stdout").read_text(encoding="latin-1")).split("\n> ")[1:]:
        head, _, rest = block.partition("\n")
        output, _, status = ("\n" + rest).rpartition("\nstatus ")
        found.append((head.split(" ") if head else [], (output + "\n")[1:].encode("latin-1"), int(status)))
    return found


def cells(page, first):
    """The cells of the one row of a page of docs/ that has four cells and begins with that one."""
    lines = (ROOT / "docs" / page).read_text(encoding="utf-8").split("\n")
    found = [line[2:-2].split(" | ") for line in lines if line.startswith(f"| {first} |")]
    found = [row for row in found if len(row) == 4]
    same(len(found), 1, f"rows of {page} that begin with {first}")
    return found[0]


def refusal(form):
    """The cause and what to do of a refusal, by the page."""
    return cells("REFUSALS.md", f"`{form}`")[2:]


def explained(form, *parts):
    """The lines on a refusal: the cause by the page, the parts, and what to do by the page."""
    cause, to_do = refusal(form)
    return [f"refused {form.split()[1]}: {cause}", *parts, f"to do: {to_do}"]


def status_lines(number):
    """The lines on a status, by the page."""
    _, _, comes, to_do = cells("USING.md", number)
    return [f"status {number}: {comes}", f"to do: {to_do}"]
