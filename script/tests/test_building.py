"""Building, with a small stand-in for rt that writes a log. It goes on where the test lets it, so nothing waits for a time."""

import os
import pty
import signal
import subprocess
import threading
import time
from contextlib import contextmanager

from script.tests import tools
from script.tests.test_alone import FIRST, change_a_source, copy, keep, without_program
from script.tests.tools import call, same

CRATES = subprocess.run([tools.ROOT / "release/sum", "--crates"], stdout=subprocess.PIPE, check=True).stdout.decode().split()
MOST_SECONDS = 100
HEAD = '#!/bin/sh\necho "$PWD" >>"$TOLD"\n'
PROVES = 'echo "logic=proved functions=1"\necho "rt: one proved"\n'
WAITS = 'read -r line <"$GO"\n'
# It starts another program, and both end by a signal; else it is told that one of them went on.
SLEEPS = '(sleep 20; echo late >>"$TOLD") &\nwait\n'
MAKES = 'mkdir -p crates/kiasan_main/out && cp "$MADE" crates/kiasan_main/out/kiasan_main\n'
FAILS = 'for line in 1 2 3 4 5 6 7 8 9 10 11; do printf "  line %s: %s\\n" "$line" "a\\tb"; done >&2\nexit 1\n'


class StandIn:
    """A stand-in for rt: the environment whose rt it is, which names no program, and how far it may go.

    Where a test has not let it go on in time, as where no line of progress comes, it goes to its end.
    """

    def __init__(self, top, body):
        self.top = top
        folder = top.parent / "stand-in"
        folder.mkdir()
        (folder / "rt").write_text(HEAD + body, encoding="ascii")
        (folder / "rt").chmod(0o755)
        self.tmp = top.parent / "a tmp"
        self.tmp.mkdir()
        os.mkfifo(top.parent / "go")
        self._go = os.open(top.parent / "go", os.O_RDWR)
        self._late = threading.Timer(MOST_SECONDS, os.write, (self._go, b"late\n" * 10))
        self._late.start()
        self._told = top.parent / "told"
        self.env = without_program(
            PATH=f"{folder}:{os.environ['PATH']}",
            TOLD=str(self._told),
            GO=str(top.parent / "go"),
            MADE=tools.PROGRAM,
            TMPDIR=str(self.tmp),
        )

    def go_on(self):
        os.write(self._go, b"go\n")

    def builds(self):
        """How often it was called."""
        return len(self._told.read_text(encoding="ascii").splitlines()) if self._told.exists() else 0

    def left(self):
        """The files in the folders of builds, but for those that python3 keeps."""
        files = [*(self.top / "build").glob("*"), *self.tmp.rglob("*")]
        return sorted(path.name for path in files if path.is_file())

    def close(self):
        self._late.cancel()
        self._late.join()
        os.close(self._go)


@contextmanager
def building(body, changed=True):
    """A copy of the tracked files, with a stand-in for rt; the kept program is not of its sources, where one is changed."""
    with copy() as top:
        if changed:
            change_a_source(top)
        stand_in = StandIn(top, body)
        try:
            yield stand_in
        finally:
            stand_in.close()


def first(stand_in, **more):
    """The first command of a page, in the copy."""
    return call(*FIRST, script=stand_in.top / "kiasan", cwd=stand_in.top, env=stand_in.env, **more)


def build(stand_in):
    return call("build", script=stand_in.top / "kiasan", cwd=stand_in.top, env=stand_in.env)


def begins_with_building(said):
    same(said[0].startswith("building the program, which proves it first"), True, said[0])
    return said[1:]


def read_piece(lines):
    """A byte, or none at the end; a terminal whose other side is closed ends by an error."""
    try:
        return os.read(lines, 1)
    except OSError:
        return b""


def test_a_build_tells_how_far_it_is():
    with building((PROVES + WAITS) * 3 + MAKES) as stand_in:
        top = stand_in.top
        script = subprocess.Popen(
            [top / "kiasan", *FIRST], cwd=top, env=stand_in.env, stdout=subprocess.PIPE, stderr=subprocess.PIPE
        )
        said = [script.stderr.readline()]
        for _ in range(3):
            said.append(script.stderr.readline())
            stand_in.go_on()
        out, rest = script.communicate()
        wanted = [f"kiasan: proved {number} of {len(CRATES)} crates\n".encode() for number in (1, 2, 3)]
        same((said[1:], rest), (wanted, b""), "lines of progress")
        same((script.returncode, out.split(b"\n")[1]), (0, b"target A.f(II)I"), "a build")
        same(list(stand_in.tmp.iterdir()), [], "the folder of the build")
        ran = first(stand_in)
        same((ran.status, ran.err, stand_in.builds()), (0, "", 1), "a program that is built")


def test_a_build_goes_on_where_nobody_listens():
    with building((PROVES + WAITS) * 2 + MAKES) as stand_in:
        top = stand_in.top
        script = subprocess.Popen(
            [top / "kiasan", *FIRST], cwd=top, env=stand_in.env, stdout=subprocess.PIPE, stderr=subprocess.PIPE
        )
        script.stderr.readline()
        script.stderr.readline()
        script.stderr.close()
        stand_in.go_on()
        stand_in.go_on()
        out = script.stdout.read()
        same((script.wait(), out.split(b"\n")[1:2]), (0, [b"target A.f(II)I"]), "a build that nobody listens to")
        same(list(stand_in.tmp.iterdir()), [], "the folder of the build")


def test_no_more_crates_than_there_are_are_told():
    """Other programs are proved too; a crate that was proved on this machine before is kept."""
    with building('cat "$TOLD.kept"\n' + WAITS + PROVES * 3 + WAITS + FAILS) as stand_in:
        top = stand_in.top
        kept = "".join(f"rt: {crate} is kept\n" for crate in CRATES[1:])
        (top.parent / "told.kept").write_text(kept, encoding="ascii")
        script = subprocess.Popen([top / "kiasan", "build"], cwd=top, env=stand_in.env, stderr=subprocess.PIPE)
        script.stderr.readline()
        for number in (len(CRATES) - 1, len(CRATES)):
            wanted = f"kiasan: proved {number} of {len(CRATES)} crates\n"
            same(script.stderr.readline().decode(), wanted, "a line of progress")
            stand_in.go_on()
        script.communicate()


def test_on_a_terminal_one_line_is_written_anew():
    wanted = "".join(f"\rkiasan: proved {number} of {len(CRATES)} crates" for number in (1, 2))
    for body, lines in (((PROVES + WAITS) * 2 + MAKES, [wanted, ""]), (MAKES, [""])):
        with building(body) as stand_in:
            ours, theirs = pty.openpty()
            script = subprocess.Popen([stand_in.top / "kiasan", "build"], cwd=stand_in.top, env=stand_in.env, stderr=theirs)
            os.close(theirs)
            said = b""
            while piece := read_piece(ours):
                said += piece
                if said.endswith(b" crates"):
                    stand_in.go_on()
            os.close(ours)
            same(script.wait(), 0, "a build")
            same(said.decode().split("\r\n")[1:], lines, "the one line of progress, or none")


def test_build_builds_whatever_is_there():
    with building(MAKES, changed=False) as stand_in:
        keep(stand_in.top)
        for number in (1, 2):
            ran = build(stand_in)
            same((ran.status, ran.out, stand_in.builds()), (0, b"", number), "build")
            begins_with_building(ran.said)


def test_a_build_that_fails():
    with building(FAILS) as stand_in:
        ran = build(stand_in)
        wanted = [f"the program could not be built; the last lines of {stand_in.top}/build/kiasan.log:"]
        wanted += [f"  line {number}: a\\tb" for number in range(2, 12)]
        same((ran.status, begins_with_building(ran.said)), (70, wanted), "a build that fails")
        same(list(stand_in.tmp.iterdir()), [], "the folder of the build")


def test_a_failed_test_is_told():
    with building(MAKES + "exit 1\n") as stand_in:
        ran = first(stand_in)
        same((ran.status, ran.out.split(b"\n")[1]), (0, b"target A.f(II)I"), "a failed test")
        wanted = f"the program is proved and built, but something else failed; see {stand_in.top}/build/kiasan.log"
        same(ran.said[-1], wanted, "a failed test")


def interrupt(stand_in, number, *words):
    """Sends a signal to a call that builds, which ends by it, with all that it has started."""
    reading, writing = os.pipe()
    script = subprocess.Popen(
        [stand_in.top / "kiasan", *words],
        cwd=stand_in.top,
        env={**stand_in.env, "TOLD": f"/dev/fd/{writing}"},
        pass_fds=[writing],
        stdout=subprocess.PIPE,
        stderr=subprocess.DEVNULL,
    )
    os.close(writing)
    with os.fdopen(reading, encoding="ascii") as told:
        room = told.readline().strip()
        script.send_signal(number)
        same((script.communicate()[0], script.returncode), (b"", -number), f"signal {number}")
        same(told.read(), "", "the end of all that the build started")
    same((room != "", os.path.exists(room)), (True, False), "the folder of the build")


def test_an_interrupt_leaves_nothing_behind():
    for number in (signal.SIGINT, signal.SIGTERM, signal.SIGHUP):
        with building(SLEEPS) as stand_in:
            interrupt(stand_in, number, *FIRST)
            same(stand_in.left(), [], f"files behind signal {number}")


def test_an_interrupt_leaves_the_program_that_was_there():
    with building(SLEEPS, changed=False) as stand_in:
        keep(stand_in.top)
        same((first(stand_in).status, stand_in.left()), (0, ["kiasan"]), "the kept program")
        interrupt(stand_in, signal.SIGTERM, "build")
        same(stand_in.left(), ["kiasan"], "the program behind the signal")


def test_a_failed_build_leaves_no_older_program_in_its_place():
    """The status is 70, and the program that was there is not run for the sources that were changed since."""
    with building(FAILS, changed=False) as stand_in:
        keep(stand_in.top)
        same(first(stand_in).status, 0, "the kept program")
        change_a_source(stand_in.top)
        now = time.time() + 2
        os.utime(stand_in.top / "crates.txt", (now, now))
        for words in (FIRST, ("build",), ("--", *FIRST)):
            ran = call(*words, script=stand_in.top / "kiasan", cwd=stand_in.top, env=stand_in.env)
            same((ran.status, ran.out), (70, b""), f"{words} behind a build that fails")


def test_what_is_built():
    """The crates below kiasan_main with all that proves them, and nothing else."""
    with building('find . -type f >"$TOLD.files"\ncp crates.txt "$TOLD.crates"\n') as stand_in:
        top, told = stand_in.top, stand_in.top.parent
        main = top / "crates/kiasan_main"
        more = ["specs/A.antt", "specs/deep/B.antt", "proofs/P.antt", "src/deep/a.rt", "data/row"]
        for name in [*more, "must-fail/x.edit", "out/log", "out/deep/log", "specs/deep/out/log"]:
            (main / name).parent.mkdir(parents=True, exist_ok=True)
            (main / name).touch()
        same(build(stand_in).status, 70, "a build that makes nothing")
        wanted = {"./HANDLES", "./crates.txt", *(f"./crates/kiasan_main/{name}" for name in more)}
        wanted |= {f"./{file.relative_to(top)}" for name in CRATES for file in (top / "crates" / name / "src").rglob("*.rt")}
        found = set((told / "told.files").read_text(encoding="ascii").split("\n")) - {""}
        same((wanted - found, {name for name in found if "/out/" in name or "/must-fail/" in name}), (set(), set()), "files")
        same({name.split("/")[2] for name in found if name.startswith("./crates/")}, set(CRATES), "crates")
        lines = [line.partition(":")[0].strip() for line in (told / "told.crates").read_text(encoding="utf-8").splitlines()]
        same(sorted(lines), sorted(CRATES), "lines of crates.txt")


def test_a_source_that_is_changed_while_it_is_built():
    """The program is as old as the moment at which its sources were taken."""
    with building(WAITS + MAKES) as stand_in:
        top = stand_in.top
        script = subprocess.Popen([top / "kiasan", "build"], cwd=top, env=stand_in.env, stderr=subprocess.PIPE)
        script.stderr.readline()
        while not stand_in.builds():
            time.sleep(0.05)
        now = time.time() + 1
        os.utime(top / "crates.txt", (now, now))
        while time.time() < now + 1:
            time.sleep(0.05)
        stand_in.go_on()
        script.communicate()
        same((script.returncode, stand_in.builds()), (0, 1), "a build")
        stand_in.go_on()
        same((first(stand_in).status, stand_in.builds()), (0, 2), "a call behind it")
