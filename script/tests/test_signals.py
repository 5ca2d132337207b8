"""Signals reach the program, and a program that a signal ended ends the script by the same signal.

Programs that stand in for the real one tell through a pipe what comes to them, so nothing waits for a time; each ends by itself
after a minute, so that a signal that does not come fails the test.
"""

import os
import signal
import subprocess

from script.tests.maker import ICONST_0, IRETURN, Maker
from script.tests.test_places import write_archive
from script.tests.tools import DATA, SCRIPT, environment, folder, same, stand_in

# A program that tells that it runs, and which signal came.
TELLS = """trap 'echo INT >/dev/fd/$TOLD; exit 13' INT
trap 'echo TERM >/dev/fd/$TOLD; exit 14' TERM
trap 'echo HUP >/dev/fd/$TOLD; exit 15' HUP
trap 'echo QUIT >/dev/fd/$TOLD; exit 16' QUIT
echo runs >/dev/fd/$TOLD
for tenth in $(seq 600); do sleep 0.1; done
"""
# A program that a signal ends.
DIES = """echo runs >/dev/fd/$TOLD
exec sleep 60
"""
# A program that refuses, and that a signal ends where it is asked again.
REFUSES_SLOWLY = """if [ -e asked ]; then
    echo again >/dev/fd/$TOLD
    exec sleep 60
fi
touch asked
echo refused 96
exit 2
"""
# A program that tells which of the files 0 to 2 are open.
TELLS_FILES = """for file in 0 1 2; do
    [ ! -e /proc/$$/fd/$file ] || echo $file >/dev/fd/$TOLD
done
"""
# The C library ignores two signals of its own, 32 and 33, in what it starts.
OF_THE_LIBRARY = 0x180000000


class Begun:
    """A call that has begun, in a group of its own, with a program that tells what comes to it."""

    def __init__(self, path, text, *command, **more):
        reading, writing = os.pipe()
        self.script = subprocess.Popen(
            command,
            cwd=path,
            env=stand_in(path, text, TOLD=str(writing), **more),
            stdout=subprocess.PIPE,
            stderr=subprocess.PIPE,
            pass_fds=[writing],
            start_new_session=True,
        )
        os.close(writing)
        self._told = os.fdopen(reading, encoding="ascii")

    def wait_for(self, wanted):
        """Waits until the program tells that, as the next that it tells."""
        same(self._told.readline().strip(), wanted, "what the program tells")

    def end(self):
        """Waits for the end: what the program told since, what was written, what was said, and the status."""
        out, err = self.script.communicate()
        with self._told:
            return self._told.read().split(), out, err, self.script.returncode


def test_signals_reach_the_program():
    ends = [(signal.SIGINT, 13), (signal.SIGTERM, 14), (signal.SIGHUP, 15), (signal.SIGQUIT, 16)]
    for number, status in ends:
        for words in (["explore"], ["--", "explore"]):
            with folder() as path:
                begun = Begun(path, TELLS, SCRIPT, *words)
                begun.wait_for("runs")
                begun.script.send_signal(number)
                same(begun.end(), ([signal.Signals(number).name[3:]], b"", b"", status), f"signal {number} of {words}")


def test_a_signal_ends_program_and_script():
    for number in (signal.SIGINT, signal.SIGTERM, signal.SIGHUP):
        with folder() as path:
            begun = Begun(path, DIES, SCRIPT, "explore")
            begun.wait_for("runs")
            begun.script.send_signal(number)
            same(begun.end(), ([], b"", b"", -number), f"signal {number}")


def test_a_program_that_ends_itself():
    with folder() as path:
        begun = Begun(path, "kill -s SEGV $$\n", SCRIPT, "explore")
        same(begun.end(), ([], b"", b"", -signal.SIGSEGV), "a program that a signal ended")


def begin_on_an_archive(path, text):
    """Starts the script on a class file of an archive, with a folder of its own for what is unpacked."""
    Maker("M").method("f", "()I", ICONST_0 + IRETURN).write(path / "all")
    write_archive(path / "all")
    (path / "tmp").mkdir()
    return Begun(path, text, SCRIPT, "explore", "--method", "M.f()I", "lib.jar", TMPDIR=str(path / "tmp"))


def test_a_signal_while_it_is_asked_again():
    with folder() as path:
        begun = begin_on_an_archive(path, REFUSES_SLOWLY)
        begun.wait_for("again")
        begun.script.send_signal(signal.SIGTERM)
        said = b"kiasan: of lib.jar (1 class file): M\n"
        same(begun.end(), ([], b"refused 96\n", said, -signal.SIGTERM), "a signal while the script asks again")
        same(list((path / "tmp").iterdir()), [], "what is left")


def test_nothing_is_left_of_an_archive():
    with folder() as path:
        begun = begin_on_an_archive(path, DIES)
        begun.wait_for("runs")
        same(len(list((path / "tmp").iterdir())), 1, "class files of an archive while the program runs")
        begun.script.send_signal(signal.SIGTERM)
        same(begun.end()[3], -signal.SIGTERM, "the end")
        same(list((path / "tmp").iterdir()), [], "what is left")


def test_what_a_signal_ends_is_not_explained():
    """A program that ends with a status because a signal came has nothing to be asked again."""
    with folder() as path:
        begun = Begun(path, TELLS.replace("exit 14", "echo refused 96; exit 2"), SCRIPT, "explore")
        begun.wait_for("runs")
        begun.script.send_signal(signal.SIGTERM)
        same(begun.end(), (["TERM"], b"refused 96\n", b"", 2), "a refusal behind a signal")


def ending_of(how, name):
    """What a shell says of the status of a call whose output nobody reads."""
    reading, writing = os.pipe()
    os.close(reading)
    text = f'{how}"$0" explore --method "A.f(II)I" A.class; echo status $? >&2'
    run = subprocess.run(
        ["sh", "-c", text, name], cwd=DATA, env=environment(), stdout=writing, stderr=subprocess.PIPE, check=False
    )
    os.close(writing)
    return run.stderr.decode().splitlines()[-1]


def test_a_reader_that_ends():
    """The program cannot write, whatever is set for the signal of a broken pipe: 7 by docs/USING.md, with the script or not."""
    for how in ("", "trap '' PIPE; "):
        for name in (str(SCRIPT), environment()["KIASAN_PROGRAM"]):
            same(ending_of(how, name), "status 7", f"a closed pipe {how} {name}")


def test_ignored_signals_stay_ignored():
    if not os.path.exists("/proc/self/status"):
        return
    with folder() as path:
        env = stand_in(path, "while read -r name value; do [ $name != SigIgn: ] || echo $value; done </proc/$$/status\n")
        for how in ("", "trap '' HUP PIPE; "):
            found = []
            for words in ('"$0" explore', 'exec "$KIASAN_PROGRAM"'):
                run = subprocess.run(
                    ["sh", "-c", how + words, SCRIPT],
                    env=env,
                    stdout=subprocess.PIPE,
                    check=False,
                )
                found.append(int(run.stdout or b"0", 16) & ~OF_THE_LIBRARY)
            same(found[0], found[1], f"signals that are ignored {how}")
            same(found[0] > 0, how != "", "signals that are ignored")


def test_closed_files_stay_closed():
    if not os.path.exists("/proc/self/fd"):
        return
    for closed, wanted in [("", "012"), ("<&-", "12"), (">&-", "02"), ("2>&-", "01"), ("<&- >&- 2>&-", "")]:
        with folder() as path:
            begun = Begun(path, TELLS_FILES, "sh", "-c", f'exec "$0" explore {closed}', SCRIPT)
            same(begun.end(), (list(wanted), b"", b"", 0), f"files that are open with {closed}")
