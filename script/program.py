"""Runs the program: its output and status are its own, and signals reach it."""

import os

try:
    import _signal as signal  # without the names of signals, which take most of the time of `import signal`
except ImportError:
    import signal

from .say import Fault, reason

FORWARDED = (signal.SIGINT, signal.SIGTERM, signal.SIGHUP, signal.SIGQUIT)
# Signals that python3 ignores whatever it was started with.
SET_ASIDE = (signal.SIGPIPE, signal.SIGXFSZ)


class Interrupted(BaseException):
    """A signal came while no program ran, or ended one that ran for the script."""

    def __init__(self, number):
        super().__init__(number)
        self.number = number


class Signals:
    """Hands signals on to the program that runs, or ends what the script does."""

    def __init__(self, ignored):
        self.ignored = ignored
        self.program, self.came = None, False
        for number in FORWARDED:
            if signal.getsignal(number) != signal.SIG_IGN:
                signal.signal(number, self._come)

    def _come(self, number, _frame):
        self.came = True
        if self.program is None:
            raise Interrupted(number)
        os.kill(self.program, number)

    def as_begun(self):
        """The script itself goes on with the signals that python3 ignores as it was started with them."""
        for number in self.of_program():
            signal.signal(number, signal.SIG_DFL)

    def of_program(self):
        """The signals that the program begins with as the script was started with them."""
        return [number for number in SET_ASIDE if not self.ignored >> (number - 1) & 1]


class Undisturbed:
    """A context in which signals wait."""

    def __enter__(self):
        self.before = signal.pthread_sigmask(signal.SIG_BLOCK, FORWARDED)
        return self.before

    def __exit__(self, *_):
        signal.pthread_sigmask(signal.SIG_SETMASK, self.before)


def hold_low_files():
    """Files 0 to 2 that are closed stay closed for the program; no other file gets their numbers, and none is written to."""
    for file in range(3):
        try:
            os.fstat(file)
        except OSError:
            os.open(os.devnull, os.O_RDONLY)


def start(signals, program, words, actions=()):
    """Starts the program. A signal that comes meanwhile waits until it is known which program it is for."""
    with Undisturbed() as mask:
        more = {"file_actions": actions, "setsigmask": mask, "setsigdef": signals.of_program()}
        try:
            signals.program = os.posix_spawn(program, [program, *words], os.environ, **more)
        except OSError as error:
            raise Fault(70, f"cannot run {program}: {reason(error)}") from error


def end(signals):
    """Waits for the program. Its status, negative for the signal that ended it."""
    os.waitid(os.P_PID, signals.program, os.WEXITED | os.WNOWAIT)
    ended, signals.program = signals.program, None
    return os.waitstatus_to_exitcode(os.waitpid(ended, 0)[1])


def run(signals, program, words):
    """Runs the program on standard input and output. Its status."""
    start(signals, program, words)
    return end(signals)


def ask(signals, program, words):
    """Runs the program for the script. Its status, and what it writes. A signal that ends it ends the script."""
    reading, writing = os.pipe()
    try:
        start(signals, program, words, [(os.POSIX_SPAWN_DUP2, writing, 1)])
    finally:
        os.close(writing)
    pieces = []
    while piece := os.read(reading, 65536):
        pieces.append(piece)
    os.close(reading)
    status = end(signals)
    if status < 0:
        raise Interrupted(-status)
    return status, b"".join(pieces)


def die(number):
    """Ends as a signal ends a program."""
    import resource

    resource.setrlimit(resource.RLIMIT_CORE, (0, resource.getrlimit(resource.RLIMIT_CORE)[1]))
    signal.signal(number, signal.SIG_DFL)
    signal.pthread_sigmask(signal.SIG_UNBLOCK, [number])
    os.kill(os.getpid(), number)
