"""Begins what the script says in words. `kiasan` calls it: start.py IGNORED PROGRAM WORDS.

IGNORED are the signals that the script was started with as ignored, a bit each in hexadecimal; PROGRAM is the program, or
nothing where the words need none. This file alone is read by any python3, also by one that is too old for the others.
"""

import os
import sys

try:
    import _signal as signal
except ImportError:
    import signal

if signal.getsignal(signal.SIGINT) == signal.default_int_handler:
    signal.signal(signal.SIGINT, signal.SIG_DFL)


def main(ignored, program, words):
    if sys.version_info >= (3, 9):
        sys.path.insert(0, os.path.dirname(os.path.dirname(os.path.abspath(__file__))))
        from script.main import begin

        return begin(int(ignored, 16), program, words)
    if program and words[0] != "targets":
        os.execv(program, [program] + words)
    asked = words[:2] if words[1:] == ["--help"] else words[:1]
    sys.stderr.write("kiasan: %s needs python3 of version 3.9 or later\n" % " ".join(asked).replace("\n", " "))
    return 70


if __name__ == "__main__":
    sys.exit(main(sys.argv[1], sys.argv[2], sys.argv[3:]))
