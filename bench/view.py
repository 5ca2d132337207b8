#!/usr/bin/env python3
"""Times `kiasan view` and `kiasan junit` on reports of 1,000 paths, of lists of 5 and of 12 nodes.

Printed are, of each, seconds by the clock and of the processor, the least of all runs, the size of what is written, and the
goals. Of the page the time of `dot` is in it; on how many processors the two run beside one another is the machine's.

Usage: bench/view.py [--runs N]
"""

import argparse
import os
import subprocess
import sys
import tempfile
import time
from pathlib import Path

ROOT = Path(__file__).resolve().parent.parent
sys.path.insert(0, str(ROOT))

from view.tests.many import many, node  # noqa: E402

PATHS = 1000
# Words, objects of a path, and the goals: seconds, and megabytes of output.
CASES = (
    (["view"], 5, 5, 10),
    (["view"], 12, 25, 25),
    (["view", "--text"], 5, None, None),
    (["junit"], 5, 2, None),
    (["junit"], 12, None, None),
)


def took(words):
    """Seconds by the clock and of the processor, and the bytes that are written."""
    with tempfile.TemporaryFile() as output:
        begun = time.perf_counter()
        child = subprocess.Popen([ROOT / "kiasan", *words], stdout=output)
        _, status, used = os.wait4(child.pid, 0)
        seconds = time.perf_counter() - begun
        child.returncode = os.waitstatus_to_exitcode(status)
        if child.returncode:
            sys.exit(f"{words} ended with {child.returncode}")
        return seconds, used.ru_utime + used.ru_stime, os.fstat(output.fileno()).st_size


def main():
    parser = argparse.ArgumentParser(description=__doc__, formatter_class=argparse.RawDescriptionHelpFormatter)
    parser.add_argument("--runs", type=int, default=3)
    runs = parser.parse_args().runs
    with tempfile.TemporaryDirectory() as folder:
        folder = Path(folder)
        classes = node(folder)
        for words, objects, goal, most in CASES:
            report = folder / f"{objects}.report"
            report.write_bytes(many(PATHS, objects))
            found = [took([*words, report, classes]) for _ in range(runs)]
            clock, processor, size = (min(column) for column in zip(*found))
            goals = f"goals {goal} s" + (f", {most} MB" if most else "") if goal else "no goal"
            print(
                f"{' '.join(words)}, {objects} objects: {clock:.1f} s, {processor:.1f} s of the processor, {size / 1e6:.1f} MB; {goals}"
            )


if __name__ == "__main__":
    main()
