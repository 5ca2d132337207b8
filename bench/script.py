#!/usr/bin/env python3
"""Times what the script `kiasan` adds to the program: on 64 class files, and on a folder and a jar of 2,000.

Each class has as many fields as methods. The same words are run by the program alone (of a folder or a jar with the class
file that is taken), by the script, and the time in which `python3` starts is taken by itself. Printed are seconds by the
clock and of the processor, the least of all runs, and how far what is added stays below its goal.

Usage: bench/script.py [--runs N] [--program FILE]
Build the program first, by running ./kiasan once. With --program the script does not look whether the program is of the
sources, which takes a part of the time.
"""

import argparse
import os
import subprocess
import sys
import tempfile
import time
import zipfile
from pathlib import Path

from link import class_file

ROOT = Path(__file__).resolve().parent.parent
BUILT = str(ROOT / "build" / "kiasan")
TARGET = "p/C0.method0()I"
MEMBERS = 24
FEW, MANY = 64, 2000
# What may be added, in seconds: to 64 class files beside the start of python3, and to a folder or a jar of 2,000.
GOALS = {FEW: 0.05, MANY: 0.5}


def took(command, environment):
    """The seconds by the clock and of the processor of one run, which must end well."""
    begun = time.perf_counter()
    with open(os.devnull, "wb") as none:
        child = subprocess.Popen(command, stdout=none, stderr=none, env=environment)
        _, status, used = os.wait4(child.pid, 0)
    seconds = time.perf_counter() - begun
    child.returncode = os.waitstatus_to_exitcode(status)
    if child.returncode:
        sys.exit(f"{command[:4]} ended with {child.returncode}")
    return seconds, used.ru_utime + used.ru_stime


def least(command, environment, runs):
    """The least seconds by the clock, and of the processor, of several runs."""
    times = [took(command, environment) for _ in range(runs)]
    return tuple(min(column) for column in zip(*times))


def write_classes(folder, count):
    """That many class files beside one another."""
    files = []
    for number in range(count):
        file = folder / "p" / f"C{number}.class"
        file.parent.mkdir(parents=True, exist_ok=True)
        file.write_bytes(class_file(f"p/C{number}", MEMBERS))
        files.append(str(file))
    return files


def write_archive(folder, files):
    archive = folder / "lib.jar"
    with zipfile.ZipFile(archive, "w", zipfile.ZIP_DEFLATED) as into:
        for file in files:
            into.write(file, Path(file).relative_to(folder / "many"))
    return str(archive)


def print_added(name, goal, words, alone, options):
    """One line: what the script adds on these words to the program on those."""
    environment = {**os.environ, "KIASAN_PROGRAM": options.program if options.program != BUILT else ""}
    explore = ["explore", "--method", TARGET]
    program = least([options.program, *explore, *alone], environment, options.runs)
    script = least([str(ROOT / "kiasan"), *explore, *words], environment, options.runs)
    start = least(["python3", "-I", "-S", "-c", ""], environment, options.runs)
    added = [whole - own for whole, own in zip(script, program)]
    beside = [whole - begun for whole, begun in zip(added, start)]
    held = "held" if (beside if goal == GOALS[FEW] else added)[1] <= goal else "missed"
    columns = [*program, *script, *start, *added, *beside]
    print(f"{name:28}" + "".join(f"{seconds * 1000:8.1f}" for seconds in columns) + f"   {goal * 1000:.0f} ms {held}")


def main():
    parser = argparse.ArgumentParser(description=__doc__.split("\n\n")[0])
    parser.add_argument("--runs", type=int, default=20)
    parser.add_argument("--program", default=BUILT)
    options = parser.parse_args()
    options.program = str(Path(options.program).resolve())
    print("milliseconds by the clock and of the processor:")
    print(f"{'':28}" + "".join(f"{name:>16}" for name in ("program", "script", "python3", "added", "beside python3")))
    with tempfile.TemporaryDirectory() as path:
        folder = Path(path)
        few = write_classes(folder / "few", FEW)
        many = write_classes(folder / "many", MANY)
        archive = write_archive(folder, many)
        print_added(f"{FEW} class files", GOALS[FEW], few, few, options)
        print_added(f"a folder of {MANY:,}", GOALS[MANY], [str(folder / "many")], many[:1], options)
        print_added(f"a jar of {MANY:,}", GOALS[MANY], [archive], many[:1], options)
    return 0


if __name__ == "__main__":
    sys.exit(main())
