#!/usr/bin/env python3
"""Prints where the time of a crate's last first check went, by function and by kind of module.

The prover keeps each module that it has checked in out/incremental, as a file of its own. After a first check with one job the
files, sorted by the time at which they were written, tell how long each took: the time since the file before it. A file's name
is the function's path, and its last part the kind of module (`Lts`: each step of the function, with all that it owns there;
`Proof`: the proof itself). Beside the seconds stands the size of the function's `Lts`, which tells what it costs whatever else
runs on the machine: on one that is loaded 1 MB takes a second, 4 MB 8 s, 8 MB 20 s.

A first check begins with no kept work and one job: `rm -rf crates/NAME/out/incremental; (cd crates/NAME && rt check --jobs 1)`.
Pauses of ten minutes and more are left out: they stand between two checks.

Usage: bench/proof_times.py [--most N] [CRATE ..]      (all crates that have kept work, where none is named)
"""

import argparse
import os
import sys
from collections import Counter
from pathlib import Path

ROOT = Path(__file__).resolve().parent.parent
PAUSE = 600


def modules(crate):
    """The checked modules of a crate in the order in which they were written: the time, the name, and the size."""
    top = ROOT / "crates" / crate / "out" / "incremental"
    found = []
    for path in top.rglob("*.oantt"):
        told = os.lstat(path)
        found.append((told.st_mtime, path.name, told.st_size))
    return sorted(found)


def function_and_kind(name):
    """What a module is of, by the name of its file."""
    path = name.removesuffix(".oantt").removesuffix(".decls").split("-proofs.", 1)[-1]
    function, _, kind = path.rpartition(".")
    return function or "(the crate)", kind


def times(crate):
    """The seconds of a crate's modules by function, and by kind; and the size of each function's steps."""
    functions, kinds, sizes = Counter(), Counter(), Counter()
    last = None
    for written, name, size in modules(crate):
        function, kind = function_and_kind(name)
        if kind == "Lts":
            sizes[function] = size
        if last is not None and written - last < PAUSE:
            functions[function] += written - last
            kinds[kind] += written - last
        last = written
    return functions, kinds, sizes


def print_crate(crate, most):
    functions, kinds, sizes = times(crate)
    print(f"{crate}: {sum(functions.values()):.0f} s, {sum(sizes.values()) / 1e6:.0f} MB of steps")
    for function, seconds in functions.most_common(most):
        print(f"{seconds:9.1f} {sizes[function] / 1e6:6.1f} MB  {function}")
    print("   kinds:", ", ".join(f"{kind} {seconds:.0f}" for kind, seconds in kinds.most_common(6)))


def main():
    parser = argparse.ArgumentParser(description=__doc__.split("\n\n")[0])
    parser.add_argument("--most", type=int, default=10, metavar="N")
    parser.add_argument("crates", nargs="*", metavar="CRATE")
    options = parser.parse_args()
    crates = options.crates or sorted(path.name for path in (ROOT / "crates").iterdir() if (path / "out" / "incremental").is_dir())
    for crate in crates:
        print_crate(crate, options.most)
    return 0


if __name__ == "__main__":
    sys.exit(main())
