#!/usr/bin/env python3
"""Prints the sizes of all crates: lines of code, of definitions and of proofs, functions, tests and must-fail edits, with a mark
at what is above the rules of docs/ARCHITECTURE.md ('How code is written here'), or
more than a dozen edits. Below stands the number of paths through the lines of crates.txt, each of which `rt` walks again and
again before its first proof.

Usage: bench/crate_sizes.py [--above]      (--above: only crates that are above a rule)
"""

import argparse
import re
import sys
from functools import cache
from pathlib import Path

ROOT = Path(__file__).resolve().parent.parent
FUNCTION = re.compile(r"^ *(?:pub(?:\([a-z]+\))? )?(?:const |unsafe )*fn \w", re.M)
MOST = {"code": 1500, "functions": 100, "edits": 12}
HAVE_TESTS = {"kb_outside", "kiasan_example"}


def text_of(paths):
    return "".join(path.read_text(encoding="utf-8") for path in paths)


def sizes(crate):
    """The sizes of a crate, by their names."""
    code = text_of(path for path in sorted(crate.glob("src/**/*.rt")) if path.name != "tests.rt")
    whole = text_of(sorted(crate.glob("src/**/*.rt")))
    return {
        "code": code.count("\n"),
        "specs": text_of(sorted(crate.glob("specs/**/*.antt"))).count("\n"),
        "proofs": text_of(sorted(crate.glob("proofs/**/*.antt"))).count("\n"),
        "functions": len(FUNCTION.findall(code)),
        "tests": whole.count("#[test]"),
        "edits": len(list(crate.glob("must-fail/*.edit"))),
    }


def above(name, found):
    """What of a crate is above a rule."""
    over = [what for what, most in MOST.items() if found[what] > most]
    return over + ["tests"] * (found["tests"] > 0 and name not in HAVE_TESTS)


def paths(text):
    """How many paths lead down from the crates, through the lines of crates.txt."""
    below = {}
    for line in text.splitlines():
        name, found, libraries = line.partition(":")
        if found and not line.startswith("#"):
            below[name] = libraries.split()

    @cache
    def from_one(name):
        return 1 + sum(from_one(library) for library in below.get(name, ()))

    return sum(from_one(name) for name in below)


def main():
    parser = argparse.ArgumentParser(description=__doc__.split("\n\n")[0])
    parser.add_argument("--above", action="store_true")
    options = parser.parse_args()
    crates = {path.name: sizes(path) for path in sorted((ROOT / "crates").iterdir()) if (path / "src").is_dir()}
    kinds = ["code", "specs", "proofs", "functions", "tests", "edits"]
    print(f"{'crate':16}" + "".join(f"{kind:>11}" for kind in kinds))
    for name, found in crates.items():
        over = above(name, found)
        if over or not options.above:
            print(f"{name:16}" + "".join(f"{found[kind]:>11}" for kind in kinds) + (f"   above: {', '.join(over)}" if over else ""))
    print(f"{'all':16}" + "".join(f"{sum(found[kind] for found in crates.values()):>11}" for kind in kinds))
    print(f"paths through crates.txt: {paths((ROOT / 'crates.txt').read_text(encoding='utf-8')):,}")
    return 0


if __name__ == "__main__":
    sys.exit(main())
