#!/usr/bin/env python3
"""Gives the built program random and mutated inputs: class files, texts of tests, assembler texts and words. Whatever comes, it must
end by itself with one of its statuses, write nothing to standard error, and write nothing with status 6 or 8.

All that is made follows from the seed: run K of a seed is the same each time, and `--from K --runs 1` does it alone. Inputs at which a
run is otherwise are kept in `--keep`.

Usage: bench/mutated_inputs.py [--program FILE] [--seed N] [--from K] [--runs N] [--jobs N] [--keep FOLDER]
Build the program first, by running ./kiasan once.
"""

import argparse
import os
import random
import resource
import subprocess
import sys
import tempfile
from collections import Counter
from concurrent.futures import ThreadPoolExecutor
from pathlib import Path

from needed import built_program

ROOT = Path(__file__).resolve().parent.parent
ROWS = ROOT / "crates" / "kiasan_rows" / "data"
STATUSES = range(11)
WRITES_NOTHING = (6, 8)
SECONDS, MEMORY = 60, 4 << 30
# what a number in a file is set to: the ends of its type, and what is beside them
ENDS = [0, 1, 2, 0x7F, 0x80, 0xFF, 0x7FFF, 0x8000, 0xFFFF, 0x7FFFFFFF, 0x80000000, 0xFFFFFFFF]
TOKENS = ["-1", "0", "00", "-0", "4294967296", "99999999999999999999", "null", "i0", "i9", "n0", "s0", "", " ", "%", "%ff", "%FF", "[I", "[" * 256 + "I", "L;", "()V", ";", "."]
CLASSES = {
    "Node.class": ["Node.swapNode()LNode;", "Node.contains(I)Z", "Node.m(LNode;LNode;)I"],
    "Search.class": ["Search.contains(I)Z", "Search.rotate()LSearch;"],
    "A.class": ["A.f(II)I"],
    "B.class": ["B.abs(I)I", "B.<init>()V"],
    "Odd.class": ["Odd.divided(I)I", "Odd.setAgain()Z"],
    "Literals.class": ["Literals.none()V"],
    "Called.class": ["Called.queue(I)I", "Called.constant()I"],
}
TESTS = {"swap.tests": "Node.class", "nodes.tests": "Node.class", "a.tests": "A.class", "b.tests": "B.class", "strings.tests": "Literals.class"}
OPTIONS = ["--method", "--init", "--k", "--array", "--alloc", "--loops", "--depth", "--steps", "--paths", "--budget", "--tests", "--workers"]
COMMANDS = ["explore", "tests", "diagrams", "replay", "assemble", "sample", "", "x"]


# ---- what is done to bytes and to lines


def with_other_byte(chance, content):
    at = chance.randrange(len(content))
    return content[:at] + bytes([chance.randrange(256)]) + content[at + 1 :]


def with_other_number(chance, content):
    size = chance.choice([1, 2, 4])
    number = chance.choice(ENDS) % (1 << 8 * size)
    at = chance.randrange(len(content))
    return content[:at] + number.to_bytes(size, "big") + content[at + size :]


def cut(chance, content):
    return content[: chance.randrange(len(content))]


def without_piece(chance, content):
    at = chance.randrange(len(content))
    return content[:at] + content[at + chance.randrange(1, 16) :]


def with_piece_again(chance, content):
    at, size = chance.randrange(len(content)), chance.randrange(1, 64)
    return content[: at + size] + content[at : at + size] * chance.choice([1, 2, 50]) + content[at + size :]


BYTES = [with_other_byte, with_other_number, cut, without_piece, with_piece_again]


def mutated(chance, content):
    for _ in range(chance.choice([1, 1, 1, 2, 4])):
        if content:
            content = chance.choice(BYTES)(chance, content)
    return content


def mutated_text(chance, content):
    """Lines that are swapped, left out or doubled, words that are other ones; or bytes as above."""
    if chance.random() < 0.3:
        return mutated(chance, content)
    lines = content.split(b"\n")
    for _ in range(chance.choice([1, 1, 2, 4])):
        at = chance.randrange(len(lines))
        what = chance.randrange(4)
        if what == 0:
            lines.insert(at, chance.choice(lines))
        elif what == 1 and len(lines) > 1:
            del lines[at]
        elif what == 2:
            other = chance.randrange(len(lines))
            lines[at], lines[other] = lines[other], lines[at]
        else:
            words = lines[at].split(b" ")
            words[chance.randrange(len(words))] = chance.choice(TOKENS).encode()
            lines[at] = b" ".join(words)
    return b"\n".join(lines)


# ---- inputs: the words, and the files that they name


def class_input(chance):
    name = chance.choice(sorted(CLASSES))
    command = chance.choice(["explore", "tests", "diagrams"])
    # low bounds: what is tried is the reading, and not how long an exploration takes
    bounds = ["--k", "1", "--loops", "2", "--steps", "200", "--paths", "20", "--budget", "20"]
    words = [command, *bounds, "--method", chance.choice(CLASSES[name]), name]
    return words, {name: mutated(chance, (ROWS / name).read_bytes())}


def tests_input(chance):
    name = chance.choice(sorted(TESTS))
    files = {name: mutated_text(chance, (ROWS / name).read_bytes()), TESTS[name]: (ROWS / TESTS[name]).read_bytes()}
    workers = ["--workers", chance.choice(["1", "2", "64"])] if chance.random() < 0.2 else []
    return ["replay", *workers, "--tests", name, TESTS[name]], files


def assembler_input(chance):
    whole = (ROOT / "crates" / "asm_rows" / "data" / "Whole.asm").read_bytes()
    return ["assemble", "text"], {"text": mutated_text(chance, whole)}


def random_input(chance):
    content = chance.randbytes(chance.choice([0, 1, 3, 4, 10, 100, 5000]))
    if chance.random() < 0.5:
        content = bytes.fromhex("cafebabe00000034") + content
    words = chance.choice([["explore", "--method", "A.f(II)I", "file"], ["assemble", "file"], ["replay", "--tests", "file", "A.class"]])
    return words, {"file": content, "A.class": (ROWS / "A.class").read_bytes()}


def word_input(chance):
    words = [chance.choice(COMMANDS)]
    for _ in range(chance.randrange(8)):
        words.append(chance.choice([*OPTIONS, *TOKENS, "lazy", "lazier", "A.f(II)I", "A.class", "3", "17", "65"]))
    return words, {"A.class": (ROWS / "A.class").read_bytes()}


KINDS = [class_input, class_input, tests_input, assembler_input, random_input, word_input]


# ---- runs


def set_limits():
    resource.setrlimit(resource.RLIMIT_CPU, (SECONDS, SECONDS + 1))
    resource.setrlimit(resource.RLIMIT_AS, (MEMORY, MEMORY))


def run_input(options, number):
    """The kind and the status of the run of that number, and what is otherwise than it must be, or None."""
    chance = random.Random(f"{options.seed} {number}")
    kind = chance.choice(KINDS)
    words, files = kind(chance)
    with tempfile.TemporaryDirectory() as name:
        folder = Path(name)
        for file, content in files.items():
            (folder / file).write_bytes(content)
        ran = subprocess.run([options.program, *words], cwd=folder, capture_output=True, stdin=subprocess.DEVNULL, preexec_fn=set_limits)
    fault = fault_of(ran)
    if fault and options.keep:
        kept = options.keep / f"seed{options.seed}_run{number}"
        kept.mkdir(parents=True, exist_ok=True)
        for file, content in files.items():
            (kept / file).write_bytes(content)
        (kept / "WORDS").write_text("\n".join(words) + "\n")
    return kind.__name__, ran.returncode, fault


def fault_of(ran):
    if ran.returncode < 0:
        return f"ended by the signal {-ran.returncode}"
    if ran.returncode not in STATUSES:
        return f"status {ran.returncode}"
    if ran.stderr:
        return f"wrote to standard error: {ran.stderr[:80]!r}"
    if ran.returncode in WRITES_NOTHING and ran.stdout:
        return f"status {ran.returncode}, and {len(ran.stdout)} bytes written"
    return None


def read_options():
    words = argparse.ArgumentParser(description="Gives the built program random and mutated inputs.")
    words.add_argument("--program", type=Path, default=ROOT / "build" / "kiasan", help="the built program")
    words.add_argument("--seed", type=int, default=1, help="from which all inputs follow (1)")
    words.add_argument("--from", dest="first", type=int, default=0, help="the number of the first run (0)")
    words.add_argument("--runs", type=int, default=20_000, help="how many runs (20000)")
    words.add_argument("--jobs", type=int, default=os.cpu_count(), help="how many runs at once")
    words.add_argument("--keep", type=Path, help="where inputs are kept at which a run is otherwise")
    options = words.parse_args()
    options.program = built_program(options.program)
    return options


def main():
    options = read_options()
    counts, faults = Counter(), 0
    numbers = range(options.first, options.first + options.runs)
    with ThreadPoolExecutor(options.jobs) as pool:
        for number, (kind, status, fault) in zip(numbers, pool.map(lambda number: run_input(options, number), numbers)):
            counts[kind, status] += 1
            if fault:
                faults += 1
                print(f"run {number} of seed {options.seed}, {kind}: {fault}", flush=True)
    for (kind, status), count in sorted(counts.items()):
        print(f"{kind}: status {status} {count} times")
    print(f"{options.runs} runs of seed {options.seed}, {faults} otherwise")
    sys.exit(1 if faults else 0)


if __name__ == "__main__":
    main()
