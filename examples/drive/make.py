#!/usr/bin/env python3
"""Writes crates/drive_rows/data/Paths.class and Pair.class from Paths.java and Pair.asm beside this script, and looks at the rows there, which were written
by hand with what is expected of them.

As many paths of the rows on `sq` must be undecided as the oracle is told logs that are fresh, by the formula of a product that
this script makes itself. Where `stdout` has the arguments of a path that returns, a Java virtual machine must return the same.

Usage: examples/drive/make.py
It needs javac and java of a JDK from 9 to 19 (later ones no longer make files of version 52).
"""

import re
import subprocess
import sys
from pathlib import Path

HERE = Path(__file__).resolve().parent
CRATE = HERE.parent.parent / "crates" / "drive_rows"
DATA = CRATE / "data"

sys.path += [str(HERE.parent), str(HERE.parent.parent / "bench"), str(HERE.parent / "assemble")]
from assembler import assemble  # noqa: E402
from formulas import Formula, constant  # noqa: E402
from logs import is_fresh  # noqa: E402


def squares_are_3(truths):
    """The formula of conditions on as many ints: that the square of each is 3, or is not."""
    formula = Formula()
    ints = formula.new_ints(len(truths))
    equals = [formula.equal(formula.multiply(each, each), constant(3)) for each in ints]
    return formula.require_all(equal if truth else -equal for equal, truth in zip(equals, truths))


def chains(text):
    return [[int(number) for number in chain.split(",")] for chain in text.split("/")]


def judge_logs():
    """A log leaves a query undecided where it is fresh and spends the budget. The first call asks whether the square of an int is 3,
    the second one, behind that it is not, whether another one is."""
    asked = {"0": squares_are_3([True]), "1": squares_are_3([False, True])}
    for block in re.split(r"^> ", (CRATE / "stdout").read_text(), flags=re.MULTILINE)[1:]:
        row, first = block.splitlines()[:2]
        told = re.findall(r"(\d):log:(\S+)", row)
        if told and first.startswith("path "):
            budget = int(re.search(r"budget=(\d+)", row)[1])
            logs = [(asked[call], chains(text)) for call, text in told]
            fresh = [is_fresh(formula.clauses, log) and len(log) == budget for formula, log in logs]
            assert block.count("| undecided") == sum(fresh), row
            print(row, fresh)


def calls():
    """The calls whose arguments and results stdout has."""
    method, returned = None, []
    for line in (CRATE / "stdout").read_text().splitlines():
        if line.startswith("> "):
            method = re.match(r"> Paths\.(\w+)\((\w*)\)", line)
        found = re.search(r"\| returns (-?\d+)((?: \| arg -?\d+)+)$", line)
        if found:
            arguments = re.findall(r"-?\d+", found[2])
            typed = [f"{value} == 1" if kind == "Z" else value for kind, value in zip(method[2], arguments)]
            returned.append((f"Paths.{method[1]}({', '.join(typed)})", found[1]))
    return returned


def judge_calls():
    source = DATA.parent / "out" / "drive" / "Says.java"
    source.parent.mkdir(parents=True, exist_ok=True)
    lines = "".join(f"System.out.println({call});" for call, _ in calls())
    source.write_text(f"class Says {{ public static void main(String[] words) {{ {lines} }} }}\n")
    folders = f"{DATA}:{source.parent}"
    subprocess.run(["javac", "-d", source.parent, "-cp", DATA, source], check=True)
    said = subprocess.run(["java", "-cp", folders, "Says"], check=True, capture_output=True, text=True).stdout.split()
    assert said == [value for _, value in calls()], said
    print(len(said), "calls return as stated")


def main():
    words = ["javac", "-g:none", "-nowarn", "--release", "8", "-d", DATA, HERE / "Paths.java"]
    subprocess.run(words, check=True, stderr=subprocess.DEVNULL)
    (DATA / "Pair.class").write_bytes(assemble((HERE / "Pair.asm").read_text()))
    judge_logs()
    judge_calls()


if __name__ == "__main__":
    main()
