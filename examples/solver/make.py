#!/usr/bin/env python3
"""Writes `data/rows` and `stdout` of crates/solver_rows and crates/term_rows: the rows of `by_hand.text` and of
`terms_by_hand.text`, which have their answers, and rows whose answers come from elsewhere.

Of operations on ints the answers are those of a Java virtual machine (Ints.java). Whether a formula of pigeons or a ring has a
model is known; that of a random formula is decided by its truth table.

Usage: examples/solver/make.py
It needs java, of a JDK from 11 on.
"""

import subprocess
from pathlib import Path

HERE = Path(__file__).resolve().parent
CRATES = HERE.parent.parent / "crates"
VARIABLES = 20


def formula(name, variables, clauses):
    text = " ".join(" ".join(map(str, clause)) + " 0" for clause in clauses)
    return f"formula {name} {variables}: {text}"


def pigeons(count, holes):
    """Each pigeon in a hole, and no two in the same; variable p * holes + h + 1 puts pigeon p into hole h."""
    clauses = []
    for pigeon in range(count):
        clauses.append([pigeon * holes + hole + 1 for hole in range(holes)])
        for other in range(pigeon):
            clauses += [[-(pigeon * holes + hole + 1), -(other * holes + hole + 1)] for hole in range(holes)]
    return formula(f"pigeons-{count}-{holes}", 1000, clauses)


def pigeon_rows():
    for holes in range(1, 8):
        yield pigeons(holes + 1, holes)
        yield "solve 100000: refuted"
    yield "# Before there were so many conflicts the clauses were reduced. The first search answers: were its budget spent, so many"
    yield "# entries would be learned, but for resolvents, which are fewer than the 204 clauses."
    yield "exceeds 100000 1000: refuted true"
    yield "exceeds 100000 99000: refuted false"
    yield pigeons(5, 5)
    yield "solve 100000: model"
    yield pigeons(11, 10)
    yield "# The only search meets a conflict for each entry and one more. It restarts by Luby's sequence, in hundreds of conflicts: 1, 1,"
    yield "# 2, 1, 1, 2, 4, 1, 1, 2, 1, 1, 2, 4, 8, so that the 15th restart is at 3200 conflicts."
    for budget, restarts in ((99, 0), (100, 1), (199, 1), (200, 2), (399, 2), (400, 3), (1199, 6), (1200, 7), (3200, 15)):
        yield f"restarts {budget}: {budget + 1} {restarts}"
    yield "# A greater budget that is spent is searched anew, and the conflicts of both searches count."
    yield "exceeds 5000 5001: open true"


def ring_rows():
    """Variables in a ring, each unlike the next one: an odd ring has no model. Each variable of an even ring is eliminated,
    so that the first search tries each and sets none. By a search that eliminates none, one that is tried sets all others."""
    for size in range(3, 14):
        pairs = [(place + 1, (place + 1) % size + 1) for place in range(size)]
        clauses = [clause for here, there in pairs for clause in ([here, there], [-here, -there])]
        yield formula(f"ring-{size}", size, clauses)
        yield f"solve 100000: {'refuted' if size % 2 else 'model'}"
        yield "eliminates 100000: true" if size % 2 else f"counts 100000: {size} 0 0 0"


def unit_rows():
    """Clauses that make one literal after the other true, and the last one false: unit propagation alone refutes them, so that
    no answer but a refutation is possible, within one entry."""
    for size in (1, 10, 1000):
        clauses = [[1]] + [[-place, place + 1] for place in range(1, size)] + [[-size]]
        yield formula(f"units-{size}", size, clauses)
        yield "solve 1: refuted"
        yield "entries 1: 1"
        yield "entries 100000: 1"


def numbers(seed):
    """Pseudo-random numbers: the upper halves of the states of a linear congruential generator (Knuth's constants)."""
    state = seed
    while True:
        state = (state * 6364136223846793005 + 1442695040888963407) % 2**64
        yield state >> 33


def random_clauses(seed, count):
    """Clauses of three different variables each."""
    drawn = numbers(seed)
    clauses = []
    for _ in range(count):
        place, near, far = next(drawn) % 20, next(drawn) % 19 + 1, next(drawn) % 18 + 1
        variables = [place, place + near, place + far + (far >= near)]
        clauses.append([(variable % VARIABLES + 1) * (1 if next(drawn) % 2 == 0 else -1) for variable in variables])
    return clauses


def has_model(clauses):
    """By the truth table: a number with a bit for each assignment."""
    rows = 1 << VARIABLES
    every = (1 << rows) - 1
    columns = []
    for variable in range(VARIABLES):
        half = 1 << variable
        columns.append(every // ((1 << 2 * half) - 1) * (((1 << half) - 1) << half))
    table = every
    for clause in clauses:
        holds = 0
        for literal in clause:
            column = columns[abs(literal) - 1]
            holds |= column if literal > 0 else every ^ column
        table &= holds
    return table != 0


def random_rows():
    for seed in range(1, 9):
        clauses = random_clauses(seed, 88)
        answer = "model" if has_model(clauses) else "refuted"
        yield formula(f"random-{seed}", VARIABLES, clauses)
        yield f"solve 4000: {answer}"
        yield f"solve 100000: {answer}"
        if answer == "refuted":
            yield "front 4000: good"
    for seed in range(1, 5):
        clauses = random_clauses(seed, 44)
        yield formula(f"sparse-{seed}", VARIABLES, clauses)
        yield f"solve 100000: {'model' if has_model(clauses) else 'refuted'}"


def int_rows():
    made = subprocess.run(["java", HERE / "Ints.java"], check=True, capture_output=True, text=True)
    return made.stdout.splitlines()


def row_and_answer(line):
    """What the program reads of a row, and what it is to write. Of a formula only the name is written."""
    name, text = line.split(": ", 1)
    if name.startswith("formula "):
        return line, name
    if name.startswith("conditions "):
        return line.removesuffix(" (no comparisons)"), line
    return name, line


def solver_rows():
    rows = (HERE / "by_hand.text").read_text().splitlines()
    rows += ["", "# Pigeons fit into as many holes, and not into fewer."] + list(pigeon_rows())
    rows += ["", "# Variables in a ring, each unlike the next one. An odd ring has no model."] + list(ring_rows())
    rows += ["", "# Literals that force one another."] + list(unit_rows())
    rows += ["", "# Clauses of three of twenty variables, decided by their truth table (examples/solver/make.py)."] + list(random_rows())
    return rows


def term_rows():
    rows = (HERE / "terms_by_hand.text").read_text().splitlines()
    return rows + ["", "# What a Java virtual machine computes (examples/solver/Ints.java)."] + int_rows()


def write(crate, rows):
    asked, written = [], []
    for line in rows:
        if line and not line.startswith("#"):
            line, answer = row_and_answer(line)
            written.append(answer + "\n")
        asked.append(line + "\n")
    (crate / "data" / "rows").write_text("".join(asked))
    (crate / "stdout").write_text("".join(written))


def main():
    write(CRATES / "solver_rows", solver_rows())
    write(CRATES / "term_rows", term_rows())


if __name__ == "__main__":
    main()
