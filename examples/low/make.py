#!/usr/bin/env python3
"""Writes `data/rows` and `stdout` of crates/low_rows: the rows of `by_hand.text`, which have their answers, and in place of its
line `@ints` operations on all pairs of some ints, of its line `@trails` cells that are set, marked and undone at random.

Of operations on ints the answers are those of a Java virtual machine (Ints.java); those by hand are held against it. Cells that
are undone to a mark are those that were copied when the mark was made.

Usage: examples/low/make.py
It needs java, of a JDK from 11 on.
"""

import subprocess
from pathlib import Path
from random import Random

HERE = Path(__file__).resolve().parent
CRATE = HERE.parent.parent / "crates" / "low_rows"
INTS = (-(2**31), -8, -1, 0, 1, 33, 40000, 2**31 - 1)
OF_ONE = ("neg", "to_byte", "to_char", "to_short")
OF_TWO = ("add", "sub", "mul", "div", "rem", "shl", "shr", "ushr", "and", "or", "xor", "eq", "lt", "ult")


def int_questions():
    for operation in OF_ONE:
        yield from (f"{operation} {value}" for value in INTS)
    for operation in OF_TWO:
        yield from (f"{operation} {left} {right}" for left in INTS for right in INTS)


def computed(questions):
    """What a Java virtual machine computes, an answer for each question."""
    text = "\n".join(questions) + "\n"
    run = subprocess.run(["java", HERE / "Ints.java"], input=text, check=True, capture_output=True, text=True)
    return run.stdout.split()


def trail_row(random, length, steps):
    """Random steps over so many cells, at last an undoing to the first mark, and the cells where a step tells them."""
    cells = [random.randrange(10) for _ in range(length)]
    asked, told, copies = [",".join(map(str, cells))], [], []
    for _ in range(steps):
        way = random.choice(("set", "set", "set", "mark", "tell", "undo"))
        if way == "set":
            place, value = random.randrange(length), random.randrange(10)
            cells[place] = value
            asked.append(f"set:{place}:{value}")
        elif way == "mark" or not copies:
            copies.append(list(cells))
            asked.append("mark")
        else:
            if way == "undo":
                mark = random.randrange(len(copies))
                way = f"undo:{mark}"
                copies = copies[: mark + 1]
                cells = list(copies[mark])
            asked.append(way)
            told.append(",".join(map(str, cells)))
    asked += ["tell", "mark", "undo:0"]
    told += [",".join(map(str, cells)), ",".join(map(str, (copies + [cells])[0]))]
    return f"trail {' '.join(asked)}", " ".join(told)


def trails():
    random = Random(2026)
    for length in range(1, 9):
        for steps in (5, 20, 60):
            yield trail_row(random, length, steps)
    yield trail_row(random, 100, 1000)


def read_by_hand():
    """Pairs of a question and its answer, and lines that are none alone."""
    for line in (HERE / "by_hand.text").read_text().splitlines():
        if line.startswith(("#", "@")):
            yield line, None
        elif line.endswith(":"):
            yield line[:-1], ""
        else:
            yield tuple(line.rsplit(": ", 1))


def main():
    by_hand = list(read_by_hand())
    ints = [(question.removeprefix("int "), answer) for question, answer in by_hand if question.startswith("int ")]
    assert computed([question for question, _ in ints]) == [answer for _, answer in ints]
    questions = list(int_questions())
    answers = list(zip((f"int {question}" for question in questions), computed(questions)))
    made = {"@ints": answers, "@trails": list(trails())}
    rows = [row for given in by_hand for row in made.get(given[0], [given])]
    (CRATE / "data").mkdir(exist_ok=True)
    (CRATE / "data" / "rows").write_text("".join(f"{question}\n" for question, _ in rows))
    told = (f"{question}: {answer}".rstrip(" ") for question, answer in rows if answer is not None)
    (CRATE / "stdout").write_text("".join(f"{line}\n" for line in told))


if __name__ == "__main__":
    main()
