"""Tests whose runs are cut off: each goes past a bound on steps of its own, and says what the heap is then.

Two such files for the same tests, which differ in where they are cut, replay with the same reading, but for the lines of objects
that were made between, and with the same verdicts. What one takes more than the other is what the machine takes for the
instructions between.
"""

import subprocess
import sys

ENDINGS = ("returns", "throws", "illtyped", "past")


def tests_in(text):
    """The lines of each test of a text, without its end."""
    return [block.splitlines() for block in text.split("\nend\n")[:-1]]


def cut(test, steps):
    """The test with another bound on steps, which its run goes past; the heap is as it was."""
    bounds = test[1].rpartition(" ")[0] + f" {steps}"
    ending = next(number for number, line in enumerate(test) if line.split()[0] in ENDINGS)
    heap = [line for line in test[ending:] if line.startswith("out ")]
    return [test[0], bounds, *test[2:ending]], ["past steps", *heap]


def endings_in(verdicts):
    """How the runs ended that differ from their tests, by their numbers."""
    endings, lines = {}, []
    for line in verdicts.splitlines():
        word, number, verdict = [*line.split(), "", ""][:3]
        if word == "test":
            lines = endings.setdefault(int(number), []) if verdict == "differs" else []
        elif word != "tests":
            lines.append(line)
    return endings


def text_of(tests):
    return "".join("\n".join([*front, *ending, "end", ""]) for front, ending in tests)


def replayed(program, file, files):
    words = [str(program), "replay", "--tests", str(file), *files]
    return subprocess.run(words, stdin=subprocess.DEVNULL, capture_output=True, text=True).stdout


def write_cut(program, text, file, files, steps, times):
    """Writes the tests of a text so many times, each cut off at its own bound on steps, which a replay must confirm."""
    tests = [cut(test, bound) for test, bound in zip(tests_in(text), steps, strict=True)]
    file.write_text(text_of(tests))
    endings = endings_in(replayed(program, file, files))
    tests = [(front, endings.get(number, ending)) for number, (front, ending) in enumerate(tests)]
    if any(ending[0] != "past steps" for _, ending in tests):
        sys.exit(f"{file.name}: a run is not cut off at its bound")
    file.write_text(text_of(tests) * times)
    last = replayed(program, file, files).splitlines()[-1]
    if last != f"tests {len(tests) * times} passed {len(tests) * times} differed 0":
        sys.exit(f"{file.name}: the tests that are cut off end with {last!r}")
