"""The script's own words that need python3: `explain`, `targets`, and `COMMAND --help`."""

import re

from .pages import refusal_of, refusals, status_of
from .say import Fault, put
from .words import options_of, read_page

# The statuses of each command, and an example of it that works from the top of the repository.
COMMANDS = {
    "explore": (
        (0, 1, 2, 3, 4, 5, 6, 7, 8, 70, 71),
        "./kiasan explore --loops 1 --method 'Bits.ones(I)I' examples/Bits.class",
    ),
    "tests": (
        (0, 1, 2, 3, 4, 5, 6, 7, 8, 70, 71),
        "./kiasan tests --k 2 --method 'List.reverse(LList;)LList;' examples/List.class > list.tests",
    ),
    "diagrams": (
        (0, 1, 2, 3, 4, 5, 6, 7, 8, 70, 71),
        "./kiasan diagrams --k 1 --method 'List.reverse(LList;)LList;' examples/List.class",
    ),
    "replay": (
        (0, 2, 3, 4, 5, 6, 7, 8, 9, 10, 70, 71),
        "./kiasan tests --method 'A.f(II)I' examples/A.class | ./kiasan replay --tests /dev/stdin examples/A.class",
    ),
    "assemble": ((0, 2, 6, 7, 8, 9, 70, 71), "./kiasan assemble examples/assemble/Whole.asm > Whole.class"),
    "sample": ((0, 2, 7, 8, 70, 71), "./kiasan sample 6"),
    "explain": ((0, 2, 7, 70), "./kiasan explain refused 47 'A.f(II)I' at 2 opcode b2"),
    "targets": ((0, 2, 6, 7, 70), "./kiasan targets --check examples/List.class"),
    "build": ((0, 2, 70), "./kiasan build"),
    "view": (
        (0, 2, 3, 6, 7, 9, 10, 70),
        "./kiasan explore --method 'List.insert(LList;LList;)LList;' examples/List.class | "
        "./kiasan view - examples/List.class > insert.html",
    ),
    "junit": (
        (0, 2, 3, 6, 7, 9, 70),
        "./kiasan explore --method 'List.insert(LList;LList;)LList;' examples/List.class | "
        "./kiasan junit - examples/List.class > ListInsertTest.java",
    ),
}
# How the page begins what it says of some commands alone.
OF_COMMANDS = re.compile("(of|for) `")


def answer(signals, program, words):
    """Does what the script's own words ask for. The exit status."""
    if len(words) == 2 and words[1] == "--help":
        put(command_help(words[0]))
        return 0
    if words[0] == "explain":
        put(explain(words[1:]))
        return 0
    if words[0] in ("view", "junit"):
        from view.commands import answer as look

        return look(words)
    from .targets import list_targets

    return list_targets(signals, program, words[1:])


def command_help(command):
    """The words, options, statuses and an example of a command."""
    if command not in COMMANDS:
        raise Fault(2, f"{command} is no command; the commands with a page of help are {', '.join(COMMANDS)}")
    forms, options = read_page()
    numbers, example = COMMANDS[command]
    lines = [line for form, says in forms[command] for line in (form, *(f"    {each}" for each in says))]
    taken = options_of(command, options).values()
    if taken:
        lines += ["", "Options:", ""]
        lines += [f"  {f'{option.name} {option.value}':17}{option.says}" for option in taken]
    lines += ["", "Statuses:", ""]
    lines += [f"  {number:<4}{comes(number, command)}" for number in numbers]
    return "\n".join([*lines, "", "Example, from the top of the repository:", "", f"  {example}", ""])


def comes(number, command):
    """When a command ends with that status: what the page says of it, without what it says of other commands."""
    row = status_of(number)
    parts = row.comes.split("; ") if row else []
    return "; ".join(part for part in parts if not OF_COMMANDS.match(part) or f"`{command}" in part)


def explain(words):
    """What the page says of a number, of a refusal's line, or of a status."""
    if len(words) == 2 and words[0] == "status":
        row = status_of(words[1])
        if row is None:
            raise Fault(2, f"explain: no status is {words[1]}: docs/USING.md, \"Statuses\"")
        return text_of(f"status {row.number}", [("standard output", row.output), ("comes", row.comes), ("to do", row.to_do)])
    line = " ".join(words)
    number = line[len("refused ") :] if line.startswith("refused ") else line
    if number.isascii() and number.isdigit():
        rows = [row for row in refusals() if str(row.number) == number]
        if not rows:
            raise Fault(2, f"explain: no refusal has the number {number}: docs/REFUSALS.md")
        return "".join(map(refusal_text, rows))
    row = refusal_of(line) if line.startswith("refused ") else None
    if row is None:
        raise Fault(2, "explain: give the number of a refusal, a whole line `refused N ..`, or `status N`")
    return refusal_text(row, opcode_words(row, line))


def refusal_text(row, more=()):
    parts = [("status", row.status), ("cause", row.cause), *more, ("to do", row.to_do)]
    return text_of(row.form, parts)


def opcode_words(row, line):
    """The opcode of the line, by its mnemonic."""
    from .instructions import mnemonic

    return [(f"opcode {text}", mnemonic(int(text, 16))) for _, part, text in row.parts(line) if part == "HH"]


def text_of(head, parts):
    return "\n".join([head, *(f"  {name}: {says}" for name, says in parts if says), ""])
