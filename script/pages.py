"""The tables of refusals and of statuses: the pages docs/REFUSALS.md and docs/USING.md, row by row."""

from os.path import join

from .say import root

# What stands in a row for a part of a line.
NUMBERS = ("F", "M", "N", "W")
WORDS = ("TARGET", "NAME")


class Refusal:
    """A row of the table of refusals."""

    def __init__(self, cells):
        self.form, self.status, self.cause, self.to_do = cells
        self.form = self.form.strip("`")
        self.number = int(self.form.split()[1])

    def parts(self, line):
        """What stands in the line for the parts of the form, each with the word before it; None where it does not fit."""
        words, form = line.split(" "), self.form.split(" ")
        if len(words) != len(form) or not all(fits(word, part) for word, part in zip(words, form)):
            return None
        places = (*NUMBERS, *WORDS, "HH")
        return [(form[at - 1], part, words[at]) for at, part in enumerate(form) if part in places]


class Status:
    """A row of the table of statuses."""

    def __init__(self, cells):
        self.number, self.output, self.comes, self.to_do = cells


def fits(word, part):
    """Whether the word may stand for that part of a form."""
    if part in NUMBERS:
        digits = word[1:] if word.startswith("-") else word
        return digits.isascii() and digits.isdigit()
    if part == "HH":
        return len(word) == 2 and set(word) <= set("0123456789abcdef")
    return bool(word) if part in WORDS else word == part


def rows(page, heading):
    """The cells of each row of the first table below a heading of a page of docs/."""
    with open(join(root(), "docs", page), encoding="utf-8") as file:
        lines = file.read().partition(f"\n## {heading}\n")[2].partition("\n## ")[0].split("\n")
    table = [line for line in lines if line.startswith("| ")]
    return [[cell.strip() for cell in line.strip().strip("|").split(" | ")] for line in table[1:]]


def refusals():
    return [Refusal(cells) for cells in rows("REFUSALS.md", "Those that come today") if len(cells) == 4]


def statuses():
    return [Status(cells) for cells in rows("USING.md", "Statuses") if len(cells) == 4]


def refusal_of(line):
    """The row that a refusal line has, or None; no line has two, to which a test holds the page."""
    return next((row for row in refusals() if row.parts(line) is not None), None)


def status_of(number):
    """The row of a status, or None."""
    return next((row for row in statuses() if row.number == str(number)), None)
