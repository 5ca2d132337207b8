"""The words of the program: commands and options, which stand in one table, the page of usage (`page.txt`)."""

from itertools import takewhile
from os.path import dirname, join

from .names import read_target

HERE = dirname(__file__)
# The commands that explore a method.
EXPLORING = ("explore", "tests", "diagrams")
# The options of `replay`; all others are of the commands that explore.
OF_REPLAY = ("--tests", "--workers")
MOST_CONFLICTS = 2_000_000
# What stands in front of the lines on a command, behind its words.
INSIDE = " " * 6


class Option:
    """An option of the page: its name, the word for its value, its range and what it is where it is left out, or None."""

    def __init__(self, line):
        self.name, self.value, self.says = line.strip().split(None, 2)
        self.low = self.high = self.default = None
        if self.value == "N":
            low, _, high, _, default = self.says.partition(":")[0].split()
            self.low, self.high, self.default = (int(number.strip(",").replace(",", "")) for number in (low, high, default))

    @property
    def range(self):
        """The range in words."""
        return self.says.partition(", else")[0] if self.value == "N" else None


def page():
    with open(join(HERE, "page.txt"), encoding="ascii") as file:
        return file.read()


def read_page():
    """The commands, each with its words and the lines on it, and the program's options, by their names."""
    commands, options = {}, {}
    lines = page().split("\n")
    for at, line in enumerate(lines):
        if line.startswith("  --"):
            option = Option(line)
            options[option.name] = option
        elif line.startswith("  kiasan "):
            behind = takewhile(lambda each: each.startswith(INSIDE), lines[at + 1 :])
            says = [each[len(INSIDE) :] for each in behind]
            commands.setdefault(line.split()[1], []).append((line.strip(), says))
    return commands, options


def least(options):
    """Words that set all bounds of an exploration to their least."""
    return [word for option in options_of("explore", options).values() if option.low is not None for word in (option.name, str(option.low))]


def options_of(command, options):
    """The options that the command takes."""
    if command in EXPLORING:
        return {name: option for name, option in options.items() if name not in OF_REPLAY}
    return {name: options[name] for name in OF_REPLAY} if command == "replay" else {}


class Order:
    """What words ask for, as far as they are in order.

    `files` is the place of the first class file among the words, or None; `values` the places of options' values, by name.
    """

    def __init__(self, words, options):
        self.words = words
        self.command = words[0] if words else None
        self.values, self.files = {}, None
        self.in_order = False
        takes = options_of(self.command, options)
        if takes:
            self._read(takes)

    def _read(self, takes):
        fine, at = True, 1
        while at < len(self.words) and self.words[at].startswith("--"):
            name = self.words[at]
            fine = fine and name in takes and name not in self.values and at + 1 < len(self.words)
            self.values.setdefault(name, at + 1)
            fine = fine and is_value(takes[name], self.words[at + 1])
            at += 2
        self.files = at
        needed = "--tests" if self.command == "replay" else "--method"
        self.in_order = fine and needed in self.values and at < len(self.words) and self._is_enough(takes)

    def _is_enough(self, takes):
        if "--paths" not in takes:
            return True
        paths, budget = (int(self.value(name) or takes[name].default) for name in ("--paths", "--budget"))
        return paths * budget <= MOST_CONFLICTS

    def value(self, name):
        at = self.values.get(name)
        return self.words[at] if at is not None and at < len(self.words) else None

    @property
    def target(self):
        """The class, the method and the descriptor of the target, or None."""
        return read_target(self.value("--method") or "")

    @property
    def file_words(self):
        """The words at class files' places."""
        return [] if self.files is None else self.words[self.files :]

    @property
    def text(self):
        """The word that names a text, or None."""
        if self.command == "assemble":
            return self.words[1] if len(self.words) > 1 else None
        return self.value("--tests") if self.command == "replay" else None

    def option_at(self, place):
        """The name of the option whose value stands at that place, or None."""
        return next((name for name, at in self.values.items() if at == place), None)


def is_number(word):
    return word.isascii() and word.isdigit() and (word == "0" or word[0] != "0")


def is_value(option, word):
    """Whether the word is a value that the option may have."""
    if option.value == "N":
        return is_number(word) and len(word) <= 10 and option.low <= int(word) <= option.high
    if option.name == "--method":
        return read_target(word) is not None
    return option.name != "--init" or word in ("lazy", "lazier")
