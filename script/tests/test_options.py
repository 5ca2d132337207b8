"""Options: their ranges and defaults, which the page of usage says, are those of the program and of docs/USING.md."""

import re

from script import words
from script.tests.tools import ROOT, call, direct, explained, same

# What stands behind a number of each command, so that its words are in order.
BEHIND = {"explore": ("--method", "A.f(II)I", "A.class"), "replay": ("--tests", "no.tests", "A.class")}
# Where one option is as high as it may be, the paths times the budget must still be at most 2,000,000.
WITH = {"--paths": ("--budget", "20"), "--budget": ("--paths", "20")}


def numbers(command):
    return [option for option in words.options_of(command, words.read_page()[1]).values() if option.value == "N"]


def all_numbers():
    """Each command's options that are numbers, with the command."""
    return [(command, option) for command in BEHIND for option in numbers(command)]


def test_options_are_those_of_the_program():
    names = list(words.read_page()[1])
    wanted = "--method --init --k --array --alloc --loops --depth --steps --paths --budget --tests --workers"
    same(names, wanted.split(), "options of the page")


def test_both_ends_are_accepted():
    for command, option in all_numbers():
        for number in (option.low, option.high):
            ran = direct(command, option.name, str(number), *WITH.get(option.name, ()), *BEHIND[command])
            same(ran.status, 0, f"{option.name} {number}")


def test_one_past_each_end_is_refused():
    for command, option in all_numbers():
        for number in (option.low - 1, option.high + 1):
            ran = direct(command, option.name, str(number), *BEHIND[command])
            wanted = b"refused 93 word 2\n" if number < 0 else b"refused 94 word 2\n"
            same((ran.status, ran.out), (2, wanted), f"{option.name} {number}")


def test_defaults_are_those_of_a_report():
    line = direct("explore", *BEHIND["explore"]).out.decode().split("\n")[2].split()
    found = dict(zip(line[2::2], line[3::2]))
    same(found, {option.name[2:]: str(option.default) for option in numbers("explore")}, "the init line")
    same(line[1], words.read_page()[1]["--init"].says.split(", else ")[1].split(":")[0], "the mode")


def test_a_range_is_told():
    for command, option in all_numbers():
        past = str(option.high + 1)
        ran = call(command, option.name, past, *BEHIND[command])
        part = f"word 2 is {option.name} {past}, {option.name} takes {option.low} to {option.high:,}"
        same(ran.said, explained("refused 94 word W", part), option.name)
    same(call("sample", "65").said, explained("refused 94 word W", "word 1 is 65, sample takes 0 to 64"), "sample")


def test_ranges_and_defaults_are_those_of_the_page():
    page = (ROOT / "docs/USING.md").read_text(encoding="utf-8")
    found = {}
    for name, low, high, default in re.findall(r"^\| `(--\w+)` \| ([\d,]+) to ([\d,]+): .* \| ([\d,]+) \|$", page, flags=re.M):
        found[name] = [int(number.replace(",", "")) for number in (low, high, default)]
    same(found, {option.name: [option.low, option.high, option.default] for _, option in all_numbers()}, "docs/USING.md")
