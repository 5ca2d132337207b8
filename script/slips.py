"""What words may mean that are none of the program's, or that name no file: slips of a person, told beside what is refused."""

import os

from .names import is_near, nearest
from .say import Fault, reason
from .words import options_of, read_page

MODES = ("lazy", "lazier")


def of_word(order, place):
    """The line on what the word at that place may mean, which is no command, option or mode; none where nothing is known."""
    commands, options = read_page()
    word, takes = order.words[place], options_of(order.command, options)
    if place == 0:
        return near_or_all(word, [*filter(str.islower, filter(str.isalpha, commands)), "--help"], "commands")
    if order.option_at(place) == "--init":
        return [f"--init takes {' or '.join(MODES)}"]
    if takes and place < order.files and word.startswith("--"):
        return of_option(word, takes, order.command)
    return []


def of_option(word, takes, command):
    """What a word at an option's place may mean."""
    name, equals, value = word.partition("=")
    if equals and name in takes:
        return [f"write {name} {value}"]
    return near_or_all(name, list(takes), f"options of {command}")


def near_or_all(word, names, what):
    """The names that are near to a word, whose dashes do not count, or where none is all of them."""
    bare = {name.lstrip("-"): name for name in names}
    near = [bare[each] for each in nearest(bare, word.lstrip("-"))]
    return [f"near words: {', '.join(near)}" if near else f"{what}: {', '.join(names)}"]


def late(order, needed):
    """That an option which is needed stands behind the first class file, where it is taken for a class file too."""
    if needed not in order.file_words:
        return []
    first = order.file_words[0]
    return [f"{needed} stands behind {first}, which is taken for a class file: options stand before the class files"]


def unread_lines(word, error, lines=None):
    """The lines on a file that cannot be read, and where there is none on what its word may mean."""
    if not isinstance(error, FileNotFoundError):
        lines = []
    return [f"cannot read {word}: {reason(error)}", *(near_files(word) if lines is None else lines)]


def unread(word, error):
    """The end where a file cannot be read."""
    return Fault(6, *unread_lines(word, error))


def of_file(order, word):
    """What a word of the program that names no file may mean: an option, or a file beside it."""
    takes = options_of(order.command, read_page()[1]) if word in order.file_words else {}
    name, equals, value = word.partition("=")
    name = name if name.startswith("--") else f"-{name}"
    if name in takes:
        says = f"{name} {value if equals else takes[name].value}"
        return [f"{word} stands at a class file's place: options stand before the class files, as in {order.command} {says} .."]
    return near_files(word)


def near_files(word):
    """The files beside a place where none is whose names are near, and that end alike."""
    folder, name = os.path.split(word)
    stem, end = os.path.splitext(name)
    try:
        found = [os.path.splitext(each) for each in os.listdir(folder or ".")]
    except OSError:
        return []
    near = nearest([each for each, other in found if other == end and is_near(each, stem)], stem)
    return [f"near names: {', '.join(os.path.join(folder, each + end) for each in near)}"] if near else []
