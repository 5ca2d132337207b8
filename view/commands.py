"""The commands `view` and `junit`."""

import os

from script.kinds import kind_of
from script.say import Fault, counted, put, say
from script.slips import unread

from .classes import Classes
from .lines import Unreadable
from .model import Model, unknown_words
from .report import read_report
from .wants import MAY_BE, MET, read_want

MOST_LINES = 20
WAYS_TO_CALL = {
    "view": "view [--text] [--only WHAT].. [--fail-on WHAT].. [--run] REPORT [FILE..]",
    "junit": "junit [--style 4|5] [--name NAME] [--package NAME] REPORT FILE..",
}


class Words:
    """The words of a command: flags that stand alone, options with values, and what stands behind them."""

    def __init__(self, command, words, flags, options):
        self.command, self.flags, self.values = command, set(), {name: [] for name in options}
        at = 0
        while at < len(words) and words[at].startswith("--"):
            name = words[at]
            if name in flags:
                self.flags.add(name)
            elif name in options and at + 1 < len(words):
                at += 1
                self.values[name].append(words[at])
            else:
                self.fault(f"{name} has no value" if name in options else no_option(name, options))
            at += 1
        if at == len(words):
            self.fault("no report is named")
        self.report, self.files = words[at], words[at + 1 :]
        for word in self.files:
            if (word in flags or word in options) and not os.path.lexists(word):
                self.fault(f"{word} stands behind REPORT, and options stand before it")

    def fault(self, says):
        raise Fault(2, f"{self.command}: {says}: {WAYS_TO_CALL[self.command]}")

    def single(self, name, default=None):
        """The value of an option that stands there once at most."""
        if len(self.values[name]) > 1:
            self.fault(f"{name} is there twice")
        return self.values[name][0] if self.values[name] else default


def no_option(word, options):
    """That a word is no option, and how an option's value is written."""
    name, equals, value = word.partition("=")
    return f"{word} is no option" + (f", write {name} {value}" if equals and name in options else "")


def answer(words):
    """Does what the words ask for. The exit status."""
    return {"view": view, "junit": junit}[words[0]](words[1:])


def read_all(path):
    """All bytes of the report, which is a file or standard input."""
    try:
        if path == "-":
            with os.fdopen(0, "rb", closefd=False) as file:
                return file.read()
        with open(path, "rb") as file:
            return file.read()
    except OSError as error:
        raise unread(path, error) from error


def take_report(path):
    """The report in a file, or a fault that says where it is none."""
    data = read_all(path)
    try:
        return read_report(data)
    except Unreadable as stop:
        named = "standard input" if path == "-" else path
        kind = kind_of(data) if stop.line == 1 else None
        raise Fault(9, f"{named} is no report: {f'line 1: it is {kind}' if kind else stop}") from stop


def view(words):
    """Writes the page, or the text."""
    asked = Words("view", words, ("--text", "--run"), ("--only", "--fail-on"))
    only, failing = (list(map(read_want, asked.values[name])) for name in ("--only", "--fail-on"))
    report = take_report(asked.report)
    classes = Classes(asked.files)
    for want in [*only, *failing]:
        want.check(report, classes)
    for fault in [*classes.faults, *filter(None, (want.fault(report, classes) for want in [*only, *failing]))]:
        say(fault)
    model = Model(report, classes)
    if "--run" in asked.flags:
        from .jvm import run_all

        run_all(model)
    chosen = [story for story in model.stories if not only or any(met(want, story) for want in only)]
    put(written(asked, model, chosen))
    return judge(model, failing) if failing else 0


def junit(words):
    """Writes the source of a JUnit test."""
    from .junit import TESTS, is_package, write_junit
    from .names import is_identifier

    asked = Words("junit", words, (), ("--style", "--name", "--package"))
    style, name, package = asked.single("--style", "5"), asked.single("--name"), asked.single("--package")
    if style not in TESTS:
        asked.fault(f"--style {style} is neither 4 nor 5")
    if name is not None and not is_identifier(name):
        asked.fault(f"{name} is no name of a class")
    if package is not None and not is_package(package):
        asked.fault(f"{package} is no name of a package")
    if not asked.files:
        asked.fault("no class file is named")
    report = take_report(asked.report)
    classes = Classes(asked.files)
    for fault in classes.faults:
        say(fault)
    text, left_out = write_junit(report, classes, style, name, package)
    if left_out:
        say(f"without a test: {left_out}")
    put(text)
    return 0


def written(asked, model, stories):
    """The text, or the page."""
    if "--text" in asked.flags:
        from .text import write_text

        return write_text(model, stories, asked.values["--only"])
    from .page import write_page

    return write_page(model, stories, asked.values["--only"])


def met(want, story):
    return want.of(story.path, story.model.report, story.model.classes)


def judge(model, wants):
    """Tells of the paths that are met. The exit status."""
    found = [line for story in model.stories for line in telling(story, wants)]
    for line in found[:MOST_LINES]:
        say(line)
    if len(found) > MOST_LINES:
        say(f"and {counted(len(found) - MOST_LINES, 'more path', 'more paths')}")
    unknown = unknown_words(model.report)
    if not found and unknown:
        say(f"no path {' or '.join(want.says() for want in wants)}, but nothing is known of {unknown}")
    return 10 if found else 0


def telling(story, wants):
    """The line on a path that one of these is, or may be; none where it is none."""
    answers = [(met(want, story), want) for want in wants]
    if any(answer == MET for answer, _ in answers):
        return [f"path {story.decisions} {story.sentence}"]
    may = [want.may() for answer, want in answers if answer == MAY_BE]
    return [f"path {story.decisions} {may[0]}: it {story.sentence}"] if may else []
