"""The reader of reports (docs/USING.md, 'The report'): it stops at the first line at which the lines cannot go on."""

from script.names import read_target, split_method

from .block import read_path
from .forms import read_count
from .lines import Lines

KINDS = ("ended", "cut", "undecided", "open")
ENDED = ("returns", "throws", "illtyped")
INIT = ("k", "array", "alloc", "loops", "depth", "steps", "paths", "budget")


class Report:
    """A report: its target, how it was made, and its paths."""

    def __init__(self, target, mode, limits):
        self.target, self.mode, self.limits = target, mode, limits
        self.owner, self.method, self.descriptor = read_target(target)
        self.parameters, self.result = split_method(self.descriptor)
        self.paths = []
        # The types of the arguments, for a static method and one with a receiver, as far as the lines allow each.
        self.shapes = [self.parameters, ["this", *self.parameters]]

    @property
    def counts(self):
        """How many paths there are, and how many of each kind."""
        kinds = [kind_of(path.ending) for path in self.paths]
        return [len(kinds), *(kinds.count(kind) for kind in KINDS)]

    @property
    def has_receiver(self):
        """Whether argument 0 is the receiver, as far as the lines tell."""
        return all(shape[:1] == ["this"] for shape in self.shapes)


def kind_of(ending):
    """How a path with that ending counts."""
    return "ended" if ending in ENDED else ending


def read_report(data):
    """The report that the bytes are, or Unreadable."""
    lines = Lines(data)
    lines.whole("kiasan report 1")
    report = read_head(lines)
    while lines.first() == "path":
        report.paths.append(read_path(lines, report))
    read_total(lines, report)
    lines.end()
    return report


def read_head(lines):
    (target,) = lines.next("target", 1)
    if read_target(target) is None:
        lines.fail(f"{target} is no TARGET")
    lines.done()
    mode, *words = lines.next("init", 1 + 2 * len(INIT))
    limits = {name: read_count(word) for name, word in zip(INIT, words[1::2])}
    if mode not in ("lazy", "lazier") or tuple(words[::2]) != INIT or None in limits.values():
        lines.fail(f"a line init has a mode, and numbers of {', '.join(INIT)}")
    lines.done()
    return Report(target, mode, limits)


def read_total(lines, report):
    total, *words = lines.next("total", 1 + 2 * len(KINDS))
    counts = [read_count(total), *map(read_count, words[1::2])]
    if tuple(words[::2]) != KINDS or counts != report.counts:
        lines.fail(f"there are {report.counts[0]} paths, of which ended, cut, undecided and open {report.counts[1:]}")
    lines.done()
