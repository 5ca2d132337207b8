"""What a report says, put into words once: page, text and test sources are written from it."""

from functools import cached_property

from script.names import spelled
from script.say import counted

from .classes import Classes
from .fitting import check_fits
from .heaps import Heap
from .inputs import Input
from .java import Writer
from .marks import LOST, OVERWRITTEN, RING, SIGNS, cell_mark, thing_marks
from .names import Names, PathNames, shown_name
from .replay_text import replay_lines
from .report import KINDS
from .sentences import cut_words, ending, ring_words, thrown_kind

# A term that is longer stands in a slot by its name.
MOST_CHARACTERS = 28
LIMITS = ("k", "array", "alloc", "loops", "depth", "steps", "paths", "budget")
ENDINGS = ("returns", "throws", "illtyped", "cut", "undecided", "open")


class Story:
    """One path: its sentence, conditions, heap, input and test."""

    def __init__(self, path, model):
        self.path, self.model = path, model
        self.names = PathNames(model.names, path)
        self.writer = Writer(self.names)
        self.kept = set()
        self.detail = detail_of(path)
        self.given = Input(path, model.classes)
        # Of a run on the Java virtual machine: where an exception came, and that the run ended otherwise.
        self.seen_at, self.warning = None, None

    @property
    def decisions(self):
        return self.path.decisions

    @cached_property
    def conditions(self):
        return self.writer.conditions()

    @property
    def sentence(self):
        """How the path ends, and where."""
        where = f" where {' && '.join(self.conditions)}" if self.conditions else ""
        return ending(self.path, self.model.report, self.writer) + where

    @property
    def cut(self):
        """Why the path is cut, and the option that raises the bound; nothing where it is not."""
        return cut_words(self.path, self.model.report) if self.path.ending == "cut" else None

    @property
    def ring(self):
        """That the path may never end, or nothing."""
        return ring_words(self.path, self.names)

    @cached_property
    def signs(self):
        """What a reader should see of the path before it is opened: a ring, a slot written unread, an object that is lost."""
        heap = self.heap()
        things, cells = thing_marks(heap), [cell_mark(cell) for thing in heap.things for cell in thing.cells]
        lost = any(LOST in things.get(thing.key, ()) for thing in heap.things if thing.sort != "made")
        return [
            *([RING] if self.ring else []),
            *([OVERWRITTEN] if self.path.has_ended and OVERWRITTEN in cells else []),
            *([LOST] if lost else []),
        ]

    def heap(self):
        return self._heap

    @cached_property
    def _heap(self):
        return Heap(self.path, self.names)

    def marks(self, heap):
        return thing_marks(heap)

    def test(self):
        """The lines of its test, or None where it has none or a class is not there."""
        return replay_lines(self.path, self.model.report, self.given) if self.path.has_ended else None

    def cell(self, text, kind=None):
        """What a slot holds, for readers: objects by their numbers, ints by their names."""
        if text.startswith("beyond:"):
            return "beyond"
        if text in ("?", "null") or text[0] in "olns":
            return text
        written = self.writer.truth(text) if kind == "Z" else self.writer.number(text)[0]
        if len(written) <= MOST_CHARACTERS or text[0] != "t":
            return written
        self.kept.add(int(text[1:]))
        return text

    def definitions(self):
        """The terms that have their names in conditions, in a cell that was asked for, or in one another."""
        return self.writer.definitions(self.kept)


class Model:
    """A report with the class files beside it."""

    def __init__(self, report, classes=None, write=shown_name):
        self.report, self.classes = report, classes or Classes()
        check_fits(self.report, self.classes)
        self.names = Names(report, self.classes, write)
        self.stories = [Story(path, self) for path in report.paths]
        self.warnings = []

    def place(self):
        """The file and the line of the method, as far as its class file says."""
        source, method = self.classes.source(self.report), self.names.method
        if not source:
            return None
        lines = [line for _, line in method.code.lines] if method and method.code else []
        return f"{shown_name(source)}:{min(lines)}" if lines else shown_name(source)

    def limits(self):
        """The mode and the bounds."""
        return f"{self.report.mode} initialisation, " + ", ".join(f"{name} {self.report.limits[name]}" for name in LIMITS)

    def counts(self):
        """How many paths end in each way: the ending, its detail, what it is called, and the number."""
        counted = {}
        for story in self.stories:
            key = (story.path.ending, story.detail)
            counted[key] = counted.get(key, 0) + 1
        keys = sorted(counted, key=lambda key: (ENDINGS.index(key[0]), key[1] or ""))
        return [(*key, self.called(*key), counted[key]) for key in keys]

    def signs(self):
        """How many paths have each sign, those that some path has."""
        counts = ((sign, sum(sign in story.signs for story in self.stories)) for sign in SIGNS)
        return [(sign, count) for sign, count in counts if count]

    def shown(self, stories, only):
        """What is said where paths are left out; nothing where `only` names none."""
        if not only:
            return []
        words = " ".join(f"--only {word}" for word in only)
        there = f"{len(stories)} of {counted(len(self.stories), 'path', 'paths')}"
        return [f"Shown are those of {words}, {there}; what is counted and said above is of all."]

    def called(self, how, detail):
        """What paths with that ending are called."""
        if how == "throws":
            return f"throws {self.names.types.of_exact(detail)}" if detail else "throws"
        if how == "cut":
            return f"cut by {detail}"
        return {"illtyped": "ill-typed"}.get(how, how)

    def uncovered(self):
        """What the report says nothing of."""
        _, _, cut, undecided, unasked = self.report.counts
        found = []
        if cut:
            found.append(f"{counted(cut, 'path is', 'paths are')} cut: how the method ends on their inputs is not known.")
        if undecided:
            found.append(
                f"{counted(undecided, 'path is', 'paths are')} undecided: whether there is such an input is not known."
            )
        if unasked:
            found.append(f"{counted(unasked, 'path is', 'paths are')} open: nobody has asked whether there is such an input.")
        found.append("Only objects of the classes that were given when the report was made are among its inputs.")
        missing = self.missing()
        if missing:
            named = ", ".join(map(self.names.types.of_exact, missing))
            found.append(
                f"No class file is given of {named}: slots of theirs that were not read are missing, and so are tests."
            )
        return found

    def missing(self):
        """The exact types of the report whose class files, or those above them, are not there."""
        kinds = {held.kind for path in self.report.paths for held in path.objects}
        kinds |= {kind for path in self.report.paths for kind, _ in [*path.made, *path.inputs]}
        kinds = {kind for kind in kinds if not kind.startswith("[")}
        found = [kind for kind in kinds if self.classes.layout(kind) is None]
        if self.names.method is None:
            found.append(spelled(self.report.owner))
        return sorted(set(found))


def detail_of(path):
    """Of a path that throws the exact type, of one that is cut the bound; else nothing."""
    if path.ending == "throws":
        return thrown_kind(path)
    return path.value if path.ending == "cut" else None


def unknown_words(report):
    """How many paths of which nothing is known there are, by kind; nothing where there are none."""
    counts = report.counts[2:]
    parts = [f"{count} {kind}" for kind, count in zip(KINDS[1:], counts) if count]
    return f"{', '.join(parts)} {'path' if sum(counts) == 1 else 'paths'}" if parts else ""
