"""A report as text for a terminal."""

from .marks import LEGEND
from .words_of_heap import cell_words, marks_of, thing_words


def write_text(model, stories, only=()):
    """The text on those paths, which `only` names; the counts are those of the report."""
    parts = [[*head(model), *model.shown(stories, only)], *(path_text(story) for story in stories), legend()]
    return "\n\n".join("\n".join(lines) for lines in parts) + "\n"


def head(model):
    lines = [model.names.signature()]
    place = model.place()
    lines += [place] if place else []
    lines.append(model.limits())
    lines.append(", ".join(f"{called} {count}" for _, _, called, count in model.counts()) or "no path")
    lines += model.uncovered()
    return [*lines, *model.warnings, *NOTES]


NOTES = (
    "Names speak of the heap as the run finds it. Objects with two numbers are two objects: a reference that was read, and is "
    "not said to be == null or == another one, holds an object that was not met before, unless that is open.",
    "Nothing that stands here is proved; the report is.",
)


def legend():
    return ["signs:", *(f"{sign}: {says}" for sign, says in LEGEND.values())]


def path_text(story):
    """The sentence, the heap before and after, and the input."""
    path = story.path
    heap = story.heap()
    parts = ["before", *heap_lines(story, heap, False)]
    if path.has_ended:
        parts += ["after", *heap_lines(story, heap, True)]
    parts += ["input", *path.input_lines] if path.has_input else []
    words = [f"{name} = {text}" for name, text in story.definitions()] + [
        each for each in (story.cut, story.ring, story.seen_at, story.warning) if each
    ]
    return [f"path {story.decisions}: {story.sentence}", *words, *parts]


def heap_lines(story, heap, after):
    """The arguments, and a line for each object."""
    lines = []
    if heap.arguments:
        lines.append(" ".join(f"{cell.label}={story.cell(cell.before, cell.kind)}" for cell in heap.arguments))
    marks = marks_of(story, heap, after)
    for thing in heap.things:
        if after or thing.sort != "made":
            cells = [cell_words(story, cell, after) for cell in thing.cells]
            lines.append(" ".join([thing_words(story, thing, ()), *cells, *marks.get(thing.key, ())]).strip())
    return lines
