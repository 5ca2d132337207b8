"""The words of a heap's parts, which its text, its boxes and its drawings share."""

from .marks import BEYOND, CHANGED, LEGEND, OPEN, OVERWRITTEN, cell_mark


def argument_words(story, heap, cell):
    """An argument, with its value where it leads to no object of a drawing."""
    return cell.label if cell.before in heap.by_key else f"{cell.label}={story.cell(cell.before, cell.kind)}"


def thing_words(story, thing, marks):
    """An object: its number, its class, of an array its length, and its marks."""
    words = [] if thing.key.startswith("beyond:") else [thing.key]
    words += [story.writer.types.of_exact(thing.kind)] if thing.kind else []
    if thing.length is not None:
        words.append(f"length{'>' if thing.above else '='}{thing.length}")
    return " ".join([*words, *marks])


def cell_words(story, cell, after):
    """A slot with what it holds, and after the run with a sign where it is marked."""
    held = cell.after if after else cell.before
    text = "" if held is None else story.cell(held, cell.kind)
    mark = cell_mark(cell) if after else None
    if mark not in (CHANGED, OVERWRITTEN):
        return f"{cell.label}={text}"
    # a sign behind an operation would look as if it were one
    text = f"({text})" if " " in text and not is_bracketed(text) else text
    return f"{cell.label}={text}{LEGEND[mark][0]}"


def is_bracketed(text):
    """Whether one pair of brackets stands around all of a text."""
    depth = 0
    for at, char in enumerate(text):
        depth += (char == "(") - (char == ")")
        if depth == 0:
            return text[0] == "(" and at == len(text) - 1
    return False


def first_marks(thing):
    """The marks of an object before the run."""
    return [thing.sort] if thing.sort in (OPEN, BEYOND) else []


def marks_of(story, heap, after):
    """The marks of objects, before or after."""
    return story.marks(heap) if after else {thing.key: first_marks(thing) for thing in heap.things}
