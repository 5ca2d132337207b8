"""Each cell of the drawings, beside the program's diagram of the path."""

from script.tests.tools import direct, judge_all, same
from view.classes import Classes
from view.forms import read_slot
from view.model import Model
from view.report import read_report

from .tools import class_words, loaded, row_reports


def explored_rows():
    """The words of each row that lists paths, but its command, with its report."""
    return [(words[1:], output) for words, output in row_reports()]


def diagrams_of(text):
    """The diagram of each path, by the path's decisions: its lines behind the title."""
    found = {}
    for block in ("\n" + text.decode("ascii")).split("\ndiagram ")[1:]:
        decisions, *lines = block.rstrip("\n").split("\n")
        same(decisions in found, False, f"a second diagram of {decisions}")
        found[decisions] = lines
    return found


def drawn(story):
    """What is drawn of a path, in the lines of a diagram but the last one."""
    things = story.heap().things
    picture = [thing for thing in things if thing.sort == "picture"]
    lines = ["before", *(object_line(thing, [cell.before for cell in thing.cells]) for thing in picture)]
    if story.path.has_ended:
        after = [thing for thing in things if thing.sort in ("picture", "made")]
        lines += ["after", *(object_line(thing, [cell.after for cell in thing.cells]) for thing in after)]
    return lines


def object_line(thing, held):
    """An object with what its slots hold, each by the name of its field or by its index."""
    cells = [f"{slot_name(cell)}={spelled_cell(text)}" for cell, text in zip(thing.cells, held)]
    return " ".join([thing.key, thing.kind, *cells])


def slot_name(cell):
    slot = read_slot(cell.key)
    return str(slot.index) if slot.field is None else slot.field


def spelled_cell(text):
    """Beyond a bound the drawings have an object for each slot."""
    return "beyond" if text.startswith("beyond:") else text


def judge(row):
    """Whether what is drawn of each path of a report is what its diagram shows."""
    words, output = row
    shown = diagrams_of(direct("diagrams", *words).out)
    model = Model(read_report(output), Classes([str(file) for file in loaded(class_words(words))]))
    same(list(shown), [story.decisions for story in model.stories], f"{words}: the paths")
    for story in model.stories:
        same(drawn(story), shown[story.decisions][:-1], f"{words}: path {story.decisions}")


def test_what_is_drawn_is_what_the_diagrams_show():
    found = explored_rows()
    same(len(found) > 100, True, "there are reports")
    judge_all(judge, found)


def test_a_drawing_has_each_form_of_a_cell():
    text = [cell for words, output in explored_rows() for cell in cells_of(words, output)]
    forms = {cell[:1] if cell[:1] in "?blnotv" else "0" for cell in text}
    same(forms, set("?bnov0t"), "forms of cells")


def cells_of(words, output):
    """What the drawings of a report have in their cells."""
    model = Model(read_report(output), Classes([str(file) for file in loaded(class_words(words))]))
    return [cell.partition("=")[2] for story in model.stories for line in drawn(story) for cell in line.split(" ")[2:]]
