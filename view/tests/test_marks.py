"""The heap of a path, before and after, and its marks."""

from script.tests.maker import ACONST_NULL, ARETURN, Maker
from script.tests.tools import folder, same
from view.marks import cell_mark, thing_marks
from view.text import heap_lines
from view.words_of_heap import is_bracketed

from .tools import Seen, box, stored

HEAD = (
    "kiasan report 1\ntarget Node.f(LNode;)LNode;\n"
    "init lazy k 3 array 3 alloc 16 loops 10 depth 16 steps 2000 paths 1000 budget 2000\n"
)
TAIL = "total 1 ended 1 cut 0 undecided 0 open 0\n"


def seen_with(place, *lines):
    """What is made of a report on one path with those lines."""
    made = Maker("Node").field("elem", "I").field("next", "LNode;")
    made.method("f", "(LNode;)LNode;", ACONST_NULL + ARETURN).write(place)
    return Seen("".join([HEAD, "path -\n", *(f"{line}\n" for line in lines), TAIL]).encode(), [place])


def marked(place, *lines):
    """The marks of a path with those lines: of each slot by object and slot, and of objects."""
    heap = seen_with(place, *lines).heap("-")
    slots = {f"{thing.key}.{cell.label}": cell_mark(cell) for thing in heap.things for cell in thing.cells}
    return {slot: mark for slot, mark in slots.items() if mark}, thing_marks(heap)


def test_a_tail_that_is_lost_by_a_slot_that_was_not_read():
    with folder() as place:
        lines = ("see a0 o0", "obj o0 Node a0", "returns o0", "set o0.Node.next null", "arg i0", "in i0 Node 0 null")
        slots, things = marked(place, *lines)
        same(slots, {"o0.elem": "unread", "o0.next": "overwritten"}, "slots")
        same(things, {}, "objects")


def test_a_tail_that_is_lost():
    with folder() as place:
        lines = ("see a0 o0", "see o0.Node.next o1", "see o1.Node.elem v0", "obj o0 Node a0", "obj o1 Node o0.Node.next")
        ending = ("returns o0", "set o0.Node.next null", "arg i0", "in i0 Node 0 i1", "in i1 Node 0 null")
        slots, things = marked(place, *lines, *ending)
        same(slots, {"o0.elem": "unread", "o0.next": "changed", "o1.next": "unread"}, "slots")
        same(things, {"o1": ["lost"]}, "objects")


def test_a_ring_that_nothing_changes():
    with folder() as place:
        lines = (
            "see a0 o0",
            "see o0.Node.next o0",
            "obj o0 Node a0",
            "returns o0",
            "set o0.Node.next o0",
            "arg i0",
            "in i0 Node 0 i0",
        )
        slots, things = marked(place, *lines)
        same((slots, things), ({"o0.elem": "unread"}, {}), "a slot is set to what it held")


def test_an_object_that_only_the_argument_leads_to():
    with folder() as place:
        lines = ("see a0 o0", "see o0.Node.next o1", "obj o0 Node a0", "obj o1 Node o0.Node.next", "returns o1")
        slots, things = marked(place, *lines, "arg i0", "in i0 Node 0 i1", "in i1 Node 0 null")
        same(things, {"o0": ["aside"]}, "objects")


def test_a_made_object_leads_on():
    with folder() as place:
        lines = ("see a0 o0", "see o0.Node.next o1", "obj o0 Node a0", "obj o1 Node o0.Node.next", "returns n1")
        more = ("set o0.Node.next null", "new n0 Node 1 o1", "new n1 Node 2 n0")
        slots, things = marked(place, *lines, *more, "arg i0", "in i0 Node 0 i1", "in i1 Node 0 null")
        same(things, {"o0": ["aside"]}, "objects")
        same(slots, {"o0.elem": "unread", "o0.next": "changed", "o1.elem": "unread", "o1.next": "unread"}, "slots")


def test_a_sign_is_no_operation():
    """Behind a term of several words it stands behind brackets."""
    with folder() as place:
        front = ("see a0 o0", "see o0.Node.elem v0", "obj o0 Node a0")
        for term, wanted in [
            ("sub v0 1", "elem=(arg0.elem - 1)*"),
            ("neg v0", "elem=-arg0.elem*"),
            ("eq v0 1", "elem=(arg0.elem == 1 ? 1 : 0)*"),
        ]:
            lines = (*front, f"let t0 {term}", "returns o0", "set o0.Node.elem t0", "arg i0", "in i0 Node 0 null")
            (story,) = seen_with(place, *lines).model.stories
            same(heap_lines(story, story.heap(), True)[1], f"o0 Node {wanted} next=?", term)
    for text, wanted in [("(a)", True), ("(a) + (b)", False), ("a", False), ("((a) + b)", True), ("", False)]:
        same(is_bracketed(text), wanted, text)


def test_nothing_returned_leads_to_all():
    with folder() as place:
        lines = ("see a0 o0", "obj o0 Node a0", "returns null", "arg i0", "in i0 Node 0 null")
        same(marked(place, *lines)[1], {}, "objects")


def test_cells_of_every_kind():
    with folder() as place:
        seen = Seen(stored("forms"), [box(place)])
        heap = seen.heap("1.0")
        found = [
            (thing.key, thing.sort, [(cell.label, cell.before, cell.after) for cell in thing.cells]) for thing in heap.things
        ]
        slots = [
            ("next", "?", "l1"),
            ("a+b", "?", "null"),
            ("flag", "?", "?"),
            ("two:int", "?", "?"),
            ("two:boolean", "?", "?"),
        ]
        made = [("next", "o0"), ("a+b", "s0"), ("flag", "1"), ("two:int", "t2"), ("two:boolean", "0"), ("number", "-1")]
        wanted = [
            ("o0", "picture", [*slots, ("number", "?", "?")]),
            ("o1", "picture", [("0", "?", "t2"), ("1", "v1", "v1")]),
            ("n0", "made", [(label, None, after) for label, after in made]),
            ("n1", "made", [("0", None, "n0"), ("1", None, "null"), ("2", None, "n0")]),
            ("l1", "open", []),
        ]
        same(found, wanted, "objects")
        same(
            [(cell.label, cell.before) for cell in heap.arguments],
            [("this", "o0"), ("other", "l1"), ("cells", "o1"), ("arg2", "v0")],
            "arguments",
        )
        same(thing_marks(heap), {"o1": ["aside"], "l1": ["open"]}, "marks")
        same([(thing.key, thing.sort) for thing in seen.heap("1.1.1").things], [("l0", "open"), ("l1", "beyond")], "locations")


def test_a_path_that_has_not_ended_has_no_marks_of_what_is_lost():
    with folder() as place:
        same(thing_marks(Seen(stored("forms"), [box(place)]).heap("4")), {"l0": ["open"]}, "marks")


def test_without_the_class_there_are_the_slots_of_the_report():
    heap = Seen(stored("forms")).heap("0")
    same(
        [(cell.label, cell.before, cell.after) for cell in heap.things[0].cells],
        [("next", "o0", "o0"), ("two:boolean", "v1", "v1"), ("two:int", "?", "v1")],
        "slots",
    )
