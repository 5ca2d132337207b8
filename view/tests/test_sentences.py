"""Names, conditions in Java and sentences of paths, beside lists by hand."""

from script.tests.maker import ICONST_0, IRETURN, Maker
from script.tests.tools import ROOT, call, folder, same
from view.conditions import conditions_of
from view.sentences import cut_words, ring_words

from .tools import Seen, box, class_words, row_reports, stored


def explored(*words):
    """What is made of a report of the program on class files of examples/."""
    ran = call("explore", *words, cwd=ROOT / "examples")
    return Seen(ran.out, [ROOT / "examples" / word for word in words if word.endswith(".class")])


def sentences(seen):
    return {path.decisions: seen.sentence(path.decisions) for path in seen.report.paths}


def test_sentences_of_a_list():
    seen = explored("--method", "MyList.removeLast()V", "--k", "3", "MyList.class", "MyList$Node.class")
    same(seen.names.signature(), "void removeLast()", "the method")
    wanted = {
        "0": "throws NullPointerException where this.head == null",
        "1.0": "throws NullPointerException where this.head != null && this.head.next == null",
        "1.1": "cut by loops where this.head != null && this.head.next == this.head",
        "1.2.0": "returns where this.head != null && this.head.next != null && this.head.next.next == null",
        "1.2.1": "cut by loops where this.head != null && this.head.next != null && this.head.next.next == this.head",
        "1.2.2": "cut by loops where this.head != null && this.head.next != null && this.head.next.next == this.head.next",
        "1.2.3": "cut by k where this.head != null && this.head.next != null && this.head.next.next != null",
    }
    same(sentences(seen), wanted, "sentences")


def test_a_ring_is_told():
    seen = explored("--method", "MyList.removeLast()V", "MyList.class", "MyList$Node.class")
    wanted = "the heap is a ring (this.head.next.next == this.head): the method may never end on it"
    same(ring_words(seen.path("1.2.1"), seen.path_names("1.2.1")), wanted, "a ring of two nodes")
    same(ring_words(seen.path("1.2.3"), seen.path_names("1.2.3")), None, "a path that is cut by k")
    wanted = "a frame jumps back more often than loops = 10; --loops raises it"
    same(cut_words(seen.path("1.1"), seen.report), wanted, "the bound")


def test_a_ring_is_told_where_a_method_may_never_end():
    for bound, wanted in (("loops", True), ("steps", True), ("depth", True), ("k", False), ("array", False), ("alloc", False)):
        data = (
            "kiasan report 1\ntarget List.f(LList;)V\ninit lazy k 3 array 3 alloc 16 loops 10 depth 16 steps 2000 paths 1000 "
            f"budget 2000\npath 0\nsee a0 o0\nsee o0.List.next o0\nobj o0 List a0\ncut {bound}\narg i0\nin i0 List 0 i0\n"
            "total 1 ended 0 cut 1 undecided 0 open 0\n"
        )
        seen = Seen(data.encode())
        same(bool(ring_words(seen.path("0"), seen.path_names("0"))), wanted, bound)


def test_names_of_classes_arguments_and_slots():
    with folder() as place:
        seen = Seen(stored("forms"), [box(place)])
        same(seen.names.signature(), "Object take(Box other, int[] cells, int arg2)", "the method")
        wanted = [
            "other == null",
            "cells == null",
            "this.next == this",
        ]
        same(seen.writer("0").conditions(), wanted, "a location that is an object")
        wanted = [
            "other != null",
            "cells.length == 2",
            "Integer.compareUnsigned(arg2 + -2147483648, cells[1]) >= 0",
        ]
        same(seen.writer("1.0").conditions(), wanted, "an open location, an array and a term")
        same(seen.sentence("1.0"), "returns new Box[] where " + " && ".join(wanted), "the sentence")
        wanted = "cut by array where other == null && cells.length > 2"
        same(seen.sentence("1.1.0"), wanted, "an array that is longer")
        same(seen.sentence("2"), "is ill-typed where other == null && cells == null", "an ill-typed path")
        same(seen.sentence("3").partition(" where ")[0], "undecided", "an undecided path")
        same(seen.sentence("4"), "open where other == null && cells == null && arg2 >= 0", "an open path")


def test_names_without_class_files():
    seen = Seen(stored("forms"))
    same(seen.names.signature(), "Object take(Box arg0, int[] arg1, int arg2)", "the method")
    same(seen.path_names("0").variable("v1"), "this.two:boolean", "a slot of two of one name")


def test_conditions_of_terms():
    seen = Seen(stored("terms"))
    wanted = [
        "(arg0 + arg1) * arg1 < arg0 - (arg0 + arg1)",
        "(byte) -arg1 != -3",
        "Integer.compareUnsigned(arg0, arg1) < 0",
        "arg2",
        "arg3 == arg2",
        "(arg0 & arg1) << 2 == arg0",
        "0 < ((arg2 ? 1 : 0) & 1)",
        "arg2",
    ]
    same(seen.writer("0").conditions(), wanted, "conditions")
    same(seen.sentence("0").partition(" where ")[0], "returns arg2", "a boolean that is kept")


def test_a_large_term_that_is_used_twice_keeps_its_name():
    writer = Seen(stored("terms")).writer("1")
    same(writer.conditions(), ["t3 + t3 >= 0", "Integer.compareUnsigned(arg0 + arg1, 7) >= 0"], "conditions")
    same(writer.definitions(), [("t3", "arg0 + arg1 + 2 + 3 + 4")], "terms that keep their names")
    same(Seen(stored("terms")).sentence("1").partition(" where ")[0], "returns (arg0 & 1) != 0", "an int as a boolean")


def test_a_way_of_four_fields_is_a_number():
    seen = explored("--method", "List.reverse(LList;)LList;", "--k", "6", "List.class")
    path = next(path for path in seen.report.paths if len(path.objects) == 6)
    names = seen.path_names(path.decisions)
    found = [names.object(f"o{number}") for number in range(6)]
    way = ["list", "list.next", "list.next.next", "list.next.next.next", "o4", "o5"]
    same([each.replace("arg0", "list") for each in found], way, "names of objects")


def test_classes_are_told_where_several_may_stand():
    with folder() as place:
        Maker("Leaf", parent="Tree").write(place)
        Maker("Tree").write(place)
        made = Maker("Holder").field("tree", "LTree;").method("f", "(LTree;)I", ICONST_0 + IRETURN)
        made.write(place)
        data = (
            "kiasan report 1\ntarget Holder.f(LTree;)I\ninit lazy k 3 array 3 alloc 16 loops 10 depth 16 steps 2000 paths 1000 "
            "budget 2000\npath 0\nsee a0 o0\nobj o0 Leaf a0\nreturns 0\narg i0\nin i0 Leaf\n"
            "total 1 ended 1 cut 0 undecided 0 open 0\n"
        )
        seen = Seen(data.encode(), [place])
        same(seen.sentence("0"), "returns 0 where arg0.getClass() == Leaf.class", "the sentence")


def test_fields_of_one_name_are_told_apart_by_their_classes():
    with folder() as place:
        Maker("Base").field("side", "I").write(place)
        Maker("Low", parent="Base").field("side", "I").method("f", "(LLow;)I", ICONST_0 + IRETURN).write(place)
        data = (
            "kiasan report 1\ntarget Low.f(LLow;)I\ninit lazy k 3 array 3 alloc 16 loops 10 depth 16 steps 2000 paths 1000 "
            "budget 2000\npath -\nsee a0 o0\nsee o0.Base.side v0\nobj o0 Low a0\nreturns v0\narg i0\nin i0 Low 0 0\n"
            "total 1 ended 1 cut 0 undecided 0 open 0\n"
        )
        seen = Seen(data.encode(), [place])
        same(seen.sentence("-"), "returns ((Base) arg0).side where arg0 != null", "the sentence")


def test_conditions_of_all_rows_hold_of_their_inputs():
    count = 0
    for words, output in row_reports():
        seen = Seen(output, class_words(words))
        for path in seen.report.paths:
            if path.has_input:
                given = seen.given(path.decisions)
                values = given.values()
                failing = [each.sort for each in conditions_of(path) if not given.meets(each, values)]
                same(failing, [], f"{words}, path {path.decisions}")
                count += len(conditions_of(path))
    same(count > 1000, True, "there are conditions")


def test_a_condition_that_does_not_hold_is_told():
    with folder() as place:
        seen = Seen(stored("forms"), [box(place)])
        given = seen.given("1.0")
        values = given.values()
        found = [given.meets(each, values) for each in conditions_of(seen.path("1.0"))]
        same(found, [True, True, True, True], "conditions of the input")
        seen.path("1.0").arguments[3] = "-2147483648"
        values = given.values()
        same(given.meets(conditions_of(seen.path("1.0"))[3], values), True, "0 and 0 without sign")
        seen.path("1.0").inputs[1] = ("[I", ("0", "9"))
        values = seen.given("1.0").values()
        same(seen.given("1.0").meets(conditions_of(seen.path("1.0"))[3], values), False, "0 is less than 9")


def test_terms_of_thousands_of_nodes_are_written_by_their_names():
    count = 5000
    lets = [
        f"let t0 add v0 1",
        *(f"let t{number} {'eq' if number == 1 else 'add'} t{number - 1} 1" for number in range(1, count)),
    ]
    head = [
        "kiasan report 1",
        "target T.f(I)I",
        "init lazy k 3 array 3 alloc 16 loops 10 depth 16 steps 2000 paths 1 budget 2",
        "path -",
        "see a0 v0",
    ]
    lines = [*head, *lets, f"returns t{count - 1}", "arg 0", "total 1 ended 1 cut 0 undecided 0 open 0"]
    seen = Seen("".join(f"{line}\n" for line in lines).encode())
    same(seen.sentence("-"), f"returns t{count - 1}", "the sentence")
    definitions = seen.writer("-").definitions()
    same(definitions[0][1], "(arg0 + 1 == 1 ? 1 : 0)" + " + 1" * 48, "the first term with a name, of 101 nodes")
    same(definitions[-1], (f"t{count - 1}", f"t{count - 2} + 1"), "the last term")
