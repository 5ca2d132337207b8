"""Warnings and notes before a report that is narrower than it looks."""

from script.tests.maker import ABSTRACT, ALOAD_0, GETFIELD, ICONST_0, INTERFACE, IRETURN, POP, STATIC, Maker, taking
from script.tests.tools import LEAST, ROOT, call, explained, folder, same, stand_in, status_lines


def said_of(classes, method, *words, place=False):
    """The status, and what is said of a method over these class files, each named singly, or of their folder."""
    with folder() as path:
        files = [str(made.write(path).relative_to(path)) for made in classes]
        ran = call("explore", "--method", method, *words, *(["."] if place else files), cwd=path)
        return ran.status, ran.said


def reading(name, kind):
    """A class with a field of that type, and a method that reads it."""
    made = Maker(name).field("slot", kind)
    return made.method("f", "()I", ALOAD_0 + GETFIELD + made.field_ref(name, "slot", kind) + POP + ICONST_0 + IRETURN, access=1)


def test_a_class_that_is_not_given():
    wanted = "warning: class p/Node is not given, so {} can only be null"
    same(said_of([reading("M", "Lp/Node;")], "M.f()I"), (0, [wanted.format("M.slot")]), "a field")
    same(said_of([reading("M", "[Lp/Node;")], "M.f()I"), (0, [wanted.format("M.slot")]), "a field of arrays")
    same(said_of([taking("M", "p/Node")], "M.f(Lp/Node;)I"), (0, [wanted.format("argument 0")]), "a parameter")
    same(said_of([reading("M", "Lp/Node;"), Maker("p/Node")], "M.f()I"), (0, []), "a class that is given")
    same(said_of([reading("M", "Ljava/lang/String;")], "M.f()I"), (0, []), "a class of the platform")


def test_a_field_that_is_not_accessed():
    made = Maker("M").field("slot", "Lp/Node;").method("f", "()I", ICONST_0 + IRETURN, access=1)
    same(said_of([made], "M.f()I"), (0, []), "a field that no code reads")


def test_a_parameter_is_named_where_the_class_file_names_it():
    made = Maker("M").method("f", "(JLNode;)I", ICONST_0 + IRETURN, names=[(0, "count"), (2, "node")])
    same(said_of([made], "M.f(JLNode;)I")[0], 5, "a long")
    made = Maker("M").method("f", "(ILNode;)I", ICONST_0 + IRETURN, names=[(0, "count"), (1, "node")])
    wanted = "warning: class Node is not given, so argument 1 (node) can only be null"
    same(said_of([made], "M.f(ILNode;)I"), (0, [wanted]), "a parameter with a name")
    made = Maker("M").method("f", "(LNode;)I", ICONST_0 + IRETURN, access=1, names=[(0, "this"), (1, "node")])
    same(said_of([made], "M.f(LNode;)I"), (0, [wanted]), "a parameter behind a receiver")


def test_where_it_lies():
    with folder() as path:
        made = reading("p/M", "Lq/Node;").write(path / "out")
        Maker("q/Node").write(path / "out")
        ran = call("explore", "--method", "p/M.f()I", made.relative_to(path), cwd=path)
        wanted = "warning: class q/Node is not given, so p/M.slot can only be null; it lies in out/q/Node.class"
        same((ran.status, ran.said), (0, [wanted]), "a class file beside the given one")


def test_nothing_below():
    wanted = "warning: no class below Shape is given, so M.slot can only be null"
    for access in (ABSTRACT, INTERFACE):
        shape = Maker("Shape", access=access)
        same(said_of([reading("M", "LShape;"), shape], "M.f()I"), (0, [wanted]), "nothing below")
        above = {"interfaces": ["Shape"]} if access == INTERFACE else {"parent": "Shape"}
        below = Maker("Base", access=ABSTRACT, **above)
        same(said_of([reading("M", "LShape;"), shape, below], "M.f()I"), (0, [wanted]), "an abstract class below")
        same(said_of([reading("M", "LShape;"), shape, below, Maker("Round", "Base")], "M.f()I"), (0, []), "a class below")
    wanted = "warning: no class below java/lang/Comparable is given, so M.slot can only be null"
    same(said_of([reading("M", "Ljava/lang/Comparable;")], "M.f()I"), (0, [wanted]), "an interface of the platform")


def test_no_receiver():
    made = Maker("M", access=ABSTRACT).method("f", "()I", ICONST_0 + IRETURN, access=1)
    wanted = "warning: no class below M is given, so there is no receiver and no path"
    same(said_of([made], "M.f()I"), (0, [wanted]), "an abstract class")
    same(said_of([made, Maker("Below", "M")], "M.f()I"), (0, []), "with a class below it")


def test_what_may_hold_many_classes():
    made = reading("M", "Ljava/lang/Object;")
    same(said_of([made, Maker("A"), Maker("B")], "M.f()I", "--k", "1"), (0, []), "four classes: A, B, M and java/lang/Object")
    wanted = "note: M.slot may hold each of 5 classes: M, A, B, C, java/lang/Object"
    same(said_of([made, Maker("A"), Maker("B"), Maker("C")], "M.f()I", "--k", "1"), (0, [wanted]), "five classes")
    arrays = reading("M", "[Ljava/lang/Object;")
    same(said_of([arrays, *(Maker(name) for name in "ABCD")], "M.f()I", "--k", "1"), (0, []), "an array of objects")
    place = ["of . (2 class files): M", "note: M.slot may hold each of 2 classes: M, java/lang/Object"]
    same(said_of([made, Maker("A")], "M.f()I", "--k", "1", place=True), (0, place), "a class of a folder that nothing names")
    arrays = reading("M", "Ljava/io/Serializable;").field("ints", "[[I").field("longs", "[J").field("gone", "[LGone;")
    wanted = "note: M.slot may hold each of 3 classes and 2 array types: A, B, C, [I, [[I"
    found = said_of([arrays, *(Maker(name, interfaces=["java/io/Serializable"]) for name in "ABC")], "M.f()I", "--k", "1")
    same(found, (0, [wanted]), "arrays of a type of the world, and their components")


def test_eight_lines_at_most():
    classes = [f"G{number}" for number in range(10)]
    kinds = "".join(f"L{name};" for name in classes)
    wanted = [f"warning: class G{number} is not given, so argument {number} can only be null" for number in range(8)]
    same(said_of([taking("M", *classes)], f"M.f({kinds})I"), (0, [*wanted, "and 2 more"]), "ten warnings")


def test_a_refusal_comes_without_warnings():
    made = Maker("M").method("f", "(LNode;)I", b"\xb2" + b"\0\x01" + IRETURN)
    wanted = explained("refused 47 TARGET at N opcode HH", "opcode b2 is getstatic")
    same(said_of([made], "M.f(LNode;)I"), (5, wanted), "a refusal")


def test_warnings_of_tests_and_of_open_paths():
    with folder() as path:
        taking("M", "Node").write(path)
        ran = call("tests", "--method", "M.f(LNode;)I", "M.class", cwd=path)
        wanted = "warning: class Node is not given, so argument 0 can only be null"
        same((ran.status, ran.said), (0, [wanted]), "tests")
        taking("M", "Node", "M").write(path)
        ran = call("explore", "--paths", "1", "--method", "M.f(LNode;LM;)I", "M.class", cwd=path)
        same((ran.status, ran.said), (1, [wanted, *status_lines(1)]), "open paths")


def test_replay_warns_of_nothing():
    with folder() as path:
        taking("M", "Node").write(path)
        test = "test M.f(LNode;)I\nbounds alloc 16 loops 10 depth 16 steps 2000\narg null\nreturns 0\nend\n"
        (path / "a.tests").write_text(test, encoding="ascii")
        ran = call("replay", "--tests", "a.tests", "M.class", cwd=path)
        same((ran.status, ran.said), (0, []), "a replay")
        ran = call("replay", "--tests", "a.tests", ".", cwd=path)
        same((ran.status, ran.said), (0, ["of . (1 class file): M"]), "a replay with a place")


def test_static_fields_are_no_slots():
    made = Maker("M").field("slot", "LNode;", access=STATIC)
    made.method("f", "()I", ICONST_0 + IRETURN)
    same(said_of([made], "M.f()I"), (0, []), "a static field")


def accessing(made, *fields, taken="()I", names=()):
    """A class with a method that reads these fields of it, each a class, a name and a type."""
    code = b"".join(ALOAD_0 + GETFIELD + made.field_ref(*field) + POP for field in fields)
    return made.method("f", taken, code + ICONST_0 + IRETURN, access=1, names=names)


def test_the_order_of_what_is_said():
    """Warnings come before notes, parameters before fields, and fields as the code reads them, each once."""
    objects = "Ljava/lang/Object;"
    made = Maker("M").field("second", "LTwo;").field("first", "LOne;").field("any", objects)
    first, second = ("M", "first", "LOne;"), ("M", "second", "LTwo;")
    accessing(made, ("M", "any", objects), first, second, first, taken=f"({objects}LThree;)I")
    given = [made, *(Maker(name) for name in "ABC")]
    many = "may hold each of 5 classes: M, A, B, C, java/lang/Object"
    missing = [("Three", "argument 2"), ("One", "M.first"), ("Two", "M.second")]
    wanted = [f"warning: class {name} is not given, so {slot} can only be null" for name, slot in missing]
    wanted += [f"note: argument 1 {many}", f"note: M.any {many}"]
    same(said_of(given, f"M.f({objects}LThree;)I", "--k", "1"), (0, wanted), "the order of lines")


def test_a_field_of_a_superclass():
    """It is called by the class that declares it, and may be private."""
    for access in (0, 2):
        made = accessing(Maker("M", "p/Base"), ("M", "slot", "LNode;"))
        base = Maker("p/Base").field("slot", "LNode;", access)
        wanted = "warning: class Node is not given, so p/Base.slot can only be null"
        same(said_of([made, base], "M.f()I"), (0, [wanted]), f"a field of a superclass with flags {access}")


def test_arrays_of_what_no_object_is():
    """An array of an abstract class may be there, where no object of the class is."""
    for access in (ABSTRACT, INTERFACE):
        shape = Maker("Shape", access=access)
        same(said_of([reading("M", "[LShape;"), shape], "M.f()I"), (0, []), "an array")
    arrays = reading("M", "Ljava/io/Serializable;").field("ints", "[I")
    same(said_of([arrays], "M.f()I"), (0, []), "an interface of the platform that arrays have")
    wanted = "warning: no class below java/lang/Comparable is given, so M.slot can only be null"
    arrays = reading("M", "Ljava/lang/Comparable;").field("ints", "[I")
    same(said_of([arrays], "M.f()I"), (0, [wanted]), "one that they have not")


def test_a_place_beside_a_file_is_looked_into():
    """Classes of it that nothing names are not tried, so the note comes with few classes too."""
    with folder() as path:
        reading("M", "Ljava/lang/Object;").write(path)
        wanted = "note: M.slot may hold each of 2 classes: M, java/lang/Object"
        same(call("explore", "--k", "1", "--method", "M.f()I", "M.class", cwd=path).said, [], "no place")
        Maker("M$Other").write(path)
        same(call("explore", "--k", "1", "--method", "M.f()I", "M.class", cwd=path).said, [wanted], "a class file beside")


def test_where_the_class_file_of_a_missing_class_is_sought():
    """By the name from the folder of the classes, then in the same folder; a class file of another name is none."""
    wanted = "warning: class q/Node is not given, so p/M.slot can only be null"
    with folder() as path:
        reading("p/M", "Lq/Node;").write(path, "out/p/M.class")
        Maker("Node").write(path, "out/p/Node.class")
        ran = call("explore", "--method", "p/M.f()I", "out/p/M.class", cwd=path)
        same((ran.status, ran.said), (0, [wanted]), "a class file of another name")
        Maker("q/Node").write(path, "out/p/Node.class")
        ran = call("explore", "--method", "p/M.f()I", "out/p/M.class", cwd=path)
        same((ran.status, ran.said), (0, [f"{wanted}; it lies in out/p/Node.class"]), "in the same folder")
        Maker("q/Node").write(path, "out/q/Node.class")
        ran = call("explore", "--method", "p/M.f()I", "out/p/M.class", cwd=path)
        same((ran.status, ran.said), (0, [f"{wanted}; it lies in out/q/Node.class"]), "by its name")
        reading("p/M", "Lq/Node;").write(path, "out/p/Renamed.class")
        ran = call("explore", "--method", "p/M.f()I", "out/p/Renamed.class", cwd=path)
        same((ran.status, ran.said), (0, [f"{wanted}; it lies in out/p/Node.class"]), "a file that is not called by its class")


def test_the_folder_of_the_classes():
    """It is the path without the class's name, where that begins behind a `/` or with the path."""
    wanted = "warning: class q/Node is not given, so M.slot can only be null"
    with folder() as path:
        made = reading("M", "Lq/Node;")
        made.write(path, "out/XM.class")
        Maker("q/Node").write(path, "out/Xq/Node.class")
        ran = call("explore", "--method", "M.f()I", "out/XM.class", cwd=path)
        same((ran.status, ran.said), (0, [wanted]), "a file whose name only ends with that of its class")
        made.write(path / "out")
        Maker("q/Node").write(path / "out")
        ran = call("explore", "--method", "M.f()I", "M.class", cwd=path / "out")
        same((ran.status, ran.said), (0, [f"{wanted}; it lies in q/Node.class"]), "a file of the current folder")


def test_eight_lines_are_told_without_more():
    classes = [f"G{number}" for number in range(8)]
    kinds = "".join(f"L{name};" for name in classes)
    wanted = [f"warning: class {name} is not given, so argument {at} can only be null" for at, name in enumerate(classes)]
    same(said_of([taking("M", *classes)], f"M.f({kinds})I"), (0, wanted), "eight warnings")


def test_warnings_with_a_mode():
    made, wanted = taking("M", "Node"), "warning: class Node is not given, so argument 0 can only be null"
    same(said_of([made], "M.f(LNode;)I", "--init", "lazy"), (0, [wanted]), "--init lazy")
    found = said_of([made], "M.f(LNode;)I", "--init", "lazier")
    same(found, (5, explained("refused 50", "word 4 is --init lazier")), "--init lazier, which is refused")


def test_how_it_is_asked_whether_anything_is_refused():
    """Once, with all bounds at their least, before the call; and not at all where there is nothing to warn of."""
    with folder() as path:
        taking("M", "Node").write(path)
        env = stand_in(path, 'echo "$*" >>asked\n')
        words = ["explore", "--k", "9", "--method", "M.f(LNode;)I", "M.class"]
        same(len(call(*words, cwd=path, env=env).said), 1, "a warning")
        wanted = [f"explore {LEAST} --method M.f(LNode;)I M.class", " ".join(words)]
        same((path / "asked").read_text(encoding="ascii").splitlines(), wanted, "calls of the program")
        (path / "asked").unlink()
        Maker("Node").write(path)
        same(call(*words, "Node.class", cwd=path, env=env).said, [], "no warning")
        same((path / "asked").read_text(encoding="ascii"), f"{' '.join(words)} Node.class\n", "calls of the program")


def test_the_lines_of_the_page():
    """Those that docs/USING.md shows, each by a class of its kind; `..` stands for a rest."""
    made = Maker("coll/MyList").field("head", "Lcoll/MyList$Node;").field("elem", "Ljava/lang/Object;")
    fields = [("coll/MyList", "head", "Lcoll/MyList$Node;"), ("coll/MyList", "elem", "Ljava/lang/Object;")]
    accessing(made, *fields, taken="(Lcoll/Shape;)I", names=[(0, "this"), (1, "shape")])
    given = [made, Maker("coll/Shape", access=ABSTRACT), *(Maker(name) for name in "ABCDE")]
    status, said = said_of(given, "coll/MyList.f(Lcoll/Shape;)I", "--k", "1")
    page = (ROOT / "docs/USING.md").read_text(encoding="utf-8")
    lines = [line for line in page.split("\n") if line.startswith(("kiasan: warning: ", "kiasan: note: "))]
    same((status, len(lines), len(said)), (0, 3, 3), "lines of the page")
    for line in lines:
        head = line.removeprefix("kiasan: ").removesuffix("..")
        same(sum(each.startswith(head) for each in said), 1, f"{line} among {said}")
