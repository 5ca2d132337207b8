"""The classes of the platform, and which classes may stand in a slot: by docs/USING.md, and as the program lists them."""

import re

from script.class_file import ClassFile
from script.names import class_of_type
from script.tests.maker import ABSTRACT, ALOAD_0, ICONST_0, INTERFACE, IRETURN, POP, Maker
from script.tests.tools import ROOT, direct, folder, judge_all, same
from script.world import PLATFORM, Known, Universe, World

FEW = ("--k", "1", "--array", "0")


def platform_of_the_page():
    """The names in the sentence of docs/USING.md; one without a package is of java/lang."""
    page = (ROOT / "docs/USING.md").read_text(encoding="utf-8")
    names = re.split(", | and ", re.search(r"with twenty classes of the platform: (.*?)\. ", page)[1])
    return [name if "/" in name else f"java/lang/{name}" for name in names]


def test_the_platform_is_that_of_the_page():
    names = platform_of_the_page()
    same((len(names), list(PLATFORM)), (20, names), "classes of the platform, in their order")


def given():
    """Class files that name platform classes and array types in each of the four ways, and some that name none."""
    first = Maker("First", "java/lang/Exception", ["Face"])
    for name in platform_of_the_page():
        first.named(name)
    for name in ("[I", "[[Z", "[J", "[[LFirst;", "[LGone;", "[Ljava/lang/String;", "[LFace;"):
        first.named(name)
    return [
        Maker("Shape", access=ABSTRACT, interfaces=["java/lang/Comparable", "Face"]),
        first,
        Maker("Face", access=INTERFACE, interfaces=["java/io/Serializable"]),
        Maker("Round", "Shape"),
        Maker("Plain", interfaces=["java/lang/Cloneable"]),
    ]


def types_in_report(text):
    """The types of the objects that stand in argument 0, in their order, each once."""
    found = re.findall(r"^obj o0 (\S+) (?:length 0 |above 0 )?a0$", text, flags=re.M)
    return list(dict.fromkeys(found))


def types_by_script(made, kind):
    """The same by the script."""
    world = World()
    classes = [Known(file.name, file) for file in (ClassFile(each.data()) for each in made)]
    for known in classes:
        world.add(known)
    named, arrays = Universe(world, classes).fitting(class_of_type(kind))
    return [*named, *arrays]


def judge(made, kind):
    """Whether an argument of that type holds, by the script, what the program tries."""
    made[0].method("f", f"({kind})I", ALOAD_0 + POP + ICONST_0 + IRETURN)
    with folder() as path:
        files = [each.write(path).name for each in made]
        ran = direct("explore", *FEW, "--method", f"{made[0].name}.f({kind})I", *files, cwd=path)
    same(ran.status, 0, kind)
    same(types_by_script(made, kind), types_in_report(ran.out.decode()), kind)


def test_what_fits_a_type():
    names = [*platform_of_the_page(), *(each.name for each in given())]
    judge_all(lambda name: judge([Maker("Asked"), *given()], f"L{name};"), names)


def test_how_a_type_is_named():
    """By an entry, or by the descriptor of a field, of a method, or of an entry of a name and a type."""
    string, objects = "java/lang/String", "Ljava/lang/Object;"
    ways = {
        "nothing": lambda made: None,
        "a class entry": lambda made: made.named(string),
        "an array's entry": lambda made: made.named(f"[[L{string};"),
        "a field": lambda made: made.field("x", f"L{string};"),
        "a field of arrays": lambda made: made.field("x", f"[L{string};"),
        "a parameter": lambda made: made.method("g", f"(IL{string};[Z)V", access=0x0401),
        "a result": lambda made: made.method("g", f"()[L{string};", access=0x0401),
        "a name and a type": lambda made: made.field_ref("Asked", "x", f"L{string};"),
        "a name and a method's type": lambda made: made.method_ref("Asked", "x", f"([[I)L{string};"),
        "a text": lambda made: made.utf8(f"L{string};"),
        "an entry behind a long one": lambda made: (made.long_entry(), made.named(string)),
    }

    def judge_way(way):
        made = Maker("Asked")
        ways[way](made)
        judge([made], objects)

    judge_all(judge_way, list(ways))
