"""What tests of view/ share."""

from script.names import spelled
from script.tests.maker import ACONST_NULL, ARETURN, STATIC, Maker
from script.tests.tools import DATA, ROOT, direct, rows
from view.classes import Classes
from view.heaps import Heap
from view.inputs import Input
from view.java import Writer
from view.lines import Unreadable
from view.names import PathNames
from view.report import read_report
from view.model import Model

REPORTS = ROOT / "view" / "tests" / "reports"


def stored(name):
    """The bytes of a report that was written by hand."""
    return (REPORTS / f"{name}.report").read_bytes()


def refused_line(data):
    """The line at which the reader stops, or None."""
    try:
        read_report(data)
    except Unreadable as stop:
        return stop.line
    return None


def lines_of(data):
    """The lines, each with its line feed."""
    return data.splitlines(keepends=True)


class Seen:
    """A report with the classes beside it, and what is made of its paths."""

    def __init__(self, data, words=()):
        self.report = read_report(data)
        self.classes = Classes([str(word) for word in words])
        self.model = Model(self.report, self.classes)
        self.names = self.model.names

    def path(self, decisions):
        return next(path for path in self.report.paths if path.decisions == decisions)

    def path_names(self, decisions):
        return PathNames(self.names, self.path(decisions))

    def writer(self, decisions):
        return Writer(self.path_names(decisions))

    def sentence(self, decisions):
        return next(story.sentence for story in self.model.stories if story.decisions == decisions)

    def heap(self, decisions):
        return Heap(self.path(decisions), self.path_names(decisions))

    def given(self, decisions):
        return Input(self.path(decisions), self.classes)


def row_reports():
    """Each report of the rows, with the words that wrote it."""
    return [(words, output) for words, output, _ in rows() if output.startswith(b"kiasan report 1\n")]


def class_words(words):
    """The class files among the words of a row."""
    return [DATA / word for word in words if word.endswith(".class")]


def loaded(files):
    """Class files with which the others can be loaded: to list the methods of Odd, the machine asks for Other."""
    files = list(files)
    return [*files, DATA / "Other.class"] if DATA / "Odd.class" in files and DATA / "Other.class" not in files else files


def box(folder):
    """The class of the report `forms`, with names of the first arguments."""
    made = Maker("p/Box")
    for name, kind in (
        ("next", "Lp/Box;"),
        ("a+b", "Ljava/lang/Object;"),
        ("flag", "Z"),
        ("two", "I"),
        ("two", "Z"),
        ("number", "I"),
    ):
        made.field(name, kind)
    made.field("unread", "J").field("shared", "I", STATIC)
    kind = "(Lp/Box;[II)Ljava/lang/Object;"
    made.method("take", kind, ACONST_NULL + ARETURN, 0, names=[(0, "this"), (1, "other"), (2, "cells")])
    return made.write(folder)


# Names that a class file may hold, of a class, fields, a method, a parameter and a source.
HOSTILE = {
    "class": "q/<script>alert(1)<&\"'$*>",
    "fields": ("<img src=x onerror=y>", "]]>", "*/", "\\u000a", '"', "&amp;", "\xc3\xa9\xff", "a\nb"),
    "method": 'm"*/<b>',
    "parameter": "<i>p\\u002a/",
    "source": "<u>S.java",
}


def hostile(folder):
    """A class file of such names, and a report on it. Its method takes an object of it and returns it."""
    kind = f"L{HOSTILE['class']};"
    made = Maker(HOSTILE["class"], source=HOSTILE["source"])
    for name in HOSTILE["fields"]:
        made.field(name, kind)
    code = b"\x2a\xb0"
    made.method(HOSTILE["method"], f"({kind}){kind}", code, lines=[(0, 7)], names=[(0, HOSTILE["parameter"])])
    owner, method = spelled(HOSTILE["class"]), spelled(HOSTILE["method"])
    slots = [f"o0.{owner}.{spelled(name)}" for name in HOSTILE["fields"]]
    lines = [
        "kiasan report 1",
        f"target {owner}.{method}(L{owner};)L{owner};",
        "init lazy k 3 array 3 alloc 16 loops 10 depth 16 steps 2000 paths 1000 budget 2000",
        "path 0",
        "see a0 o0",
        *(f"see {slot} null" for slot in slots[:4]),
        f"obj o0 {owner} a0",
        "returns o0",
        *(f"set {slot} o0" for slot in slots[2:]),
        "arg i0",
        " ".join(["in", "i0", owner, *["null"] * len(slots)]),
        "path 1",
        "see a0 o0",
        f"obj o0 {owner} a0",
        "throws n0",
        f"new n0 {owner} {' '.join(['null'] * len(slots))}",
        "arg i0",
        " ".join(["in", "i0", owner, *["null"] * len(slots)]),
        "total 2 ended 2 cut 0 undecided 0 open 0",
    ]
    file = made.write(folder, "Hostile.class")
    return "".join(f"{line}\n" for line in lines).encode(), file


# Methods whose texts and tests are compared word for word: the words of their exploration, and their class files.
EXAMPLES = ROOT / "examples"
METHODS = (
    ("sum", ["A.f(II)I"], [EXAMPLES / "A.class"]),
    ("removeLast", ["MyList.removeLast()V", "--k", "2"], [EXAMPLES / "MyList.class", EXAMPLES / "MyList$Node.class"]),
    ("contains", ["List.contains(I)Z", "--k", "1"], [EXAMPLES / "List.class"]),
    ("reverse", ["List.reverse(LList;)LList;", "--k", "1"], [EXAMPLES / "List.class"]),
    ("fill", ["Figure.fill()Z"], [DATA / "Figure.class", DATA / "Disc.class"]),
)


def explored_report(words, files):
    """The report of the program on a method."""
    return direct("explore", "--method", *words, *files).out
