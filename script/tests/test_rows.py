"""All stored rows by the script, and the page's row of each refusal."""

from script import pages
from script.tests.tools import ROOT, call, judge_all, rows, same, status_lines

NO_RECEIVER = "warning: no class below {} is given, so there is no receiver and no path"
NO_CLASS = "warning: no class below {} is given, so {} can only be null"
# What is said of rows that end with 0 and are narrower than they look, by the sources of their class files
# (examples/explore/Types.java and Odd.asm, examples/replay): abstract classes and interfaces that nothing is below, and a
# class that is not given.
WARNED = {
    "Bare.next()I Bare.class": [NO_RECEIVER.format("Bare")],
    "Figure.inner()LFigure; Figure.class": [NO_RECEIVER.format("Figure"), NO_CLASS.format("Figure", "Figure.inside")],
    "Box.isNone()Z Figure.class Disc.class Box.class Bare.class": [NO_CLASS.format("java/lang/Comparable", "Box.none")],
    "Odd.other(LOther;)I Odd.class": [
        "warning: class Other is not given, so argument 0 can only be null; it lies in Other.class"
    ],
}
# The universe of these four class files: the two classes that are not abstract, the platform's that they name (as superclass,
# parameters and result), and the arrays of their fields and parameters.
MANY = (
    "may hold each of 5 classes and 4 array types: Disc, Box, java/lang/Object, java/lang/Exception, "
    "java/lang/RuntimeException, [I, [LBox;, [LFigure; and 1 more"
)
NOTED = {
    "Box.isAny(LBox;Ljava/lang/Object;)Z --array 1 --paths 60 Figure.class Disc.class Box.class Bare.class": [
        f"note: argument 1 {MANY}",
        f"note: Box.any {MANY}",
    ]
}
REFUSED = (2, 3, 4, 5, 9)


def judge(row):
    """Whether the script answers the row as it is stored, and says of it what it should."""
    words, output, status = row
    text = " ".join(words)
    ran = call(*words)
    same((ran.status, ran.out), (status, output), text)
    said = ran.said
    if status in REFUSED:
        number = output.split()[1].decode()
        same((said[0].split(": ")[0], said[-1].split(": ")[0]), (f"refused {number}", "to do"), text)
    elif status == 0:
        same(said, WARNED.get(text.partition(" --method ")[2], []), text)
    elif status == 6:
        # what the word may mean is told behind it, of which test_explained.py has the lines
        other = [line for line in said[1:] if not line.startswith("near names: ") and "options stand before" not in line]
        same((other, said[0].endswith(": No such file or directory")), ([], True), text)
    else:
        same(said, NOTED.get(text.partition(" --method ")[2], []) + status_lines(status), text)


def test_rows_are_answered_as_they_are_stored():
    # a folder is the script's: it takes class files from it, where the program reads none
    found = [row for row in rows() if "." not in row[0]]
    same(len(found) > 400, True, "the rows")
    judge_all(judge, found)


def test_each_refusal_has_one_row():
    table = pages.refusals()
    for words, output, status in rows():
        if status in REFUSED:
            line = output.decode("latin-1").rstrip("\n")
            fitting = [row for row in table if row.parts(line) is not None]
            same([int(row.status) for row in fitting], [status], f"rows of {line}")


def test_each_row_of_the_page_is_read():
    lines = (ROOT / "docs/REFUSALS.md").read_text(encoding="utf-8").split("\n")
    same(len(pages.refusals()), sum(line.startswith("| `refused ") for line in lines), "rows of docs/REFUSALS.md")


def test_each_status_has_a_row():
    wanted = [str(number) for number in (*range(11), 70, 71)]
    same([row.number for row in pages.statuses()], wanted, "statuses of docs/USING.md")
