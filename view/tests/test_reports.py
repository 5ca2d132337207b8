"""The reader of reports: what it reads, and the line at which it stops."""

from script.tests.tools import same
from view.report import read_report

from .tools import lines_of, refused_line, row_reports, stored


def test_every_form_of_line_is_read():
    report = read_report(stored("forms"))
    same((report.owner, report.method), ("p/Box", "take"), "the method")
    same(report.parameters, ["Lp/Box;", "[I", "I"], "parameters")
    same((report.mode, report.limits["k"], report.limits["budget"]), ("lazier", 3, 2000), "the line init")
    same(report.has_receiver, True, "the receiver")
    same([path.decisions for path in report.paths], ["0", "1.0", "1.1.0", "1.1.1", "2", "3", "4"], "paths")
    endings = ["throws", "returns", "cut", "cut", "illtyped", "undecided", "open"]
    same([path.ending for path in report.paths], endings, "endings")
    same(report.counts, [7, 3, 2, 1, 1], "counts")


def test_a_path_is_read_with_its_parts():
    path = read_report(stored("forms")).paths[1]
    same([(slot.text, seen) for slot, seen in path.sees][3:], [("a3", "v0"), ("o1[1]", "v1")], "what is seen")
    same(path.standings, ["o0", "open", "o1"], "locations")
    found = [(held.kind, held.length, held.above, held.origin.text) for held in path.objects]
    same(found, [("p/Box", None, False, "a0"), ("[I", 2, False, "a2")], "objects")
    same(path.terms, [("add", ("v0", "-2147483648")), ("ult", ("t0", "v1")), ("neg", ("v0",))], "terms")
    same((path.conditions, path.ending, path.value), ([(1, False)], "returns", "n1"), "condition and ending")
    written = {text: out for text, (_, out) in path.sets.items()}
    same(written, {"o0.p/Box.next": "l1", "o0.p/Box.a%2Bb": "null", "o1[0]": "t2"}, "what is written")
    same(path.made[0], ("p/Box", ("o0", "s0", "1", "t2", "0", "-1")), "the first object of the run")
    same(path.arguments, ["i0", "i2", "i1", "-1"], "arguments")
    same(path.inputs[1], ("[I", ("0", "0")), "an object of the input")


def test_other_endings_are_read():
    paths = read_report(stored("forms")).paths
    same((paths[2].objects[0].length, paths[2].objects[0].above, paths[2].value), (2, True, "array"), "an array that is longer")
    same(paths[4].place, ("p/Box.a%2Bb()V", 12), "the place")
    same(paths[5].learned, [["0", "1", "2"], ["3", "4", "5", "6", "7"]], "the solver's log")
    same(paths[6].has_input, False, "an open path's input")


def test_a_report_without_paths_is_read():
    same(read_report(stored("none")).paths, [], "paths")


def test_a_path_without_decisions_is_read():
    report = read_report(next(output for words, output in row_reports() if words[2] == "A.f(II)I"))
    same([(path.decisions, path.value, path.arguments) for path in report.paths], [("-", "t0", ["0", "0"])], "the path")


def test_all_reports_of_the_rows_are_read():
    reports = row_reports()
    same(len(reports) > 100, True, "there are reports")
    same([words for words, output in reports if refused_line(output)], [], "reports that are not read")


def test_a_report_that_is_cut_is_refused_where_it_ends():
    lines = lines_of(stored("forms"))
    found = [refused_line(b"".join(lines[:count])) for count in range(len(lines))]
    same(found, list(range(1, len(lines) + 1)), "the lines at which cut reports are refused")


def test_a_line_without_line_feed_is_refused():
    data = stored("none")
    same((refused_line(data[:-1]), refused_line(data + b"total")), (4, 5), "the lines")


def test_a_doubled_line_is_refused():
    lines = lines_of(stored("forms"))
    # Of two equal lines that may follow one another, or of as many as were announced, the one behind them is left over.
    late = {18: 20, 84: 86, 98: 100}
    for number in range(1, len(lines) + 1):
        doubled = b"".join([*lines[:number], *lines[number - 1 :]])
        same(refused_line(doubled), late.get(number, number + 1), f"line {number} twice: {lines[number - 1]!r}")


def test_a_line_that_is_wrong_is_refused():
    wrong = {
        1: ("kiasan report 2", "kiasan report 1 ", "target p/Box.take()V"),
        2: ("target p/Box.take", "target p/Box.a+b()V", "target p/Box.take()V x"),
        3: ("init eager k 3 array 2 alloc 16 loops 10 depth 16 steps 2000 paths 9 budget 2000",),
        4: ("path 0.", "path 00", "path", "path 0 1", "path x", "see a0 l0"),
        5: ("see a1 l0", "see a0 l1", "see a0 v0", "see a0 o1", "see a0", "see o0.p/Box.next l0", "see b0 l0"),
        8: ("see a3 null", "see a3 v1", "see a4 v0", "see a3 v00"),
        9: ("see o1.p/Box.next l1", "see o0.p/Box l1", "see o0[x] l1", "see o0.p/Box.a+b l1", "see o0.p/Box.%6E l1"),
        10: ("see o0.p/Box.two:Q v1", "see o0.p/Box.next v1"),
        11: ("loc l1 o0", "loc l0 closed", "loc l0 o2", "obj o0 p/Box a0"),
        13: ("obj o1 p/Box a0", "obj o0 p/Box a1", "obj o0 [I a0", "obj o0 p/Box length 1 a0", "obj o0 p+Box a0"),
        14: (
            "throws null",
            "throws o1",
            "throws",
            "returns",
            "returns 1",
            "returns o1",
            "cut",
            "cut budget",
            "illtyped p/Box 1",
        ),
        15: ("set o0.p/Box.two:I t1", "set a0 null", "set o1.p/Box.next null", "set o0[0] 1", "set o0.p/Box.next 1"),
        16: ("new n1 p/Box", "new n0", "new n0 p/Box n1 n0 x", "arg i0"),
        17: ("arg i1", "arg null", "arg 0", "arg"),
        20: ("arg 2147483648", "arg -0", "arg null"),
        21: ("in i0 p/Bo i0 null 0 0 1 0", "in i1 p/Box i0 null 0 0 1 0", "in i0 p/Box i1 null 0 0 1 0"),
        22: ("path 0", "path -", "paths 1.0"),
    }
    lines = lines_of(stored("forms"))
    for number, texts in wrong.items():
        for text in texts:
            changed = b"".join([*lines[: number - 1], text.encode() + b"\n", *lines[number:]])
            same(refused_line(changed), number, text)


def test_an_object_or_a_term_that_no_line_introduces_is_refused():
    lines = lines_of(stored("forms"))
    for number, text in (
        (33, "let t1 ult t1 v1"),
        (33, "let t1 ult t0 v2"),
        (35, "when not t3"),
        (35, "when not t2"),
        (36, "returns t1"),
    ):
        changed = b"".join([*lines[: number - 1], text.encode() + b"\n", *lines[number:]])
        same(refused_line(changed), number, text)


def test_counts_are_those_of_the_paths():
    lines = lines_of(stored("forms"))
    for text in (b"total 7 ended 4 cut 1 undecided 1 open 1\n", b"total 8 ended 3 cut 2 undecided 1 open 1\n"):
        same(refused_line(b"".join([*lines[:-1], text])), len(lines), "the last line")
