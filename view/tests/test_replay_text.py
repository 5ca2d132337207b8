"""The test of a path is what `tests` writes."""

from script.tests.tools import direct, folder, same
from view.replay_text import replay_lines

from .tools import Seen, box, class_words, row_reports, stored


def test_tests_of_all_rows_are_those_of_the_program():
    for words, output in row_reports():
        seen = Seen(output, class_words(words))
        found = [replay_lines(path, seen.report, seen.given(path.decisions)) for path in seen.report.paths if path.has_ended]
        text = "".join(f"{line}\n" for lines in found for line in lines)
        same(text.encode(), direct("tests", *words[1:]).out, " ".join(words))


def test_a_test_of_every_kind_of_value():
    with folder() as place:
        seen = Seen(stored("forms"), [box(place)])
        wanted = [
            "test p/Box.take(Lp/Box;[II)Ljava/lang/Object;",
            "bounds alloc 16 loops 10 depth 16 steps 2000",
            "arg i0",
            "arg i2",
            "arg i1",
            "arg -1",
            "in i0 p/Box null null 0 0 0 0",
            "in i1 [I 0 0",
            "in i2 p/Box null null 0 0 0 0",
            "returns n1",
            "out i0 i2 null 0 0 0 0",
            "out i1 1 0",
            "out i2 null null 0 0 0 0",
            "new n0 p/Box i0 s0 1 1 0 -1",
            "new n1 [Lp/Box; n0 null n0",
            "end",
        ]
        same(replay_lines(seen.path("1.0"), seen.report, seen.given("1.0")), wanted, "the test")
        same(replay_lines(seen.path("2"), seen.report, seen.given("2"))[7], "illtyped p/Box.a%2Bb()V 12", "an ill-typed path")


def test_without_the_class_there_is_no_test():
    seen = Seen(stored("forms"))
    same(replay_lines(seen.path("1.0"), seen.report, seen.given("1.0")), None, "the test")
