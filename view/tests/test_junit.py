"""The sources of JUnit tests: word for word, with hostile names, and where a JDK and JUnit are there compiled and run."""

import os
import re
import subprocess
from concurrent.futures import ThreadPoolExecutor

from script.tests.tools import ROOT, call, folder, same
from view.classes import Classes
from view.java_source import IMPORTS, escaped, heap_class, unicode_name
from view.junit import write_junit
from view.jvm import place_classes
from view.report import read_report

from .java import compiled, is_there, run
from .tools import EXAMPLES, METHODS, REPORTS, box, class_words, explored_report, hostile, loaded, row_reports, stored

WANTED = ROOT / "view" / "tests" / "wanted"
WORDS = "junit [--style 4|5] [--name NAME] [--package NAME] REPORT FILE.."
FAULTS = (
    ([], f"junit: no report is named: {WORDS}"),
    (["r"], f"junit: no class file is named: {WORDS}"),
    (["--style", "3", "r", "A.class"], f"junit: --style 3 is neither 4 nor 5: {WORDS}"),
    (["--style", "4", "--style", "4", "r", "A.class"], f"junit: --style is there twice: {WORDS}"),
    (["--name", "class", "r", "A.class"], f"junit: class is no name of a class: {WORDS}"),
    (["--name", "A-B", "r", "A.class"], f"junit: A-B is no name of a class: {WORDS}"),
    (["--name"], f"junit: --name has no value: {WORDS}"),
    (["--package", "a..b", "r", "A.class"], f"junit: a..b is no name of a package: {WORDS}"),
    (["--text", "r", "A.class"], f"junit: --text is no option: {WORDS}"),
)
LITERAL = re.compile(r'"(?:[^"\\]|\\.)*"')
# Bugs that are put into an example, or taken out: what is replaced, and the messages of the tests that fail then.
BUGS = (
    ("A.java", "a + b", "a + b + 1", ["A.f(II)I"], {"path: the result: 0 is expected, and not 1"}),
    (
        "List.java",
        "list.next = done;",
        "list.next = null;",
        ["List.reverse(LList;)LList;", "--k", "2"],
        {
            "path_1_1: arg0.next: arg0 is expected, and not null",
            "path_1_2_0: arg0.next.next: arg0 is expected, and not null",
            "path_1_2_1: arg0.next: arg0.next is expected, and not null",
            "path_1_2_2: the result: arg0 is expected, and not a List",
        },
    ),
    (
        "List.java",
        "return true;",
        "return false;",
        ["List.contains(I)Z", "--k", "1"],
        {"path_0: the result: true is expected, and not false"},
    ),
    (
        "MyList.java",
        "while (node.next.next != null)",
        "while (node.next != null && node.next.next != null)",
        ["MyList.removeLast()V", "--k", "2"],
        {
            "path_1_0: the end: an exception is expected, and not a return",
        },
    ),
    (
        "Bits.java",
        "return -1;",
        "return 1;",
        ["Bits.ones(I)I", "--loops", "1"],
        {"path_0: the result: -1 is expected, and not 1"},
    ),
    (
        "MyList.java",
        "Node node = head;",
        "if (head == null) throw new IllegalStateException(); Node node = head;",
        ["MyList.removeLast()V", "--k", "2"],
        {
            "path_0: the exception: a new java.lang.NullPointerException (n0) is expected, and not a java.lang.IllegalStateException"
        },
    ),
)


def source_of(name, style, package=""):
    """The whole source of tests with those methods."""
    test = {"4": "org.junit.Test", "5": "org.junit.jupiter.api.Test"}[style]
    imports = "".join(f"import {each};\n" for each in [*IMPORTS, test])
    head = "/** Tests that Kiasan's view wrote from a report. They were not proved; the report was. */\n"
    return f"{package}{imports}\n{head}public class {name} {{\n{{}}{heap_class()}}}\n".replace("{\n{}", "{\n%s")


def wanted(name, class_name, style, package=""):
    methods = (WANTED / f"{name}.java").read_text()
    front, _, behind = source_of(class_name, style, package).partition("%s")
    return front + methods + behind


def test_sources_word_for_word():
    names = {"sum": "AFTest", "removeLast": "MyListRemoveLastTest", "contains": "ListContainsTest"}
    names.update({"reverse": "ListReverseTest", "fill": "FigureFillTest"})
    left_out = {"removeLast": "2 cut", "contains": "2 cut", "reverse": "1 cut"}
    with folder() as place:
        for name, words, files in METHODS:
            (place / name).write_bytes(explored_report(words, files))
            said = [f"without a test: {left_out[name]}"] if name in left_out else []
            for style, options in (("5", []), ("5", ["--style", "5"]), ("4", ["--style", "4"])):
                ran = call("junit", *options, name, *files, cwd=place)
                same((ran.status, ran.said), (0, said), name)
                same(ran.out.decode().split("\n"), wanted(name, names[name], style).split("\n"), name)


def test_the_source_of_every_form():
    with folder() as place:
        file = box(place)
        ran = call("junit", REPORTS / "forms.report", file)
        said = ["without a test: 1 with a string literal, 2 cut, 1 ill-typed, 1 undecided, 1 open"]
        same((ran.status, ran.said), (0, said), "what is left out")
        same(ran.out.decode().split("\n"), wanted("forms", "BoxTakeTest", "5", "package p;\n\n").split("\n"), "forms")
        ran = call("junit", "--name", "Own", "--package", "a.b", REPORTS / "forms.report", file)
        same(ran.out.decode().split("\n"), wanted("forms", "Own", "5", "package a.b;\n\n").split("\n"), "names")


def test_faults():
    for words, said in FAULTS:
        ran = call("junit", *words)
        same((ran.status, ran.out, ran.said), (2, b"", [said]), words)
    with folder() as place:
        (place / "r").write_bytes(stored("forms"))
        ran = call("junit", "r", EXAMPLES / "A.class", cwd=place)
        same((ran.status, ran.out, ran.said), (3, b"", ["no class file is given of p/Box"]), "a class that is not given")
        (place / "r").write_bytes(stored("forms")[:-1])
        same(call("junit", "r", EXAMPLES / "A.class", cwd=place).status, 9, "no report")
        same(call("junit", "gone", EXAMPLES / "A.class", cwd=place).status, 6, "no file")


def test_names_in_literals():
    same(escaped('a"b\\'), "a\\42b\\134", "a quotation mark and a backslash")
    same(escaped('"1"8" '), "\\0421\\0428\\42\\40", "in front of a digit")
    same(escaped("\n\x00\x7f<"), "\\12\\0\\177\\74", "what cannot be printed")
    same(escaped("Az09_$./-"), "Az09_$./-", "what stands for itself")
    same(escaped("é\u20ac\U0001f600"), "\\u00e9\\u20ac\\ud83d\\ude00", "above ASCII")
    same(unicode_name("\xc3\xa9"), "é", "bytes of a class file")


def test_names_are_in_literals_alone():
    with folder() as place:
        data, file = hostile(place)
        text, _ = write_junit(read_report(data), Classes([str(file)]), "5", None, None)
        same(text.isascii(), True, "ASCII")
        rest = LITERAL.sub('""', text)
        for part in ("script", "alert", "img", "onerror", "<i>", "002a", "000a", "<b>", "amp", "\\"):
            same(part in rest, False, f"{part} outside of a literal")
        same("// returns unnamed where" in rest, True, "a sentence without its names")


def java_folder(place, reports, style, *options):
    """Compiles the tests of reports, T0, T1 and so on, in a folder. What javac says."""
    for number, (words, output) in enumerate(reports):
        text, _ = write_junit(read_report(output), Classes(map(str, words)), style, f"T{number}", "tests")
        (place / f"T{number}.java").write_text(text)
    return compiled(place, style, *options)


def groups(reports):
    """The numbers of reports whose classes can stand together, with these classes: no two of one name differ."""
    found = []
    for number, (words, _) in enumerate(reports):
        classes = Classes(map(str, loaded(words))).world.classes
        named = {name: known.file.data for name, known in classes.items() if known.source}
        fitting = [each for each in found if all(each[0].get(name, data) == data for name, data in named.items())]
        if not fitting:
            fitting = [({}, [], [])]
            found += fitting
        fitting[0][0].update(named)
        fitting[0][1].extend(loaded(words))
        fitting[0][2].append(number)
    return [(files, numbers) for _, files, numbers in found]


def judge_group(style, place, files, numbers):
    """All tests of reports on those class files pass."""
    with folder() as classes:
        place_classes(Classes(map(str, dict.fromkeys(files))), classes)
        ran = run(style, [place, classes], [f"tests.T{number}" for number in numbers])
    return ran.ran, ran.failed, ran.text if ran.failed else ""


def passing(style, reports):
    """Compiles and runs the tests of all reports: all pass. How many there were."""
    with folder() as place:
        same(java_folder(place, reports, style), "", "what javac says")
        with ThreadPoolExecutor(2) as pool:
            found = list(pool.map(lambda item: judge_group(style, place, *item), groups(reports)))
    same([text for _, failed, text in found if failed], [], "tests that fail")
    return sum(ran for ran, _, _ in found)


def ended(reports):
    """How many paths have returned or thrown."""
    return sum(output.count(b"\nreturns") + output.count(b"\nthrows") for _, output in reports)


def test_tests_of_all_rows_pass():
    reports = [(class_words(words), output) for words, output in row_reports() if ended([(words, output)])]
    for style in ("4", "5"):
        if is_there(f"test_tests_of_all_rows_pass in style {style}", ["javac", "java", style]):
            same(passing(style, reports), ended(reports), "how many tests were run")


def test_tests_of_hostile_names_pass():
    if is_there("test_tests_of_hostile_names_pass", ["javac", "java", "5"]):
        with folder() as place:
            data, file = hostile(place)
            same(b"throws" in data, True, "the report")
            with folder() as tests:
                same(java_folder(tests, [([file], data)], "5"), "", "what javac says")


def test_sources_compile_for_java_8_without_warnings():
    for style in ("4", "5"):
        if is_there(f"test_sources_compile_for_java_8_without_warnings in style {style}", ["javac", style]):
            with folder() as place:
                reports = [(files, explored_report(words, files)) for _, words, files in METHODS]
                options = ["--release", "8", "-Xlint:-options"]
                same(java_folder(place, reports, style, *options), "", "what javac says")


def with_bugs(place):
    """The class path of each example with its bug."""
    paths = []
    for number, (file, old, new, _, _) in enumerate(BUGS):
        path = place / str(number)
        path.mkdir()
        text = (EXAMPLES / file).read_text()
        same(text.count(old), 1, f"{old} in {file}")
        (path / file).write_text(text.replace(old, new))
        subprocess.run(["javac", "-J-XX:TieredStopAtLevel=1", "-d", path, path / file], check=True)
        paths.append(path)
    return paths


def test_bugs_fail():
    styles = [style for style in ("4", "5") if is_there(f"test_bugs_fail in style {style}", ["javac", "java", style])]
    if not styles:
        return
    with folder() as bugs:
        paths = with_bugs(bugs)
        for style in styles:
            judge_bugs(style, paths)


def judge_bugs(style, paths):
    """With its bug the tests of each example fail that are listed, and no others."""
    with folder() as place:
        reports = []
        for file, _, _, words, _ in BUGS:
            files = [EXAMPLES / f"{file[:-5]}.class"] + [EXAMPLES / "MyList$Node.class"] * (file == "MyList.java")
            reports.append((files, explored_report(words, files)))
        same(java_folder(place, reports, style), "", "what javac says")
        for number, (file, _, new, _, messages) in enumerate(BUGS):
            ran = run(style, [place, paths[number]], [f"tests.T{number}"])
            same((ran.messages, ran.failed), (messages, len(messages)), f"{file} with {new}")


# A method that makes an object and an array, a report on it by hand, and bugs with the messages of the tests that fail.
MADE = """class Node {
    int elem; Node next;
    static Node[] twice(Node node) {
        Node made = new Node();
        made.elem = 1;
        made.next = node;
        return new Node[] {made, made};
    }
}
class Low extends Node {}
"""
MADE_REPORT = """kiasan report 1
target Node.twice(LNode;)[LNode;
init lazy k 3 array 3 alloc 16 loops 10 depth 16 steps 2000 paths 1000 budget 2000
path 0
see a0 null
returns n1
new n0 Node 1 null
new n1 [LNode; n0 n0
new n2 Node 0 null
arg null
path 1
see a0 o0
obj o0 Node a0
returns n1
new n0 Node 1 o0
new n1 [LNode; n0 n0
arg i0
in i0 Node 0 null
total 2 ended 2 cut 0 undecided 0 open 0
"""
MADE_BUGS = (
    ("", "", "is expected", set()),
    (
        "{made, made}",
        "{made, made, made}",
        "the result: a new Node[] of length 2 (n1) is expected, and not a [LNode;",
        {"path_0", "path_1"},
    ),
    ("{made, made}", "{made, null}", "n1[1]: a new Node (n0) is expected, and not null", {"path_0", "path_1"}),
    ("made.elem = 1", "made.elem = 2", "n0.elem: 1 is expected, and not 2", {"path_0", "path_1"}),
    ("made.next = node", "made.next = made", "n0.next: null is expected, and not a Node", {"path_0"}),
    ("= new Node();", "= new Low();", "n1[0]: a new Node (n0) is expected, and not a Low", {"path_0", "path_1"}),
    ("= new Node();", "= node == null ? new Node() : node;", "arg0.elem: 0 is expected, and not 1", {"path_1"}),
    ("{made, made}", "{node, node}", "n1[0]: a new Node (n0) is expected, and not ", {"path_0", "path_1"}),
)


def test_objects_that_a_run_makes():
    if not is_there("test_objects_that_a_run_makes", ["javac", "java", "5"]):
        return
    with folder() as place:
        write_made(place, "", "")
        text, _ = write_junit(read_report(MADE_REPORT.encode()), Classes([str(place)]), "5", "T0", "tests")
        same(text.count("// n2 is made, and nothing leads to it: it is not looked at"), 1, "what is not looked at")
        (place / "Node.java").unlink()
        (place / "T0.java").write_text(text)
        same(compiled(place, "5"), "", "what javac says")
        for old, new, says, failing in MADE_BUGS:
            with folder() as classes:
                write_made(classes, old, new)
                ran = run("5", [classes, place], ["tests.T0"])
                found = {message.partition(":")[0] for message in ran.messages if says in message}
                same((found, ran.ran, ran.failed >= len(failing)), (failing, 2, True), f"{new}: {ran.messages}")


def write_made(place, old, new):
    """The class, with a bug, as a class file."""
    (place / "Node.java").write_text(MADE.replace(old, new) if old else MADE)
    subprocess.run(["javac", "-J-XX:TieredStopAtLevel=1", "-d", place, place / "Node.java"], check=True)


def test_the_lines_of_the_guide():
    """docs/FINDING_BUGS.md compiles and runs the tests with the jars of Debian, of JUnit 5 first."""
    page = (ROOT / "docs" / "FINDING_BUGS.md").read_text(encoding="utf-8")
    blocks = re.findall(r"^```\n(javac -d out .*?)^```$", page, flags=re.M | re.S)
    same(len(blocks), 2, "blocks of lines")
    for style, block, says in zip("54", blocks, ("3 tests successful", "OK (3 tests)")):
        jars = re.findall(r"/usr/share/java/[\w.-]+\.jar", block)
        if not is_there("test_the_lines_of_the_guide", ["javac", "java", style]) or not all(map(os.path.exists, jars)):
            continue
        with folder() as place:
            (place / "examples").symlink_to(EXAMPLES)
            files = [EXAMPLES / "MyList.class", EXAMPLES / "MyList$Node.class"]
            (place / "r").write_bytes(explored_report(["MyList.removeLast()V"], files))
            source = call("junit", "--style", style, "r", "examples", cwd=place).out
            (place / "MyListRemoveLastTest.java").write_bytes(source)
            ran = subprocess.run(["sh", "-ec", block], cwd=place, capture_output=True, check=False)
            same((ran.returncode, says in ran.stdout.decode()), (0, True), f"JUnit {style}: {ran.stderr.decode()}")
