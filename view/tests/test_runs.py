"""Runs of inputs on the Java virtual machine of a JDK, where one is there."""

import os
import subprocess
from concurrent.futures import ThreadPoolExecutor

from script.tests.tools import ROOT, call, environment, folder, same
from view import jvm
from view.classes import Classes
from view.model import Model
from view.report import read_report

from .java import UNVERIFIED, is_there
from .tools import EXAMPLES, box, class_words, explored_report, loaded, row_reports, stored


def lines_seen(text):
    """The lines on what was seen, behind the number of their path."""
    found, path = {}, None
    for line in text.split("\n"):
        if line.startswith("path "):
            path = line[5:].partition(":")[0]
        if "Java virtual machine" in line:
            found[path] = line
    return found


def test_the_line_at_which_an_exception_came():
    if not is_there("test_the_line_at_which_an_exception_came", ["javac", "java"]):
        return
    with folder() as place:
        (place / "r").write_bytes(
            explored_report(["MyList.removeLast()V", "--k", "2"], [EXAMPLES / "MyList.class", EXAMPLES / "MyList$Node.class"])
        )
        ran = call("view", "--text", "--run", "r", EXAMPLES / "MyList.class", cwd=place)
        says = "at MyList.java:9, as seen on the Java virtual machine, and not proved"
        same((ran.status, ran.said), (0, ["without a run: 2 cut"]), "what is said")
        same(lines_seen(ran.out.decode()), {"0": says, "1.0": says}, "the lines")
        page = call("view", "--run", "r", EXAMPLES / "MyList.class", cwd=place).out.decode()
        same(page.count("at MyList.java:9, as seen on the Java virtual machine, and not proved"), 2, "the page")


def test_a_run_that_ends_otherwise_is_told():
    if not is_there("test_a_run_that_ends_otherwise_is_told", ["javac", "java"]):
        return
    with folder() as place:
        (place / "r").write_bytes(explored_report(["A.f(II)I"], [EXAMPLES / "A.class"]))
        (place / "A.java").write_text((EXAMPLES / "A.java").read_text().replace("a + b", "a + b + 1"))
        subprocess.run(["javac", "-d", place, place / "A.java"], check=True)
        ran = call("view", "--text", "--run", "r", "A.class", cwd=place)
        differs = "the run on the Java virtual machine ended otherwise: path: the result: 0 is expected, and not 1"
        same((ran.status, ran.said), (0, [f"path -: {differs}"]), "what is said")
        text = ran.out.decode()
        same(text.partition("\n\n")[0].count(differs), 1, "the head")
        same(lines_seen(text)["-"], differs, "the path")
        page = call("view", "--run", "r", "A.class", cwd=place).out.decode()
        same(page.count(differs), 2, "the page")


def test_a_run_that_does_not_end_is_stopped():
    if not is_there("test_a_run_that_does_not_end_is_stopped", ["javac", "java"]):
        return
    with folder() as place:
        (place / "r").write_bytes(explored_report(["A.f(II)I"], [EXAMPLES / "A.class"]))
        (place / "A.java").write_text((EXAMPLES / "A.java").read_text().replace("return", "while (a == b) a = b; return"))
        subprocess.run(["javac", "-d", place, place / "A.java"], check=True)
        said = call("view", "--text", "--run", "r", "A.class", cwd=place).said
        differs = "path: the call has not ended after ten seconds"
        same(said, [f"path -: the run on the Java virtual machine ended otherwise: {differs}"], "what is said")


def test_classes_that_are_not_given_are_told():
    with folder() as place:
        (place / "r").write_bytes(stored("forms"))
        ran = call("view", "--run", "r", cwd=place)
        same((ran.status, ran.out, ran.said), (3, b"", ["--run: no class file is given of p/Box"]), "the fault")


def test_without_a_jdk_nothing_is_run():
    with folder() as place:
        for name in ("readlink", "dirname", "python3", "sh"):
            os.symlink(
                subprocess.run(["sh", "-c", f"command -v {name}"], capture_output=True, check=True).stdout.strip(),
                os.fsencode(place / name),
            )
        (place / "r").write_bytes(explored_report(["A.f(II)I"], [EXAMPLES / "A.class"]))
        ran = call("view", "--text", "--run", "r", EXAMPLES / "A.class", cwd=place, env=environment(PATH=str(place)))
        same((ran.status, ran.said), (0, [jvm.NO_JDK]), "what is said")
        same(jvm.NO_JDK in ran.out.decode().split("\n"), True, "the head")


def widest():
    """Of rows that have the same class files, where these are several, the longest report."""
    found = {}
    for words, output in row_reports():
        found.setdefault(tuple(class_words(words)), []).append(output)
    return {files: max(outputs, key=len) for files, outputs in found.items() if len(outputs) > 1}


def test_paths_of_rows_end_as_stated():
    if not is_there("test_paths_of_rows_end_as_stated", ["javac", "java"]):
        return
    os.environ["JDK_JAVA_OPTIONS"] = " ".join(UNVERIFIED)
    jvm.say = lambda line: None

    def judge(item):
        files, output = item
        model = Model(read_report(output), Classes(map(str, loaded(files))))
        jvm.run_all(model)
        return [(story.decisions, story.warning) for story in model.stories if story.warning]

    with ThreadPoolExecutor(2) as pool:
        found = [each for each in pool.map(judge, widest().items()) if each]
    same(found, [], "paths that end otherwise")


def test_class_files_lie_where_they_are_looked_for():
    with folder() as place:
        jvm.place_classes(Classes([str(EXAMPLES / "MyList.class")]), str(place))
        same(sorted(path.name for path in place.iterdir()), ["MyList$Node.class", "MyList.class"], "files")
        (place / "other").mkdir()
        jvm.place_classes(Classes([str(box(place / "other"))]), str(place))
        same((place / "p" / "Box.class").is_file(), True, "a class of a package")
        same((place / "MyList.class").read_bytes(), (ROOT / "examples" / "MyList.class").read_bytes(), "the bytes")
