"""Runs the inputs of a report on the Java virtual machine of a JDK, and says what was seen there. Nothing of it is proved."""

import os
import subprocess
import tempfile
from os.path import dirname, join
from shutil import which

from script.say import Fault, say, shown

from .java_source import IMPORTS, Source, heap_class, name_of

RUNNER = join(dirname(__file__), "Runner.java.txt")
MORE_IMPORTS = ("java.io.FileDescriptor", "java.io.FileOutputStream", "java.io.PrintStream")
# The machine starts sooner with its first compiler alone.
QUICK = ("-J-XX:TieredStopAtLevel=1",)
NO_JDK = "--run: no JDK is there (javac and java on the path), so nothing was run"


def run_all(model):
    """Runs each path that has ended; what was seen is noted at its story, and what differs is told."""
    missing = model.missing()
    if missing:
        raise Fault(3, f"--run: no class file is given of {', '.join(missing)}")
    if not which("javac") or not which("java"):
        note(model, NO_JDK)
        return
    source = Source(model.report, model.classes)
    if source.left_out():
        say(f"without a run: {source.left_out()}")
    with tempfile.TemporaryDirectory(prefix="kiasan.") as folder:
        place_classes(model.classes, folder)
        seen = run_in(folder, source)
    for story in model.stories:
        take(model, story, seen)


def note(model, says):
    """A line on standard error and in the page's head."""
    say(says)
    model.warnings.append(says)


def take(model, story, seen):
    """Notes what was seen of a path."""
    if name_of(story.path) not in seen:
        return
    place, differs = seen[name_of(story.path)]
    if place:
        story.seen_at = f"at {shown(place)}, as seen on the Java virtual machine, and not proved"
    if differs:
        story.warning = f"the run on the Java virtual machine ended otherwise: {shown(differs)}"
        note(model, f"path {story.decisions}: {story.warning}")


def place_classes(classes, folder):
    """Writes the class files where the Java virtual machine looks for them."""
    for name, known in classes.world.classes.items():
        parts = name.encode("latin-1").split(b"/")
        if known.source is None or b"" in parts or any(b"\0" in part for part in parts):
            continue
        path = os.path.join(os.fsencode(folder), *parts) + b".class"
        os.makedirs(os.path.dirname(path), exist_ok=True)
        with open(path, "wb") as file:
            file.write(known.file.data)


def runner_source(source):
    """A class that runs all paths."""
    with open(RUNNER, encoding="ascii") as file:
        runner = file.read()
    imports = "".join(f"import {each};\n" for each in [*MORE_IMPORTS, *IMPORTS])
    return "".join(
        [imports, "public class KiasanRuns {\n", *map(method(source), source.stories()), runner, heap_class(), "}\n"]
    )


def method(source):
    def written(story):
        lines = "".join(f"        {line}\n" for line in source.lines(story))
        return f"    static void {name_of(story.path)}(Heap heap) throws Throwable {{\n{lines}    }}\n\n"

    return written


def run_in(folder, source):
    """What was seen of each path, by its name: where an exception came, and how the run differs."""
    file = join(folder, "KiasanRuns.java")
    with open(file, "w", encoding="ascii") as stream:
        stream.write(runner_source(source))
    compiled = subprocess.run(["javac", *QUICK, "-nowarn", "-proc:none", "-d", folder, file], capture_output=True, check=False)
    if compiled.returncode:
        raise Fault(70, "--run: the runs could not be compiled", *compiled.stderr.decode("utf-8", "replace").split("\n")[:5])
    words = ["java", QUICK[0][2:], "-cp", folder, "KiasanRuns"]
    ran = subprocess.run(words, stdin=subprocess.DEVNULL, capture_output=True, check=False)
    lines = [line.split("\t") for line in ran.stdout.decode("utf-8", "replace").split("\n")]
    seen = {line[0]: (line[1], line[2]) for line in lines if len(line) == 3}
    for story in source.stories():
        seen.setdefault(name_of(story.path), ("", "no end of it was seen"))
    return seen
