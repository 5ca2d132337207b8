"""The source of a JUnit test of a report."""

from script.say import Fault

from .java_source import IMPORTS, Source, heap_class, name_of
from .names import is_identifier, short_of

TESTS = {"4": "org.junit.Test", "5": "org.junit.jupiter.api.Test"}


def default_name(report):
    """The name of the tests' class: the class, the method and `Test`, as far as they are identifiers."""
    parts = [part for part in short_of(report.owner).split(".") if is_identifier(part)]
    method = [report.method[0].upper() + report.method[1:]] if is_identifier(report.method) else []
    return "".join([*parts, *method, "Test"])


def default_package(report):
    """The package of the class, or none where it is none in Java."""
    parts = report.owner.split("/")[:-1]
    return ".".join(parts) if all(map(is_identifier, parts)) else ""


def is_package(name):
    return all(map(is_identifier, name.split(".")))


def check_classes(source):
    """Each class of the report is given, or the end."""
    missing = source.model.missing()
    if missing:
        raise Fault(3, f"no class file is given of {', '.join(missing)}")


def write_junit(report, classes, style, name, package):
    """The source, and what is said of paths that have no test."""
    source = Source(report, classes)
    check_classes(source)
    package = default_package(report) if package is None else package
    imports = "".join(f"import {each};\n" for each in [*IMPORTS, TESTS[style]])
    parts = [
        f"package {package};\n\n" if package else "",
        f"{imports}\n",
        "/** Tests that Kiasan's view wrote from a report. They were not proved; the report was. */\n",
        f"public class {name or default_name(report)} {{\n",
        *(test(source, story) for story in source.stories()),
        heap_class(),
        "}\n",
    ]
    return "".join(parts), source.left_out()


def test(source, story):
    """One test, behind its sentence."""
    heap = f'Heap heap = new Heap("{name_of(story.path)}");'
    lines = "".join(f"        {line}\n" for line in [heap, *source.lines(story)])
    head = f"    // {source.sentence(story)}\n    @Test\n    public void {name_of(story.path)}() throws Throwable {{\n"
    return f"{head}{lines}    }}\n\n"
