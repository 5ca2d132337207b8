"""Compiles and runs JUnit tests, where a JDK and JUnit are there; else it is told which tests were not run."""

import os
import re
import subprocess
import sys
from pathlib import Path
from shutil import which

DEBIAN = Path("/usr/share/java")
JARS = {
    "4": ("junit4.jar", "hamcrest.jar"),
    "5": (
        "junit-jupiter-api.jar",
        "junit-jupiter-engine.jar",
        "junit-platform-commons.jar",
        "junit-platform-console.jar",
        "junit-platform-engine.jar",
        "junit-platform-launcher.jar",
        "junit-platform-reporting.jar",
        "opentest4j.jar",
        "apiguardian-api.jar",
        "picocli.jar",
    ),
}
RUNNERS = {
    "4": ["org.junit.runner.JUnitCore"],
    "5": ["org.junit.platform.console.ConsoleLauncher", "--disable-banner", "--disable-ansi-colors", "--details=tree"],
}
MESSAGE = re.compile(r"^(?:\s*=> )?java\.lang\.AssertionError: (path.*)$", re.MULTILINE)
# Class files of rows are assembled without the frames that the verifier asks for.
UNVERIFIED = ["-XX:+UnlockDiagnosticVMOptions", "-XX:-BytecodeVerificationRemote", "-Xshare:auto", "-XX:TieredStopAtLevel=1"]


def junit_path(style):
    """The class path of JUnit, which JUNIT_PATH names, or Debian's; None where it is not there."""
    if "JUNIT_PATH" in os.environ:
        return os.environ["JUNIT_PATH"]
    jars = [DEBIAN / name for name in JARS[style]]
    return ":".join(map(str, jars)) if all(jar.exists() for jar in jars) else None


def is_there(test, needs):
    """Whether all that a test needs is there; else it is told that it was not run. `needs` are programs, or styles of JUnit."""
    missing = [need for need in needs if not (junit_path(need) if need in JARS else which(need))]
    if missing:
        named = ", ".join(f"JUnit {need}" if need in JARS else need for need in missing)
        print(f"view/tests: {test} was not run: {named} is not there", file=sys.stderr)
    return not missing


def compiled(folder, style, *options):
    """Compiles all sources of a folder into it. What javac says."""
    sources = sorted(map(str, Path(folder).glob("*.java")))
    words = [
        "javac",
        "-J-XX:TieredStopAtLevel=1",
        "-Xlint:all,-path",
        *options,
        "-cp",
        junit_path(style) or folder,
        "-d",
        str(folder),
        *sources,
    ]
    ran = subprocess.run(words, capture_output=True, text=True, check=False)
    return ran.stdout + ran.stderr


class Ran:
    """What a run of tests says: the messages of those that failed, how many were run, and how many failed."""

    def __init__(self, style, text):
        self.text = text
        self.messages = set(MESSAGE.findall(text))
        if style == "4":
            passed, ran, failed = re.search(
                r"^OK \((\d+) test|^Tests run: (\d+),  Failures: (\d+)", text, re.MULTILINE
            ).groups()
            self.ran, self.failed = int(passed or ran), int(failed or 0)
        else:
            self.ran, self.failed = (
                int(re.search(rf"\[ *(\d+) tests {word} ", text).group(1)) for word in ("started", "failed")
            )


def run(style, path, names):
    """Runs the tests of those classes by JUnit, with that class path."""
    chosen = names if style == "4" else [word for name in names for word in ("-c", name)]
    words = ["java", *UNVERIFIED, "-cp", ":".join([junit_path(style), *map(str, path)]), *RUNNERS[style], *chosen]
    ran = subprocess.run(words, capture_output=True, text=True, check=False)
    return Ran(style, ran.stdout)
