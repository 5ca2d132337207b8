"""A copy of the tracked files, where there is little else than a shell: what answers, and what starts a build."""

import hashlib
import os
import shutil
import signal
import subprocess
from contextlib import contextmanager
from pathlib import Path

from script.tests.tools import ROOT, call, environment, folder, same, stand_in

COREUTILS = """
basename cat chmod cp cut dirname echo env false head ln ls mkdir mktemp mv printf pwd readlink rm rmdir sha256sum sleep sort
stat tac tail tee test timeout touch tr true uname wc
""".split()
NO_TOOLCHAIN = 'the program is not built, and building it needs the toolchain (rt on the path): README.md, "What is needed"'
FIRST = ("explore", "--method", "A.f(II)I", "examples/A.class")


# What is built and not tracked, and what a program is not made of.
NOT_TRACKED = ("out", "build", ".git", "__pycache__")
NOT_MADE_OF = ("specs", "proofs", "must-fail", "data", "bench")


@contextmanager
def copy(whole=False):
    """A copy of the tracked files, or of those alone that a program is made of and that the script reads.

    Its path has a space in it, and so have the paths of all that is built there.
    """
    left_out = NOT_TRACKED if whole else NOT_TRACKED + NOT_MADE_OF
    with folder() as path:
        top = path / "the top"
        shutil.copytree(ROOT, top, ignore=lambda _, names: set(left_out).intersection(names), symlinks=True)
        (path / "bin").mkdir()
        yield top


def bare(top, *programs):
    """A path that holds the shell, coreutils, gzip, and these programs."""
    for name in ("sh", "gzip", *COREUTILS, *programs):
        found = shutil.which(name)
        if found and not (top.parent / "bin" / name).exists():
            (top.parent / "bin" / name).symlink_to(Path(found).resolve() if name == "python3" else found)
    return str(top.parent / "bin")


def without_program(**more):
    """An environment in which no program is named."""
    named = environment(**more)
    del named["KIASAN_PROGRAM"]
    return named


def sum_of(top):
    """The checksum over the sources of the program, as release/sum tells it."""
    below = {}
    for line in (top / "crates.txt").read_text(encoding="utf-8").split("\n"):
        name, colon, names = line.partition("#")[0].partition(":")
        if colon:
            below[name.strip()] = names.split()
    found, waiting = set(), ["kiasan_main"]
    while waiting:
        name = waiting.pop()
        if name in below and name not in found:
            found.add(name)
            waiting += below[name]
    files = [Path("crates.txt")]
    for name in found:
        files += [file.relative_to(top) for file in (top / "crates" / name / "src").rglob("*") if file.is_file()]
    lines = [f"{hashlib.sha256((top / file).read_bytes()).hexdigest()}  {file}\n" for file in sorted(map(str, files))]
    return hashlib.sha256("".join(lines).encode()).hexdigest()


def kept_is_of(top):
    """Whether the kept program is of these sources."""
    built = top / "release/BUILT"
    return built.exists() and built.read_text(encoding="ascii").split("\n")[1] == sum_of(top)


def keep(top):
    """Makes the program that the tests are run on the kept one of the copy."""
    from script.tests import tools

    (top / "release").mkdir(exist_ok=True)
    shutil.copy(tools.PROGRAM, top / "release/kiasan-linux-x86_64")
    (top / "release/BUILT").write_text(f"a toolchain\n{sum_of(top)}\n", encoding="ascii")


def change_a_source(top):
    with open(top / "crates.txt", "a", encoding="ascii") as file:
        file.write("# changed\n")


def test_the_sum_is_that_of_the_sources():
    run = subprocess.run([ROOT / "release/sum"], stdout=subprocess.PIPE, check=True)
    same(run.stdout.decode().strip(), sum_of(ROOT), "release/sum")


def test_with_the_shell_and_coreutils_alone():
    with copy(whole=True) as top:
        ran = call(*FIRST, script=top / "kiasan", cwd=top, env=without_program(PATH=bare(top)))
        if kept_is_of(top):
            same((ran.status, ran.err), (0, ""), "the kept program")
            same(ran.out.decode().split("\n")[1], "target A.f(II)I", "the kept program")
        else:
            same((ran.status, ran.out, ran.said), (70, b"", [NO_TOOLCHAIN]), "no kept program")


def test_with_a_kept_program():
    with copy() as top:
        keep(top)
        path = bare(top)
        wanted = call(*FIRST, cwd=ROOT).out
        for _ in range(2):
            ran = call(*FIRST, script=top / "kiasan", cwd=top, env=without_program(PATH=path))
            same((ran.status, ran.out, ran.err), (0, wanted, ""), "without python3")
        ran = call("explore", script=top / "kiasan", cwd=top, env=without_program(PATH=path))
        same((ran.status, ran.out, ran.err), (2, b"refused 95\n", ""), "a refusal without python3")
        words_of_its_own = [["explain", "47"], ["targets", "examples/A.class"], ["explore", "--help"], ["targets", "--check", "x"]]
        for words in [*words_of_its_own, ["a\nb", "--help"]]:
            ran = call(*words, script=top / "kiasan", cwd=top, env=without_program(PATH=path))
            named = f"{words[0]} --help".replace("\n", " ") if words[1] == "--help" else words[0]
            same((ran.status, ran.out, ran.said), (70, b"", [f"{named} needs python3 of version 3.9 or later"]), words)
        same(call("--help", script=top / "kiasan", env=without_program(PATH=path)).status, 0, "--help without python3")
        ran = call(script=top / "kiasan", env=without_program(PATH=path))
        same((ran.status, ran.out), (2, b"refused 90\n"), "no words without python3")


def test_words_reach_the_program_as_they_are():
    """Behind `--`, without python3, and with it; a signal that ends the program ends the script.

    The program is the one that is named, also where another one is built.
    """
    words = ["explore", "a b", "", "*", "$HOME", "--", "--help", "line\nfeed", "\\t"]
    with copy() as top:
        keep(top)
        same(is_used(top, without_program(PATH=bare(top))), True, "the kept program")
        for programs, front in [((), ["--"]), ((), []), (("python3",), ["--"]), (("python3",), [])]:
            path = bare(top, *programs)
            env = stand_in(top, 'for word in "$@"; do printf "[%s]\\n" "$word"; done\nexit 5\n', PATH=path)
            ran = call(*front, *words, script=top / "kiasan", env=env)
            said = "" if front or not programs else ran.err
            wanted = "".join(f"[{word}]\n" for word in words)
            same((ran.status, ran.out.decode(), ran.err), (5, wanted, said), f"{front} with {programs}")
            env = stand_in(top, "kill -s SEGV $$\n", PATH=path)
            ran = call(*front, "explore", script=top / "kiasan", env=env)
            same((ran.status, ran.out, ran.err), (-signal.SIGSEGV, b"", ""), f"{front} with {programs}")


def test_with_python3():
    with copy() as top:
        keep(top)
        path = bare(top, "python3")
        ran = call("explore", script=top / "kiasan", cwd=top, env=without_program(PATH=path))
        same((ran.status, ran.out, ran.said[-1].split(":")[0]), (2, b"refused 95\n", "to do"), "a refusal with python3")
        same(list((top / "script").rglob("*.pyc")), [], "what python3 keeps beside the sources")
        (top.parent / "difflib.py").write_text("raise SystemExit('of the user')", encoding="ascii")
        more = {"PYTHONPATH": str(top.parent), "PYTHONSTARTUP": str(top.parent / "difflib.py"), "PYTHONOPTIMIZE": "2"}
        words = ("explore", "--method", "A.g(II)I", "examples/A.class")
        ran = call(*words, script=top / "kiasan", cwd=top, env=without_program(PATH=path, **more))
        same((ran.status, ran.said[1:-1]), (4, ["there is A.f(II)I"]), "what the user has set for python3")


OLD = """#!/bin/sh
while [ "${{1#-}}" != "$1" ]; do
    [ "$1" != -X ] || shift
    shift
done
exec {} -I -c '
import sys
sys.version_info = (3, 8, 18, "final", 0)
sys.argv = sys.argv[1:]
exec(compile(open(sys.argv[0]).read(), sys.argv[0], "exec"))' "$@"
"""


def test_with_an_old_python3():
    with copy() as top:
        keep(top)
        path = bare(top)
        old = Path(path) / "python3"
        old.write_text(OLD.format(Path(shutil.which("python3")).resolve()), encoding="ascii")
        old.chmod(0o755)
        ran = call("explore", script=top / "kiasan", cwd=top, env=without_program(PATH=path))
        same((ran.status, ran.out, ran.err), (2, b"refused 95\n", ""), "a refusal with an old python3")
        for words in (["explain", "47"], ["targets", "--check", "examples/A.class"], ["explore", "--help"], ["a\nb", "--help"]):
            ran = call(*words, script=top / "kiasan", cwd=top, env=without_program(PATH=path))
            named = f"{words[0]} --help".replace("\n", " ") if words[1] == "--help" else words[0]
            same((ran.status, ran.out, ran.said), (70, b"", [f"{named} needs python3 of version 3.9 or later"]), words)


def test_what_starts_a_build():
    """A stand-in for rt tells that it was called, and builds nothing."""
    with copy() as top:
        change_a_source(top)
        path = bare(top, "python3", "grep", "sed", "awk", "find", "tar", "xargs")
        told = top.parent / "told"
        stand_in = top.parent / "bin/rt"
        stand_in.write_text(f"#!/bin/sh\necho called >>'{told}'\nexit 1\n", encoding="ascii")
        stand_in.chmod(0o755)
        env = without_program(PATH=path)
        none = ["", "--help", "-h", "explore --help", "targets --help", "explain 47", "explain status 6", "explain"]
        none += ["diagrams --help", "sample --help", "none --help"]
        none += ["view", "view none.report", "view --help", "junit none.report none.class"]
        for words in [*none, "targets examples/A.class", "targets none.class", "build x", "--help x"]:
            ran = call(*words.split(), script=top / "kiasan", cwd=top, env=env)
            same((told.exists(), ran.status in (0, 2, 6)), (False, True), f"a build by {words!r}")
        for words in ("build", "targets --check examples/A.class", "explore", "-- explore"):
            ran = call(*words.split(), script=top / "kiasan", cwd=top, env=env)
            same((told.exists(), ran.status, ran.out), (True, 70, b""), f"no build by {words!r}")
            told.unlink()


def test_without_a_toolchain():
    with copy() as top:
        change_a_source(top)
        env = without_program(PATH=bare(top, "python3"))
        for words in (["build"], ["explore"], ["--", "explore"], ["targets", "--check", "examples/A.class"]):
            ran = call(*words, script=top / "kiasan", cwd=top, env=env)
            same((ran.status, ran.out, ran.said), (70, b"", [NO_TOOLCHAIN]), words)
            same((top / "build/kiasan").exists(), False, words)


def is_used(top, env):
    """Whether a call is answered by the program that is there; else one would have to be built."""
    ran = call(*FIRST, script=top / "kiasan", cwd=top, env=env)
    if ran.status == 0:
        same((ran.err, ran.out.split(b"\n")[1]), ("", b"target A.f(II)I"), "an answer")
        return True
    same((ran.status, ran.out, ran.said), (70, b"", [NO_TOOLCHAIN]), "no answer")
    return False


def make_old(file, top):
    """The file and the folders that it lies in are older than all that is written today."""
    while file != top:
        os.utime(file, (0, 0))
        file = file.parent


def test_a_source_that_is_newer_asks_for_a_build():
    """Each file that says what the program does, or what is proved of it, and no other."""
    sources = ["crates.txt", "release/BUILT", "crates/kiasan_main/src/a.rt", "crates/kiasan_main/src/deep/a.rt"]
    sources += ["crates/kiasan_main/specs/A.antt", "crates/kiasan_main/specs/deep/A.antt"]
    others = ["crates/kiasan_main/proofs/A.antt", "README.md", "crates/kiasan_main/out/log", "script/page.txt"]
    with copy() as top:
        env = without_program(PATH=bare(top, "python3"))
        for name in [*others, *sources]:
            (top / name).parent.mkdir(parents=True, exist_ok=True)
            (top / name).touch()
            make_old(top / name, top)
        keep(top)
        same(is_used(top, env), True, "the kept program")
        (top / "release/kiasan-linux-x86_64").unlink()
        make_old(top / "release/BUILT", top)
        same(is_used(top, env), True, "a copy of it")
        behind = (top / "build/kiasan").stat().st_mtime + 2
        for name in [*others, *sources]:
            os.utime(top / name, (behind, behind))
            same(is_used(top, env), name in others, f"a newer {name}")
            make_old(top / name, top)
        (top / "build/kiasan").chmod(0o644)
        same(is_used(top, env), False, "a program that cannot be run")


def test_a_kept_program_is_used_where_it_fits():
    with copy() as top:
        env = without_program(PATH=bare(top, "python3"))
        keep(top)
        (top / "build").write_text("no folder", encoding="ascii")
        same(is_used(top, env), True, "the kept program, where it lies")
        (top / "release/BUILT").write_text(f"a toolchain\n{'0' * 64}\n", encoding="ascii")
        same(is_used(top, env), False, "a kept program of other sources")
        keep(top)
        same(is_used(top, env), True, "a kept program of these sources")
        change_a_source(top)
        same(is_used(top, env), False, "a kept program of the sources before")
        keep(top)
        (top / "release/kiasan-linux-x86_64").write_text("#!/bin/sh\necho refused 91\n", encoding="ascii")
        same(is_used(top, env), False, "a kept program that does not run here")
        keep(top)
        (top / "release/BUILT").unlink()
        same(is_used(top, env), False, "a kept program of which nothing is said")
