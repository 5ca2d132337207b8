"""The kept program: whether the gate's is the same, and how it is renewed. A stand-in for rt tells its version."""

import os
import shutil
import subprocess
from contextlib import contextmanager

from script.tests.tools import ROOT, folder, same

KEPT, BUILT, MADE = "release/kiasan-linux-x86_64", "release/BUILT", "crates/kiasan_main/out/kiasan_main"
RENEW = """The kept program, release/kiasan-linux-x86_64, is not the one that this gate built of these sources.
To renew it, run release/renew in this checkout and commit release/.
"""
# A stand-in for rt: of its words only `version` is known, and behind the first line others come.
RT = '#!/bin/sh\n[ "$*" = version ] || exit 1\necho "$VERSION"\necho more\n'


@contextmanager
def checkout():
    """A small checkout, whose path has a space, behind a gate that built a program."""
    with folder() as path:
        top = path / "the top"
        (top / "release").mkdir(parents=True)
        for name in ("check", "renew", "sum"):
            shutil.copy(ROOT / "release" / name, top / "release" / name)
        write(top, "crates.txt", "low:\nkiasan_main: low # and not other\nother: low\n")
        for name in ("low/src/lib.rt", "kiasan_main/src/deep/main.rt", "kiasan_main/src/.hidden", "other/src/lib.rt"):
            write(top, f"crates/{name}", name)
        write(top, MADE, "a program")
        write(top, "bin/rt", RT)
        (top / "bin/rt").chmod(0o755)
        yield top


def write(top, name, text):
    (top / name).parent.mkdir(parents=True, exist_ok=True)
    (top / name).write_text(text, encoding="ascii")


def run(top, name, version="a toolchain 1"):
    """How a script of release/ ends, and what it writes; it is run from elsewhere."""
    env = {**os.environ, "PATH": f"{top}/bin:{os.environ['PATH']}", "VERSION": version}
    command = [top / "release" / name]
    ran = subprocess.run(command, cwd="/", env=env, stdout=subprocess.PIPE, stderr=subprocess.PIPE, check=False)
    return ran.returncode, ran.stdout.decode(), ran.stderr.decode()


def test_where_no_program_is_kept_nothing_is_said():
    with checkout() as top:
        same(run(top, "check"), (0, "", ""), "no kept program")


def test_what_is_renewed_is_the_program_of_the_gate():
    with checkout() as top:
        same(run(top, "renew"), (0, "", ""), "the first program that is kept")
        sum_ = run(top, "sum")[1]
        same((top / BUILT).read_text(encoding="ascii"), f"a toolchain 1\n{sum_}", "what it was made of")
        same((top / KEPT).read_text(encoding="ascii"), "a program", "the kept program")
        same(run(top, "check"), (0, "", ""), "the same program")


def test_what_the_gate_built_otherwise_is_told():
    """Another program, or another source of it; the sources of other crates do not count."""
    with checkout() as top:
        run(top, "renew")
        sources = [f"crates/{name}" for name in ("low/src/lib.rt", "kiasan_main/src/deep/main.rt", "kiasan_main/src/.hidden")]
        for name in (MADE, KEPT, "crates.txt", *sources):
            text = (top / name).read_text(encoding="ascii")
            write(top, name, f"{text}#")
            same(run(top, "check"), (1, RENEW, ""), f"another {name}")
            write(top, name, text)
            same(run(top, "check"), (0, "", ""), f"the same {name}")
        write(top, "crates/low/src/new.rt", "")
        same(run(top, "check"), (1, RENEW, ""), "one source more")
        (top / "crates/low/src/new.rt").unlink()
        for name in ("crates/other/src/lib.rt", "crates/low/specs/A.antt", "crates/low/out/log"):
            write(top, name, "changed")
            same(run(top, "check"), (0, "", ""), f"another {name}")
        (top / MADE).unlink()
        same(run(top, "check"), (1, RENEW, ""), "no program of the gate")


def test_another_toolchain_says_nothing_of_the_kept_program():
    with checkout() as top:
        run(top, "renew")
        write(top, MADE, "another program")
        same(run(top, "check"), (1, RENEW, ""), "the toolchain of the kept program")
        same(run(top, "check", "a toolchain 2"), (0, "", ""), "another toolchain")
        same(run(top, "renew", "a toolchain 2"), (0, "", ""), "a program of the other toolchain")
        same((run(top, "check", "a toolchain 2"), run(top, "check")), ((0, "", ""), (0, "", "")), "the renewed program")
        same((top / BUILT).read_text(encoding="ascii").split("\n")[0], "a toolchain 2", "what it was made by")


def test_the_gate_ends_where_the_kept_program_is_another():
    """The gate's script goes no further behind a check that fails, nor behind rt. It is one of bash."""
    if not shutil.which("bash"):
        return
    with checkout() as top:
        shutil.copytree(ROOT / ".ci", top / ".ci")
        write(top, "bin/rt", '#!/bin/sh\necho "rt $*"\nexit "$FAILS"\n')
        write(top, "script/tests/run", '#!/bin/sh\necho "tests of $*"\n')
        (top / "script/tests/run").chmod(0o755)
        env = {**os.environ, "PATH": f"{top}/bin:{os.environ['PATH']}"}
        for fails, wanted in (("0", (0, f"rt ci\ntests of {MADE}\n")), ("3", (3, "rt ci\n"))):
            ran = subprocess.run([top / ".ci/run"], cwd="/", env={**env, "FAILS": fails}, stdout=subprocess.PIPE, check=False)
            same((ran.returncode, ran.stdout.decode()), wanted, f"a gate whose rt ends with {fails}")
        write(top, BUILT, f"rt version\n{'0' * 64}\n")
        ran = subprocess.run([top / ".ci/run"], cwd="/", env={**env, "FAILS": "0"}, stdout=subprocess.PIPE, check=False)
        same((ran.returncode, ran.stdout.decode()), (1, f"rt ci\n{RENEW}"), "a gate that built another program")
