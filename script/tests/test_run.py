"""The one command that runs the tests: it says nothing where all pass, and else which failed."""

import subprocess

from script.tests.tools import ROOT, environment, same

QUICK = ("test_options.test_options_are_those_of_the_program", "test_options.test_defaults_are_those_of_a_report")


def run(program, *names):
    """The status, and what is written."""
    ran = subprocess.run([ROOT / "script/tests/run", program, *names], stdout=subprocess.PIPE, check=False)
    return ran.returncode, ran.stdout.decode()


def test_what_a_run_says():
    program = environment()["KIASAN_PROGRAM"]
    same(run(program, *QUICK), (0, ""), "tests that pass")
    same(run(program, QUICK[0]), (0, ""), "one test that passes")
    same(run(program, "test_nothing"), (1, "no test is test_nothing\n"), "no test")
    for names in (QUICK, QUICK[1:]):
        status, said = run("/bin/false", *names)
        heads = [line for line in said.splitlines() if " failed: " in line]
        same((status, [line.split(" failed: ")[0] for line in heads]), (1, [QUICK[1]]), "a test that fails")
