"""The script's own words."""

import os
import re
import signal
import subprocess

from script.own import COMMANDS
from script.tests.maker import ABSTRACT, ICONST_0, IRETURN, NEW, POP, Maker
from script.tests.tools import DATA, LEAST, ROOT, call, cells, environment, folder, rows, same, stand_in
from view.commands import WAYS_TO_CALL
from view.wants import ENDINGS

EXPLAINS = "explain: give the number of a refusal, a whole line `refused N ..`, or `status N`"
NAMED = "explore, tests, diagrams, replay, assemble, sample, explain, targets, build, view, junit"
WITH_HELP = f"the commands with a page of help are {NAMED}"
FAULTS = [
    (["--help", "x"], 2, ["--help stands alone"]),
    (["-h", "--help"], 2, ["-h stands alone"]),
    (["build", "x"], 2, ["build stands alone"]),
    (["explain"], 2, [EXPLAINS]),
    (["explain", "x"], 2, [EXPLAINS]),
    (["explain", "7"], 2, ["explain: no refusal has the number 7: docs/REFUSALS.md"]),
    (["explain", "refused", "7"], 2, ["explain: no refusal has the number 7: docs/REFUSALS.md"]),
    (["explain", "refused"], 2, [EXPLAINS]),
    (["explain", "47", "50"], 2, [EXPLAINS]),
    (["explain", "--help", "x"], 2, [EXPLAINS]),
    (["targets", "--help", "x"], 2, ["targets: give class files, folders or jars, behind `--check` or alone"]),
    (["explain", "status"], 2, [EXPLAINS]),
    (["explain", *"refused 47 A.f(II)I at 2 opcode B2".split()], 2, [EXPLAINS]),
    (["explain", *"refused 47 A.f(II)I at x opcode b2".split()], 2, [EXPLAINS]),
    (["explain", *"refused 47 A.f(II)I at 2 opcode b2 x".split()], 2, [EXPLAINS]),
    (["explain", "refused 41 class "], 2, [EXPLAINS]),
    (["explain", "refused 19 file \u0662"], 2, [EXPLAINS]),
    (["explain", "status", "12"], 2, ['explain: no status is 12: docs/USING.md, "Statuses"']),
    (["targets"], 2, ["targets: give class files, folders or jars, behind `--check` or alone"]),
    (["targets", "A.class", "--check"], 2, ["targets: give class files, folders or jars, behind `--check` or alone"]),
    (["targets", "--check"], 2, ["targets: give class files, folders or jars, behind `--check` or alone"]),
    (["targets", "--chek", "A.class"], 2, ["targets: give class files, folders or jars, behind `--check` or alone"]),
    (["none", "--help"], 2, [f"none is no command; {WITH_HELP}"]),
    (["kiasan", "--help"], 2, [f"kiasan is no command; {WITH_HELP}"]),
    (["build", "--help", "x"], 2, ["build stands alone"]),
    (["targets", "gone.class"], 6, ["cannot read gone.class: No such file or directory", "near names: Gone.class"]),
    (["targets", b"\xff.class"], 6, ["cannot read %FF.class: No such file or directory"]),
    (["targets", "a.tests"], 2, ["a.tests is no class file"]),
]


def test_faults():
    for words, status, said in FAULTS:
        ran = call(*words)
        same((ran.status, ran.out, ran.said), (status, b"", said), words)


def test_the_page():
    page = (ROOT / "script/page.txt").read_bytes()
    for word in ("--help", "-h"):
        ran = call(word)
        same((ran.status, ran.out, ran.err), (0, page, ""), word)


def row_text(form, number, *more):
    """The text on a row, by the page."""
    status, cause, to_do = cells("REFUSALS.md", f"`{form}`")[1:]
    same(form.split()[1], str(number), form)
    return "\n".join([form, f"  status: {status}", f"  cause: {cause}", *more, f"  to do: {to_do}", ""])


def test_explain_a_number():
    forms = [f"refused 47 TARGET at N {kind}" for kind in ("opcode HH", "constant", "operand", "kind", "method")]
    same(call("explain", "47").out.decode(), "".join(row_text(form, 47) for form in forms), "explain 47")
    same(call("explain", "refused", "47").out, call("explain", "47").out, "explain refused 47")
    same(call("explain", "96").out.decode(), row_text("refused 96", 96), "explain 96")


def test_explain_a_line():
    wanted = row_text("refused 47 TARGET at N opcode HH", 47, "  opcode b2: getstatic")
    line = "refused 47 A.f(II)I at 7 opcode b2"
    same(call("explain", *line.split()).out.decode(), wanted, "a line")
    same(call("explain", line).out.decode(), wanted, "a line as one word")
    wanted = row_text("refused 22 file F method M at N to N", 22)
    same(call("explain", *"refused 22 file 0 method 0 at 0 to -1".split()).out.decode(), wanted, "an offset below 0")


def test_explain_a_status():
    output, comes, to_do = cells("USING.md", "6")[1:]
    wanted = f"status 6\n  standard output: {output}\n  comes: {comes}\n  to do: {to_do}\n"
    same(call("explain", "status", "6").out.decode(), wanted, "explain status 6")


def test_help_of_a_command():
    for command, (statuses, example) in COMMANDS.items():
        ran = call(command, "--help")
        text = ran.out.decode()
        same((ran.status, ran.err), (0, ""), command)
        for part in [f"kiasan {command}", example, *(f"\n  {number:<4}" for number in statuses)]:
            same(part in text, True, f"{part!r} in the help of {command}")
        for number in statuses:
            comes = cells("USING.md", number)[2].split("; ")
            own = [part for part in comes if part[:4] not in ("of `", "for ") or f"`{command}" in part]
            same(f"  {number:<4}{'; '.join(own)}\n" in text, True, f"status {number} in the help of {command}")
    same("--budget N       1 to 100,000, else 2,000" in call("tests", "--help").out.decode(), True, "options of tests")
    same("--budget" in call("replay", "--help").out.decode(), False, "options of replay")
    firsts = {"view": "--fail-on", "replay": "each test passes", "junit": "was written\n", "explain": "was written\n"}
    for command, wanted in firsts.items():
        line = re.search("^  0 .*\n", call(command, "--help").out.decode(), re.M)[0]
        same((wanted in line, "each test" in line), (True, command == "replay"), f"status 0 of {command}")
    for command, words in WAYS_TO_CALL.items():
        for asked in ([command, "--help"], ["--help"]):
            text = call(*asked).out.decode()
            for option in re.findall(r"--[a-z-]+(?: [^]]+)?", words):
                same(re.search(rf"^ +{re.escape(option)}  +\w", text, re.M) is not None, True, f"{option} in {asked}")
    for what in (*ENDINGS, "returns=VALUE", "cut=BOUND"):
        same(re.search(rf"WHAT is .*\b{what}\b", call("view", "--help").out.decode()) is not None, True, what)


def test_statuses_of_the_commands():
    """Those that stored rows end with, and those that no row can have: 7, 8, 70, 71, and 0 of an assembler text."""
    found = {command: {7, 8, 70, 71} for command in ("explore", "tests", "diagrams", "replay", "assemble", "sample")}
    found["assemble"].add(0)
    for words, _, status in rows():
        if words and words[0] in found:
            found[words[0]].add(status)
    found["explore"] |= found["tests"] | found["diagrams"]
    found["tests"] = found["diagrams"] = found["explore"]
    same({command: set(COMMANDS[command][0]) for command in found}, found, "statuses of commands")


def test_help_asks_for_no_program():
    """Pages of help are there without a program, and so is what is said of a word that has none."""
    env = environment(KIASAN_PROGRAM="/nowhere/kiasan")
    for word, status in [("explore", 0), ("build", 0), ("sample", 0), ("x", 2)]:
        same(call(word, "--help", env=env).status, status, f"{word} --help")
    ran = call("explore", "--help", "A.class")
    same((ran.status, ran.out), (2, b"refused 91 word 1\n"), "three words, which are the program's")


def test_help_where_nobody_can_be_told():
    """Words without a fault are done; the status of a fault is the same."""
    for end in ("2>&-", "2>/dev/full" if os.path.exists("/dev/full") else "2>&-"):
        for words, status in [([], 2), (["--help", "x"], 2), (["none", "--help"], 2), (["--help"], 0), (["explain"], 2)]:
            text = f'exec "$0" {" ".join(words)} {end}'
            run = subprocess.run(["sh", "-c", text, ROOT / "kiasan"], env=environment(), stdout=subprocess.PIPE, check=False)
            same(run.returncode, status, f"{words} {end}")


def test_targets():
    made = Maker("p/a b").method("<init>", "()V", b"\xb1", access=1).method("none", "()I", access=0x0401)
    made.method("second", "([[Lp/a b;J)Z", ICONST_0 + IRETURN).method("a+b", "()V", b"\xb1")
    with folder() as path:
        made.write(path, "x.class")
        Maker("A").method("first", "()I", ICONST_0 + IRETURN).write(path, "in/z.class")
        Maker("B").method("next", "()I", ICONST_0 + IRETURN).write(path, "in/a.class")
        ran = call("targets", "x.class", "in", cwd=path)
        wanted = ["p/a%20b.second([[Lp/a%20b;J)Z", "p/a%20b.a%2Bb()V", "A.first()I", "B.next()I"]
        same((ran.status, ran.out.decode().splitlines(), ran.said), (0, wanted, []), "targets")
        (path / "x.class").write_bytes(made.data()[:-8])
        ran = call("targets", "x.class", cwd=path)
        # the last method's code is cut, and so is not listed; what stands before it is
        same((ran.status, ran.out.decode().splitlines()), (2, wanted[:1]), "targets of a damaged class file")
        same(len(ran.said), 1, "what is said of a damaged class file")
        same(ran.said[0].startswith("x.class is damaged: byte "), True, ran.said[0])


def test_targets_are_what_the_program_wants():
    """Each is found: none is answered by 45 or 98."""
    for line in call("targets", "--check", "Odd+One.class", "Bits.class").out.decode().splitlines():
        same(line.endswith(" explored"), True, line)


def test_targets_checked():
    made = Maker("M", access=ABSTRACT).method("f", "(LM;)I", ICONST_0 + IRETURN)
    made.method("g", "()I", b"\xb2\0\1" + POP + ICONST_0 + IRETURN)
    made.method("h", "()I", NEW + made.class_ref("M") + POP + ICONST_0 + IRETURN)
    with folder() as path:
        made.write(path)
        wanted = ["M.f(LM;)I explored", "M.g()I refused 47 M.g()I at 0 opcode b2", "M.h()I refused 47 M.h()I at 0 kind"]
        for word in ("M.class", "."):
            ran = call("targets", "--check", word, cwd=path)
            same((ran.status, ran.out.decode().splitlines()), (0, wanted), word)


def test_how_targets_are_checked():
    """One call for each, with all bounds at their least; what is no refusal is told by its status."""
    with folder() as path:
        made = Maker("M").method("f", "()I", ICONST_0 + IRETURN).method("g", "()I", ICONST_0 + IRETURN)
        made.write(path)
        env = stand_in(path, 'echo "refused $*"\necho more\nexit 5\n')
        wanted = [f"M.{name}()I refused explore {LEAST} --method M.{name}()I M.class" for name in "fg"]
        same(call("targets", "--check", "M.class", cwd=path, env=env).out.decode().splitlines(), wanted, "calls")
        for status, told in [(0, "explored"), (1, "explored"), (6, "status 6")]:
            env = stand_in(path, f"exit {status}\n")
            ran = call("targets", "--check", "M.class", cwd=path, env=env)
            same(ran.out.decode().splitlines(), [f"M.{name}()I {told}" for name in "fg"], f"status {status}")


def test_words_as_they_are():
    ran = call("--", "explore", "--method", "A.g()I", "A.class")
    same((ran.status, ran.out, ran.err), (4, b"refused 45 A.g()I\n", ""), "-- WORDS")
    ran = call("--")
    same((ran.status, ran.out, ran.err), (2, b"refused 90\n", ""), "--")
    ran = call("--", "--", "explore")
    same((ran.status, ran.out, ran.err), (2, b"refused 91 word 0\n", ""), "-- --")
    ran = call("--", "--help")
    same((ran.status, ran.out, ran.err), (2, b"refused 91 word 0\n", ""), "-- --help")
    ran = call("--", "explore", "--method", "A.f(II)I", "A.class")
    same((ran.status, ran.out.count(b"kiasan report 1\n"), ran.err), (0, 1, ""), "-- and a report")
    ran = call("--", "explain", "47")
    same((ran.status, ran.out, ran.err), (2, b"refused 91 word 0\n", ""), "-- explain")


def test_a_program_that_is_named():
    with folder() as path:
        (path / "text").write_text("#!/bin/sh\n", encoding="ascii")
        for name in ("/nowhere/kiasan", r"no\where\t", "no\nwhere", str(path), str(path / "text")):
            for words in (["explore"], ["--", "explore"], ["targets", "--check", "A.class"]):
                ran = call(*words, env=environment(KIASAN_PROGRAM=name))
                named = name.replace("\n", " ")
                said = [f"KIASAN_PROGRAM is {named}, and no program can be run there"]
                same((ran.status, ran.out, ran.said), (70, b"", said), f"{words} with {name} as the program")
    ran = call(env=environment(KIASAN_PROGRAM="/nowhere/kiasan"))
    same((ran.status, ran.out), (2, b""), "no words and no program")
    with folder() as path:
        (path / "own").symlink_to(environment()["KIASAN_PROGRAM"])
        ran = call("explore", cwd=path, env=environment(KIASAN_PROGRAM="own"))
        same((ran.status, ran.out), (2, b"refused 95\n"), "a program in this folder")
        ran = call("--", "explore", cwd=path, env=environment(KIASAN_PROGRAM="own"))
        same((ran.status, ran.out), (2, b"refused 95\n"), "the same behind --")


def test_standard_input_is_the_programs():
    data = (DATA / "A.class").read_bytes()
    words = ("explore", "--method", "A.f(II)I", "/dev/stdin")
    run = subprocess.run([ROOT / "kiasan", *words], input=data, capture_output=True, env=environment(), check=False)
    last = b"total 1 ended 1 cut 0 undecided 0 open 0"
    same((run.returncode, run.stdout.split(b"\n")[-2], run.stderr), (0, last, b""), "a pipe")


def test_a_reader_that_has_seen_enough():
    """The script's own words end by the signal of a broken pipe, as other programs do."""
    for words in (["targets", "A.class"], ["explain", "47"], ["explore", "--help"], ["--help"]):
        reading, writing = os.pipe()
        os.close(reading)
        ran = call(*words, stdout=writing)
        os.close(writing)
        same((ran.status, ran.err), (-signal.SIGPIPE, ""), f"{words} into a closed pipe")


def test_output_that_cannot_be_written():
    for words in (["targets", "A.class"], ["explain", "47"], ["explore", "--help"], ["--help"], ["-h"]):
        for end in (">/dev/full", ">&-"):
            if os.path.exists("/dev/full"):
                text = f'exec "$0" "$@" {end}'
                run = ["sh", "-c", text, ROOT / "kiasan", *words]
                ran = subprocess.run(run, cwd=DATA, env=environment(), stderr=subprocess.PIPE, check=False)
                wanted = (7, b"kiasan: the output could not be written\n")
                same((ran.returncode, ran.stderr), wanted, f"{words} {end}")
