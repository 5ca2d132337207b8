"""Each example of the pages: its commands are run from the top of the repository, and what they write is what the page says.

Each block of a page is one of these: commands, what the last command writes or says, lines that are among it, a source of a
class of examples/, or one of a list of blocks that are no example. So is each command within a sentence.
"""

import re
import subprocess
from fnmatch import fnmatch

from script.own import COMMANDS
from script.tests.tools import ROOT, environment, folder, same

PAGES = ("README.md", "docs/USING.md", "docs/REFUSALS.md", "docs/FINDING_BUGS.md")
# The page whose tables explain lines of its examples; the others have forms of lines.
EXPLAINS = "README.md"
# What is said of a block that stands behind commands: that the last one writes it, or says it on standard error, or that it is
# among what they write.
WHOLE = re.compile(r"writes\s*$")
SAID = re.compile(r"(says|says on standard error which class file it takes besides,)\s*$")
AMONG = re.compile(r"(among them is|lines of the first two:|the one that returns is)\s*$")
# What sentences tell of the last command: how many paths, lines that it writes, its last line.
PATHS = re.compile(r"lists (\w+) paths")
LINES = re.compile(r"\s*writes (`[^.]*?)\. ")
LAST = re.compile(r"the last line of the replay is `([^`]*)`")
COUNTS = {"four": 4, "seven": 7}
# Blocks that are no example, by how they begin: forms of words and of lines, a drawing, and the gate.
OTHERS = (
    "./kiasan WORDS\n",
    " a0                ",
    "kiasan: warning: class coll/MyList$Node",
    "class FLAGS NAME NAME ",
    "class 0021 Sample java/lang/Object\n",
    ".ci/run\n",
    "javac -d out ",
)
# Commands within sentences that are forms, or that are told of.
FORMS = """
./kiasan|./kiasan explore|./kiasan view --fail-on returns=false --fail-on throws|./kiasan WORDS|./kiasan -- WORDS|./kiasan --help|./kiasan build|./kiasan tests|./kiasan replay
./kiasan assemble TEXT|./kiasan view|./kiasan junit|./kiasan targets|./kiasan targets FILE|./kiasan targets --check FILE
""".replace("\n", "|")


def read(page):
    return (ROOT / page).read_text(encoding="utf-8")


def parts(page):
    """The text before each block of a page, and the block, in order; the text behind the last block comes with none."""
    pieces = re.split(r"^```\w*\n(.*?)^```\n", read(page), flags=re.M | re.S)
    return list(zip(pieces[0::2], [*pieces[1::2], ""]))


def run(top, command):
    """Runs a command in a folder that looks like the top of the repository. Its status, output, and what it says."""
    more = {"env": environment(), "stdin": subprocess.DEVNULL, "capture_output": True, "check": False}
    ran = subprocess.run(["sh", "-c", command], cwd=top, **more)
    return ran.returncode, ran.stdout.decode("latin-1"), ran.stderr.decode("latin-1")


def make_top(path):
    for name in ("kiasan", "examples", "docs"):
        (path / name).symlink_to(ROOT / name)
    return path


def is_example(block):
    return bool(block) and all(line.startswith("./kiasan ") for line in block.splitlines())


def is_source(block):
    """Whether the block is a file of examples/, or lines of one in their order, with `..` in the place of others."""
    for file in (ROOT / "examples").glob("*.java"):
        text = file.read_text(encoding="utf-8")
        if block == text or "    ..\n" in block and has_in_order(text, block.split("    ..\n")):
            return True
    return False


def has_in_order(text, pieces):
    for piece in pieces:
        _, found, text = text.partition(piece)
        if not found:
            return False
    return True


class Page:
    """A page whose commands are run in a folder of its own, in their order."""

    def __init__(self, page, top):
        self.page, self.top = page, top
        self.written = self.said = ""
        self.count = 0

    def judge(self):
        for text, block in parts(self.page):
            self.judge_text(text)
            if block:
                self.judge_block(text, block)

    def judge_text(self, text):
        """What sentences behind a command tell of it."""
        if not self.count:
            return
        told = LINES.match(text)
        last = LAST.search(text)
        paths = PATHS.search(text)
        for line in re.findall(r"`([^`]+)`", told[1]) if told else []:
            self.same(line in self.written.splitlines(), True, f"{line!r} of what is written")
        if last:
            self.same(self.written.splitlines()[-1], last[1], "the last line")
        if paths:
            self.same(self.written.count("\npath "), COUNTS[paths[1]], "paths")
        table = text.partition("| Line | Says |")[2] if self.page == EXPLAINS else ""
        for line in re.findall(r"^\| (`.*?`) \| ", table, flags=re.M):
            for each in re.findall(r"`([^`]+)`", line):
                self.same(is_line_of(self.written, each), True, f"{each!r} of what is explained")

    def judge_block(self, text, block):
        if block.startswith(OTHERS):
            return
        if is_example(block):
            for command in block.splitlines():
                self.run(command)
        elif self.count and WHOLE.search(text):
            self.same(self.written, block, "what is written")
        elif self.count and SAID.search(text):
            self.same(self.said, block, "what is said")
        elif self.count and AMONG.search(text):
            self.same(block in everything(self.top, self.written), True, f"what is among {block!r}")
        else:
            self.same(is_source(block), True, f"a block that is not known: {block!r}")

    def judge_sentences(self):
        """Commands in backquotes, which name their files, or those that the blocks have written, or are forms."""
        text = re.sub(r"^```.*?^```$", "", read(self.page), flags=re.M | re.S)
        for command in re.findall(r"`(\./kiasan[^`]*)`", text):
            if command not in FORMS.split("|"):
                status, written, _ = run(self.top, command)
                self.same((status, written != "" or ">" in command), (0, True), command)

    def run(self, command):
        status, self.written, self.said = run(self.top, command)
        wanted = (0, 10) if "--fail-on" in command else (0, 4)
        self.same(status in wanted, True, f"{command}: status {status}")
        self.count += 1

    def same(self, found, wanted, what):
        same(found, wanted, f"{self.page}: {what}")


def is_line_of(written, text):
    """Whether the text is a line of what was written; `..` stands for a rest."""
    lines = written.splitlines()
    head, dots, _ = text.partition(" ..")
    return any(line.startswith(head) if dots else line == text for line in lines)


def everything(top, written):
    """What the last command wrote, and all files that commands have written."""
    return written + "".join(file.read_text(encoding="latin-1") for file in sorted(top.glob("*.tests")))


def test_examples_of_the_pages():
    for page, least in zip(PAGES, (7, 4, 0, 12)):
        with folder() as path:
            judged = Page(page, make_top(path))
            judged.judge()
            judged.judge_sentences()
            same(judged.count >= least, True, f"examples of {page}: {judged.count}")


def test_what_commands_write_is_ignored():
    """Files that the commands of the pages write at the top of the repository are none of it (.gitignore)."""
    patterns = [line[1:] for line in (ROOT / ".gitignore").read_text(encoding="utf-8").split("\n") if line.startswith("/")]
    texts = [*map(read, PAGES), *(example for _, example in COMMANDS.values())]
    names = {name for text in texts for name in re.findall(r"\./kiasan [^`\n]* > ([\w.]+)", text)}
    same(len(names) > 8, True, f"files that commands write: {names}")
    same([name for name in names if not any(fnmatch(name, pattern) for pattern in patterns)], [], "files that are not ignored")


def test_the_path_of_pictures():
    """The one path of docs/PICTURES.md that is explored today."""
    with folder() as path:
        text, block = parts("docs/PICTURES.md")[0]
        status, written, _ = run(make_top(path), re.search(r"`(\./kiasan [^`]*)` writes, among others,", text)[1])
        same((status, block in written), (0, True), "the path of docs/PICTURES.md")


def test_examples_of_commands():
    for command, (_, example) in COMMANDS.items():
        if command != "build":
            with folder() as path:
                status, written, _ = run(make_top(path), example)
                wrote = written or "".join(file.read_text(encoding="latin-1") for file in path.glob("*.*"))
                same((status, wrote != ""), (0, True), example)


def test_the_list_that_fails():
    """Its two failing paths, by hand: a list of no node, and each of one node."""
    target = "MyList.removeLast()V"
    with folder() as path:
        status, written, _ = run(make_top(path), f"./kiasan explore --method '{target}' examples/MyList.class")
    thrown = [path for path in written.split("\npath ") if "\nthrows n0\nnew n0 java/lang/NullPointerException\n" in path]
    same((status, len(thrown)), (0, 2), target)
    same(["in i0 MyList null" in thrown[0], "in i0 MyList i1\nin i1 MyList$Node 0 null" in thrown[1]], [True, True], target)
