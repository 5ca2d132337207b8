"""What is said behind a call: what a status or a refusal means, with the parts that a person cannot know."""

from . import refused, slips
from .kinds import EMPTY, TESTS, kind_of_file
from .pages import refusal_of, status_of
from .places import is_place, is_regular
from .program import ask
from .say import say

REFUSED = (2, 3, 4, 5, 9)
# Words are judged before any file is read.
WORDS = 2


def explain(call, status):
    """Says in words what a call came to."""
    lines = refusal_lines(call, status) if status in REFUSED and may_ask_again(call, status) else []
    for line in lines or status_lines(call, status):
        say(line)


def may_ask_again(call, status):
    """Whether the program answers the same words once more, since what it reads is still there."""
    return status == WORDS or all(map(is_regular, texts_and_files(call)))


def refusal_lines(call, status):
    """The lines on the refusal of a call, which is made once more; none where it answers something else."""
    again, output = ask(call.signals, call.program, call.handed.words)
    line = output.decode("latin-1").rstrip("\n")
    row = refusal_of(line)
    return refused.lines(call, row, line) if again == status and row else []


def texts_and_files(call):
    """The words that name files."""
    text = call.order.text
    return [*([] if text is None else [text]), *call.handed.files]


def status_lines(call, status):
    if status == 6:
        lines = unread(call)
        if lines:
            return lines
    row = status_of(status)
    if row is None:
        return []
    lines = [f"status {status}: {row.comes}"]
    return lines + ([f"to do: {row.to_do}"] if row.to_do else [])


def unread(call):
    """Which file could not be read, the first that cannot be opened now, and what its word may mean; else nothing."""
    for word in texts_and_files(call):
        try:
            with open(word, "rb") as file:
                file.read(1)
        except OSError as error:
            if is_place(word) and word in call.handed.files:
                return [f"cannot read {word}: is a folder, and {no_target(call)}"]
            return slips.unread_lines(word, error, slips.of_file(call.order, word))
    return []


def no_target(call):
    """Why it is not known which class files of a folder are needed."""
    text = call.order.text
    kind = kind_of_file(text) if text is not None and is_regular(text) else TESTS
    if kind in (TESTS, EMPTY):
        return "no method says which of its class files are needed"
    return f"{text}, which should say which of its class files are needed, is {kind or 'no file of tests'}"
