"""What a file holds that is not what a word wants, by its first bytes."""

from .pages import refusal_of

REPORT, TESTS, EMPTY = "a report, as `./kiasan explore` writes it", "a file of tests, as `./kiasan tests` writes it", "empty"
# What files begin with, and what they are then.
FRONTS = (
    (b"kiasan report 1\n", REPORT),
    (b"test ", TESTS),
    (b"\xca\xfe\xba\xbe", "a class file"),
    (b"PK\x03\x04", "an archive"),
    (b"<!DOCTYPE html>", "a page"),
)
MOST_BYTES = 4096


def kind_of(data):
    """What the bytes are, in words, or None where that is not known."""
    if not data:
        return EMPTY
    found = next((says for front, says in FRONTS if data.startswith(front)), None)
    return found or refusal_words(data)


def refusal_words(data):
    """Where the bytes are a refusal, which one."""
    line, end, _ = data[:MOST_BYTES].partition(b"\n")
    line = line.decode("latin-1")
    row = refusal_of(line) if end and line.startswith("refused ") else None
    return f"a refusal, {line}: `./kiasan explain {row.number}` says what it means" if row else None


def kind_of_file(path):
    """What the file at that path holds, or None."""
    try:
        with open(path, "rb") as file:
            return kind_of(file.read(MOST_BYTES))
    except OSError:
        return None
