"""Lines on standard error, and output of the script's own words."""

import os

MOST_NAMES = 8


def shown(text):
    """The text on one line: what cannot be printed, or is no UTF-8, as `%XX` for each byte."""
    return "".join(char if char.isprintable() else "".join(f"%{byte:02X}" for byte in encoded(char)) for char in text)


def encoded(text):
    return text.encode("utf-8", "surrogateescape")


def say(text):
    """A line on standard error. Where nobody can be told, nobody is."""
    write(2, encoded(f"kiasan: {shown(text)}\n"))


def write(file, data):
    """Whether all bytes could be written."""
    try:
        while data:
            data = data[os.write(file, data) :]
    except OSError:
        return False
    return True


def listed(names, between=", ", most=MOST_NAMES):
    """The first names, and how many more there are."""
    names = list(names)
    more = f" and {len(names) - most} more" if len(names) > most else ""
    return between.join(names[:most]) + more


def counted(number, one, many):
    return f"{number} {one if number == 1 else many}"


class Fault(Exception):
    """The script ends with a line and a status."""

    def __init__(self, status, *lines):
        super().__init__(*lines)
        self.status, self.lines = status, lines


def put(text):
    """Writes to standard output, or ends with 7."""
    if not write(1, encoded(text)):
        raise Fault(7, "the output could not be written")


def reason(error):
    """The system's reason."""
    return error.strerror or str(error)


def root():
    return os.path.dirname(os.path.dirname(os.path.abspath(__file__)))
