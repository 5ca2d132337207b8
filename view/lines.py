"""Lines of a text, each looked at before it is taken."""


class Unreadable(Exception):
    """The lines cannot go on at that line, numbered from 1."""

    def __init__(self, line, says):
        super().__init__(f"line {line}: {says}")
        self.line = line


class Lines:
    """The lines of a text; `at` is the number of those that were taken."""

    def __init__(self, data):
        self.lines = data.decode("latin-1").split("\n")
        self.at = 0
        # What stands behind the last line feed: nothing, or a line that has none.
        self.rest = self.lines.pop()

    def fail(self, says):
        """The line that is next does not fit."""
        raise Unreadable(self.at + 1, says)

    def words(self):
        """The words of the line that is next; none behind the last one."""
        return self.lines[self.at].split(" ") if self.at < len(self.lines) else []

    def first(self):
        """The first word of the line that is next, or nothing."""
        words = self.words()
        return words[0] if words else ""

    def done(self):
        """The line that is next is taken."""
        self.at += 1

    def next(self, first, count=None):
        """The words behind that first word of the line that is next, and that many."""
        words = self.words()
        if not words:
            self.fail("the text ends here" if not self.rest else "the line has no line feed behind it")
        if words[0] != first:
            self.fail(f"a line that begins with {first} is expected here")
        if count is not None and len(words) != count + 1:
            self.fail(f"a line {first} has {count} words behind it")
        return words[1:]

    def whole(self, text):
        """The line that is next is that one, and is taken."""
        words = self.next(text.split(" ")[0])
        if " ".join(self.words()) != text or not words:
            self.fail(f"the line {text} is expected here")
        self.done()

    def end(self):
        """No line is left."""
        if self.at < len(self.lines) or self.rest:
            self.fail("the report has ended, and no line is expected here")
