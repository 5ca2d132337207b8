"""The reader of a path's ending, and of the input that it carries."""

from .forms import BOUNDS, is_exact_type, is_number_kind, read_count, read_int, read_numbered
from script.names import read_target


def read_leaf(lines, report, path, block):
    """Reads the ending and what follows it, up to the next path."""
    LeafReader(lines, report, path, block).read()


class LeafReader:
    """Reads the lines of an ending; `most_made` is how many objects of the run the lines so far speak of."""

    def __init__(self, lines, report, path, block):
        self.lines, self.report, self.path, self.block = lines, report, path, block
        self.most_made = 0

    def read(self):
        endings = {
            "returns": self._returns,
            "throws": self._throws,
            "illtyped": self._illtyped,
            "cut": self._cut,
            "undecided": self._undecided,
            "open": self._open,
        }
        ending = self.lines.first()
        if ending not in endings:
            self.lines.fail("a line that says how the path ends is expected here")
        endings[ending](self.lines.next(ending))
        self.path.ending = ending
        if ending == "undecided":
            self._learned()
        if self.path.has_ended:
            self._heap()
        if self.path.has_input:
            InputReader(self.lines, self.report, self.path, self.block).read()

    def _returns(self, words):
        kind = self.report.result
        if len(words) != (kind != "V"):
            self.lines.fail("a value is expected here exactly where the method has a result")
        if words:
            self._out(words[0], is_number_kind(kind))
            self.path.value = words[0]
        self.lines.done()

    def _throws(self, words):
        if len(words) != 1 or words[0] == "null":
            self.lines.fail("a line throws has an object")
        self._out(words[0], False)
        self.path.value = words[0]
        self.lines.done()

    def _illtyped(self, words):
        if len(words) != 2 or read_target(words[0]) is None or read_count(words[1]) is None:
            self.lines.fail("a line illtyped has a METHOD and an offset")
        self.path.place = (words[0], int(words[1]))
        self.lines.done()

    def _cut(self, words):
        if len(words) != 1 or words[0] not in BOUNDS:
            self.lines.fail(f"a line cut has one of {', '.join(BOUNDS)}")
        self.path.value = words[0]
        self.lines.done()

    def _undecided(self, words):
        if len(words) != 1 or read_count(words[0]) is None:
            self.lines.fail("a line undecided has the number of lines learn behind it")
        self.path.value = words[0]
        self.lines.done()

    def _open(self, words):
        if words:
            self.lines.fail("a line open has no words behind it")
        self.lines.done()

    def _learned(self):
        for _ in range(int(self.path.value)):
            words = self.lines.next("learn")
            if len(words) % 2 == 0 or None in map(read_count, words):
                self.lines.fail("a line learn has a clause, and pairs of a pivot and a clause")
            self.path.learned.append(words)
            self.lines.done()

    def _heap(self):
        """The slots that were written, and the objects that the run has made."""
        last = -1
        while self.lines.first() == "set":
            words = self.lines.next("set", 2)
            slot = self.block.slot(words[0])
            if not self.block.has_slot(slot) or slot.text in self.path.sets or slot.holder < last:
                self.lines.fail(f"{slot.text} is no slot of an object, or not next")
            seen = self.path.seen.get(slot.text)
            self._out(words[1], None if seen is None else seen.startswith("v"))
            self.path.sets[slot.text] = (slot, words[1])
            last = slot.holder
            self.lines.done()
        while self.lines.first() == "new":
            self._made(self.lines.next("new"))
        if len(self.path.made) < self.most_made:
            self.lines.fail(f"the line of object n{len(self.path.made)} is expected here")

    def _made(self, words):
        if len(words) < 2 or words[0] != f"n{len(self.path.made)}" or not is_exact_type(words[1]):
            self.lines.fail(f"the line of object n{len(self.path.made)} is expected here, with its TYPE")
        element = words[1][1:] if words[1].startswith("[") else None
        for out in words[2:]:
            self._out(out, None if element is None else is_number_kind(element))
        self.path.made.append((words[1], tuple(words[2:])))
        self.lines.done()

    def _out(self, text, is_number):
        """The text is a value: an operand, or a reference to what a line introduces; `is_number` where one must be it."""
        operand = self.block.is_operand(text)
        if is_number is not None and operand != is_number:
            self.lines.fail(f"{text} is not {'an int' if is_number else 'a reference'} that a line introduces")
        if not operand and not self._is_reference(text):
            self.lines.fail(f"no line introduces {text}")

    def _is_reference(self, text):
        if text == "null":
            return True
        letter, number = read_numbered(text, "olsn") or ("", 0)
        if letter == "n":
            self.most_made = max(self.most_made, number + 1)
        if letter == "l":
            return number < len(self.path.standings) and self.path.standings[number] == "open"
        return letter in ("s", "n") or (letter == "o" and number < len(self.path.objects))


class InputReader:
    """Reads the input that a path carries, which is an instance of its picture."""

    def __init__(self, lines, report, path, block):
        self.lines, self.report, self.path, self.block = lines, report, path, block
        self.numbers = {slot.text: len(path.objects) + at for at, (slot, _) in enumerate(path.extras())}

    def read(self):
        while self.lines.first() == "arg":
            (word,) = self.lines.next("arg", 1)
            number = len(self.path.arguments)
            self.block.fit(lambda shape: number < len(shape) and self._fits(f"a{number}", word, shape[number]), f"arg {word}")
            self.path.arguments.append(word)
            self._take()
        count = len(self.path.arguments)
        shapes = [shape for shape in self.report.shapes if len(shape) == count]
        if not shapes:
            self.lines.next("arg")
        self.report.shapes = shapes
        while self.lines.first() == "in":
            self._object(self.lines.next("in"))
        if len(self.path.inputs) < self._count():
            self.lines.fail(f"the line of object i{len(self.path.inputs)} is expected here")

    def _take(self):
        self.path.input_lines.append(" ".join(self.lines.words()))
        self.lines.done()

    def _count(self):
        return len(self.path.objects) + len(self.numbers)

    def _fits(self, slot, word, kind):
        """Whether a value may stand in the slot: what was seen there, or 0 or null where nothing was."""
        seen = self.path.seen.get(slot)
        if seen is None:
            return word == ("0" if is_number_kind(kind) else "null") if kind else word in ("0", "null")
        if seen.startswith("v"):
            return word in ("0", "1") if kind == "Z" else read_int(word) is not None
        if seen == "null":
            return word == "null"
        return word == f"i{self.place(slot)}"

    def place(self, slot):
        """The number of the object of the input that the slot leads to."""
        seen = self.path.resolved(self.path.seen[slot])
        return int(seen[1:]) if seen.startswith("o") else self.numbers[slot]

    def _object(self, words):
        number = len(self.path.inputs)
        if number >= self._count() or len(words) < 2 or words[0] != f"i{number}" or not is_exact_type(words[1]):
            self.lines.fail(f"the line of object i{number} is expected here, with its TYPE, or none")
        if number < len(self.path.objects):
            self._of_picture(number, self.path.objects[number], words[1], words[2:])
        for word in words[2:]:
            letter, place = read_numbered(word, "i") or ("", 0)
            if read_int(word) is None and word != "null" and not (letter and place < self._count()):
                self.lines.fail(f"no line introduces {word}")
        self.path.inputs.append((words[1], tuple(words[2:])))
        self._take()

    def _of_picture(self, number, held, kind, values):
        """The object is as the picture says."""
        if kind != held.kind:
            self.lines.fail(f"i{number} is of the type of o{number}, {held.kind}")
        if held.length is None:
            return
        if len(values) != held.length + held.above:
            self.lines.fail(f"i{number} has as many elements as o{number}")
        for index, word in enumerate(values):
            if not self._fits(f"o{number}[{index}]", word, held.kind[1:]):
                self.lines.fail(f"element {index} of i{number} is not what was seen there")
