"""Java source that runs the inputs of a report and compares what comes of them. Names of class files stand in literals alone."""

import re
from os.path import dirname, join

from .forms import read_name
from .model import Model
from .names import SIMPLE, plain_name, read_kind
from .replay_text import last_values

PLAIN = re.compile(r"[A-Za-z0-9_$./-]")
HEAP = join(dirname(__file__), "Heap.java.txt")
IMPORTS = (
    "java.lang.reflect.Array",
    "java.lang.reflect.Field",
    "java.lang.reflect.InvocationTargetException",
    "java.lang.reflect.Method",
    "java.util.HashMap",
    "java.util.LinkedHashMap",
    "java.util.Map",
    "java.util.concurrent.FutureTask",
    "java.util.concurrent.TimeUnit",
    "java.util.concurrent.TimeoutException",
)


def unicode_name(text):
    """The characters of a name, whose bytes are those of a class file (JVMS 8 section 4.4.7)."""
    try:
        return text.encode("latin-1").decode("utf-8", "surrogatepass")
    except UnicodeDecodeError:
        return text


def escaped(text):
    """A name inside a string literal (JLS 8 section 3.10.6): ASCII but letters, digits and `_ $ . / -` in octal."""
    units = text.encode("utf-16-be", "surrogatepass")
    found = []
    for at in range(0, len(units), 2):
        unit = units[at] << 8 | units[at + 1]
        if unit > 0x7F:
            found.append(f"\\u{unit:04x}")
        elif PLAIN.match(chr(unit)):
            found.append(chr(unit))
        else:
            found.append(f"\\{unit:o}" if at + 2 == len(units) or not is_digit(units, at + 2) else f"\\{unit:03o}")
    return "".join(found)


def is_digit(units, at):
    return units[at] == 0 and chr(units[at + 1]).isdigit()


def literal_name(text):
    """A name of a class file inside a string literal."""
    return escaped(unicode_name(text))


def type_literal(kind):
    """The literal of a type that is given by its descriptor: as `Class.getName`, but arrays with brackets behind."""
    inner = kind.lstrip("[")
    named = literal_name(inner[1:-1].replace("/", ".")) if inner.startswith("L") else SIMPLE[inner]
    return f'"{named}{"[]" * (len(kind) - len(inner))}"'


def exact_literal(text):
    """The literal of a TYPE."""
    return type_literal(read_kind(text) if text.startswith("[") else f"L{read_name(text)};")


class Source:
    """The lines of a report's runs. `plain` has sentences for comments, `model` names for literals."""

    def __init__(self, report, classes):
        self.report, self.classes = report, classes
        self.plain = Model(report, classes, plain_name)
        self.model = Model(report, classes, literal_name)
        self.sentences = {story.decisions: story.sentence for story in self.plain.stories}
        self.static = not self.model.names.has_receiver

    def stories(self):
        """The paths that have a run: those that return or throw, with no string literal among their values."""
        return [story for story in self.model.stories if why_not(story.path) is None]

    def left_out(self):
        """How many paths have no run, by kind."""
        counts = {}
        for path in self.report.paths:
            why = why_not(path)
            if why:
                counts[why] = counts.get(why, 0) + 1
        return ", ".join(f"{count} {why}" for why, count in counts.items())

    def sentence(self, story):
        """The sentence of a path, with identifiers alone as names."""
        return self.sentences[story.decisions]

    def lines(self, story):
        """The statements of a path's run."""
        return Run(story, self).lines()


def why_not(path):
    """Why a path has no run, or None."""
    if path.ending not in ("returns", "throws"):
        return {"illtyped": "ill-typed"}.get(path.ending, path.ending)
    outs = [out for _, out in path.sets.values()] + [out for _, values in path.made for out in values]
    return "with a string literal" if any(out.startswith("s") for out in [*outs, path.value or ""]) else None


def name_of(path):
    """The name of a path's run."""
    return "path" if path.decisions == "-" else f"path_{path.decisions.replace('.', '_')}"


class Run:
    """The statements of one run: the input, the call, and what is compared."""

    def __init__(self, story, source):
        self.story, self.path, self.source = story, story.path, source
        self.given = story.given
        self.values = self.given.values()
        self.slots = [self._slots(kind, len(values)) for kind, values in self.path.inputs]
        self.afters = [self._after(number) for number in range(len(self.path.inputs))]
        self.made = [[self.given.out(out, self.values) for out in outs] for _, outs in self.path.made]

    def _slots(self, kind, count):
        """The words for each slot of an object: its class, name and type, or its index; and what stands around the object."""
        if kind.startswith("["):
            return [(str(index), "", f"[{index}]") for index in range(count)]
        layout = self.source.classes.layout(kind)
        names = [name for name, _ in {(field.name, field.owner) for field in layout}]
        return [slot_words(field, names.count(field.name) > 1, self.story.writer.types) for field in layout]

    def _after(self, number):
        """What the slots of an object of the input hold in the end."""
        return last_values(self.path, self.given, self.values, number)

    def lines(self):
        return [
            *self._input(),
            *self._made_objects(),
            self._call(),
            self._ending(),
            *self._compared(),
        ]

    def _input(self):
        lines = []
        for number, (kind, values) in enumerate(self.path.inputs):
            length = len(values) if kind.startswith("[") else -1
            lines.append(f'heap.make("i{number}", "{self.name(number)}", {exact_literal(kind)}, {length});')
        for number, (_, values) in enumerate(self.path.inputs):
            for (words, _, _), value in zip(self.slots[number], values):
                lines.append(f'heap.set("i{number}", {words}, "{value}");')
        return lines

    def name(self, number):
        """The name of an object of the input."""
        return self.story.names.object(f"o{number}") if number < len(self.path.objects) else f"i{number}"

    def _made_objects(self):
        led, lines = self._led(), []
        for number, (kind, outs) in enumerate(self.path.made):
            if f"n{number}" in led:
                length = len(outs) if kind.startswith("[") else -1
                lines.append(f'heap.makes("n{number}", {exact_literal(kind)}, {length});')
            else:
                lines.append(f"// n{number} is made, and nothing leads to it: it is not looked at")
        return lines

    def _led(self):
        """The objects of the run to which something leads, in the order in which they are met."""
        first = [self.given.out(self.path.value, self.values)] if self.path.value else []
        found = []
        waiting = [*first, *(value for values in self.afters for value in values)]
        while waiting:
            value = waiting.pop(0)
            if is_made(value) and value not in found:
                found.append(value)
                waiting += self.made[int(value[1:])]
        return found

    def _call(self):
        report = self.source.report
        kinds = [type_literal(read_kind(kind)) for kind in report.parameters]
        arguments = ["null", *self.path.arguments] if self.source.static else self.path.arguments
        kinds = f"new String[] {{{', '.join(kinds)}}}" if kinds else "new String[0]"
        values = ", ".join(f'"{value}"' for value in arguments)
        owner, result = type_literal(f"L{report.owner};"), type_literal(read_kind(report.result))
        return f'heap.call({owner}, "{literal_name(report.method)}", {result}, {kinds}, {values});'

    def _ending(self):
        if not self.path.value:
            return "heap.returned();"
        value = self.given.out(self.path.value, self.values)
        if self.path.ending == "throws":
            return f'heap.threw("{value}");'
        return f'heap.returned({type_literal(read_kind(self.source.report.result))}, "{value}");'

    def _compared(self):
        lines = []
        for number, values in enumerate(self.afters):
            lines += self._holds(f"i{number}", self.name(number), self.slots[number], values)
        for key in self._led():
            kind, outs = self.path.made[int(key[1:])]
            lines += self._holds(key, key, self._slots(kind, len(outs)), self.made[int(key[1:])])
        return lines

    @staticmethod
    def _holds(key, name, slots, values):
        lines = []
        for (words, front, behind), value in zip(slots, values):
            lines.append(f'heap.holds("{front}{name}{behind}", "{key}", {words}, "{value}");')
        return lines


def slot_words(field, several, types):
    """The words for a field, and how it is named around its object: with its class where several have one name."""
    owner, name = read_name(field.owner), literal_name(read_name(field.name))
    label = name + (f":{types.of_kind(field.kind)}" if ":" in field.key else "")
    words = f'{type_literal(f"L{owner};")}, "{name}", {type_literal(field.kind)}'
    return (words, f"(({types.of_class(owner)}) ", f").{label}") if several else (words, "", f".{label}")


def is_made(value):
    return value != "null" and value[0] == "n"


def heap_class():
    """The class that makes inputs and compares."""
    with open(HEAP, encoding="ascii") as file:
        return file.read()
