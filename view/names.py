"""Names as Java writes them: of types, arguments, objects, slots and variables. All speak of the heap as the run finds it."""

import re
from functools import lru_cache

from script.class_file import STATIC, argument_name
from script.say import shown

from .forms import read_name

SIMPLE = {
    "Z": "boolean",
    "B": "byte",
    "C": "char",
    "S": "short",
    "I": "int",
    "J": "long",
    "F": "float",
    "D": "double",
    "V": "void",
}
# An object that is found by that many fields or more has its number as its name.
MOST_FIELDS = 4
IDENTIFIER = re.compile(r"[A-Za-z_$][A-Za-z0-9_$]*")
INSIDE = re.compile(r"(?<=[A-Za-z0-9_])\$(?=[A-Za-z_])")
# The words that are no identifiers (JLS 8 section 3.9 and 3.10).
KEYWORDS = frozenset(
    "abstract assert boolean break byte case catch char class const continue default do double else enum extends final finally "
    "float for goto if implements import instanceof int interface long native new package private protected public return short "
    "static strictfp super switch synchronized this throw throws transient try void volatile while true false null _".split()
)


def is_identifier(text):
    return bool(IDENTIFIER.fullmatch(text)) and text not in KEYWORDS


@lru_cache(maxsize=65536)
def shown_name(text):
    """A name for readers: its bytes as UTF-8, and what is none or cannot be printed as `%XX`."""
    return shown(text.encode("latin-1").decode("utf-8", "surrogateescape"))


def plain_name(text):
    """A name that may stand in a comment of Java source: an identifier, or a word in its place."""
    return text if is_identifier(text) else "unnamed"


class TypeNames:
    """Names of types; classes without their package, where no other class that is spoken of has that name."""

    def __init__(self, names, write=shown_name):
        self.write = write
        short = [short_of(name) for name in set(names)]
        self.double = {name for name in short if short.count(name) > 1}

    def of_class(self, name):
        """The name of a class, which is given as in a class file."""
        short = short_of(name)
        parts = [short] if short not in self.double else [*name.split("/")[:-1], short]
        return ".".join(self.write(each) for part in parts for each in part.split("."))

    def of_kind(self, kind):
        """The name of a type, which is given by its descriptor."""
        inner = kind.lstrip("[")
        named = self.of_class(inner[1:-1]) if inner.startswith("L") else SIMPLE[inner]
        return named + "[]" * (len(kind) - len(inner))

    def of_exact(self, text):
        """The name of a TYPE, as a report spells it."""
        return self.of_kind(read_kind(text)) if text.startswith("[") else self.of_class(read_name(text))


def read_kind(text):
    """The descriptor that the text spells."""
    inner = text.lstrip("[")
    return text[: len(text) - len(inner)] + (f"L{read_name(inner[1:-1])};" if inner.startswith("L") else inner)


def short_of(name):
    """The last part of a class's name, nested classes with dots."""
    return INSIDE.sub(".", name.rpartition("/")[2])


def classes_of(report):
    """The names of all classes that a report speaks of."""
    kinds = [read_kind(kind) for kind in [*report.parameters, report.result]]
    exact = [held.kind for path in report.paths for held in path.objects]
    exact += [kind for path in report.paths for kind, _ in [*path.made, *path.inputs]]
    kinds += [read_kind(text) if text.startswith("[") else f"L{read_name(text)};" for text in set(exact)]
    return {report.owner, *(kind.lstrip("[")[1:-1] for kind in kinds if kind.lstrip("[").startswith("L"))}


class Names:
    """Names of a report: its types and its method's arguments."""

    def __init__(self, report, classes, write=shown_name):
        self.report, self.classes, self.write = report, classes, write
        self.types = TypeNames(classes_of(report), write)
        self.method = classes.method(report)
        self.has_receiver = report.has_receiver if self.method is None else not self.method.access & STATIC

    def argument(self, number):
        """The name of an argument, the receiver as argument 0."""
        if self.has_receiver and number == 0:
            return "this"
        named = argument_name(self.method, number) if self.method else None
        return self.write(named) if named else f"arg{number - self.has_receiver}"

    def argument_kind(self, number):
        """The declared type of an argument."""
        kinds = [f"L{self.report.owner};"] * self.has_receiver + [read_kind(kind) for kind in self.report.parameters]
        return kinds[number]

    def signature(self):
        """The method as Java writes it."""
        parameters = [
            f"{self.types.of_kind(read_kind(kind))} {self.argument(number + self.has_receiver)}"
            for number, kind in enumerate(self.report.parameters)
        ]
        result = self.types.of_kind(read_kind(self.report.result))
        return f"{result} {self.write(self.report.method)}({', '.join(parameters)})"


class PathNames:
    """Names of what one path speaks of."""

    def __init__(self, names, path):
        self.names, self.path = names, path
        self._written = {}
        self._first = {}
        for slot, seen in path.sees:
            self._first.setdefault(seen, slot)

    def slot(self, slot):
        """A slot of the picture."""
        if slot.text not in self._written:
            self._written[slot.text] = self._slot(slot)
        return self._written[slot.text]

    def _slot(self, slot):
        if slot.argument is not None:
            return self.names.argument(slot.argument)
        holder = self.object(f"o{slot.holder}")
        if slot.index is not None:
            return f"{holder}[{slot.index}]"
        label, owner = self.label(slot), read_name(slot.owner)
        if self._names(slot.holder).count(slot.field) > 1:
            return f"(({self.names.types.of_class(owner)}) {holder}).{label}"
        return f"{holder}.{label}"

    def label(self, slot):
        """The name of a field; where its class has several of that name, with its type."""
        named = self.names.write(read_name(slot.field))
        return named if slot.kind is None else f"{named}:{self.names.types.of_kind(read_kind(slot.kind))}"

    def _names(self, number):
        """The names of all fields of an object, once for each class that declares one."""
        held = self.path.objects[number]
        layout = self.names.classes.layout(held.kind)
        if layout is not None:
            return [name for name, _ in {(field.name, field.owner) for field in layout}]
        slots = [*(slot for slot, _ in self.path.sees), *(slot for slot, _ in self.path.sets.values())]
        return [name for name, _ in {(slot.field, slot.owner) for slot in slots if slot.holder == number}]

    def object(self, key):
        """The name of an object of the picture: the way by which it was found, or its number."""
        if key not in self._written:
            origin = self.path.objects[int(key[1:])].origin
            self._written[key] = key if self._fields(origin) >= MOST_FIELDS else self.slot(origin)
        return self._written[key]

    def _fields(self, slot):
        """How many fields and elements lead to what the slot holds."""
        count = 0
        while slot.holder is not None:
            count += 1
            slot = self.path.objects[slot.holder].origin
        return count

    def location(self, key):
        """The name of a location: its slot."""
        return self.slot(self._first[key])

    def variable(self, key):
        """The name of a variable: its slot."""
        return self.slot(self.variable_slot(key))

    def variable_slot(self, key):
        return self._first[key]

    def kind(self, slot):
        """The declared type of a slot, or None where its class is not there."""
        if slot.argument is not None:
            return self.names.argument_kind(slot.argument)
        held = self.path.objects[slot.holder]
        if slot.index is not None:
            return read_kind(held.kind)[1:]
        for field in self.names.classes.layout(held.kind) or []:
            if slot.text == f"o{slot.holder}.{field.key}":
                return field.kind
        return read_kind(slot.kind) if slot.kind else None

    def is_boolean(self, key):
        """Whether a variable is that of a boolean slot."""
        return self.kind(self.variable_slot(key)) == "Z"
