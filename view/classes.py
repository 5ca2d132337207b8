"""The class files beside a report: the slots of classes, and what else is asked of them. Names are spelled as in the report."""

from typing import NamedTuple

from script.class_file import STATIC
from script.handing import method_of
from script.names import spelled, spelled_type
from script.places import Finder, Source, is_regular, read_file
from script.say import Fault
from script.slips import unread
from script.world import World

from .forms import read_name


class Field(NamedTuple):
    """A slot of a class: the class that declares it, its name, its descriptor, and its spelling behind `oN.`."""

    owner: str
    name: str
    kind: str
    key: str


class Classes:
    """The classes of class files, folders and jars; of one name the first counts, those named singly before all others."""

    def __init__(self, words=()):
        self.world = World()
        self._layouts, self._fitting = {}, {}
        words, finder = list(words), Finder()
        parts = [finder.part(word) for word in words]
        singles = [
            single or read_singly(word) for word, (single, place) in zip(words, parts) if not is_place_alone(single, place)
        ]
        for source in singles:
            check_whole(source)
        for source in [*singles, *(source for _, place in parts if place for source in place.sources)]:
            self.world.add(source.known())
        self.faults = finder.faults

    def known(self, name):
        """The class of that name, or None. It is read whole."""
        name = read_name(name)
        known = self.world.get(name) if name else None
        if known is not None and known.source is not None:
            check_whole(known.source)
        return known

    def layout(self, kind):
        """The slots of an object of that exact type, those of superclasses first; None where a class is not there."""
        if kind not in self._layouts:
            self._layouts[kind] = self._lay_out(kind)
        return self._layouts[kind]

    def _lay_out(self, kind):
        chain, known = [], self.known(kind)
        while known is not None and known not in chain:
            chain.append(known)
            if known.parent is None:
                return [field for each in reversed(chain) for field in fields_of(each)]
            known = self.known(spelled(known.parent))
        return None

    def method(self, report):
        """The method of the report, or None."""
        known = self.known(spelled(report.owner))
        return method_of(known, report.method, report.descriptor) if known and known.file else None

    def source(self, report):
        """The file that the report's class was compiled of, or None."""
        known = self.known(spelled(report.owner))
        return known.file.source if known and known.file else None

    def fitting(self, kind):
        """How many classes that objects may be of stand in a slot of that declared type, one more for other types."""
        if kind not in self._fitting:
            name = kind[1:-1] if kind.startswith("L") else None
            known = self.world.classes.items()
            self._fitting[kind] = (
                sum(each.is_concrete and self.world.is_below(other, name) for other, each in known) if name else 1
            )
        return self._fitting[kind]

    def is_below(self, name, above):
        """Whether the one class is the other or below it."""
        return self.world.is_below(read_name(name), read_name(above))


def is_place_alone(single, place):
    return single is None and place is not None and place.kind != "beside"


def read_singly(word):
    """The class file of a word that is no regular file, as a pipe, or the end."""
    try:
        if not is_regular(word):
            return Source(word, read_file(word), word)
        open(word, "rb").close()
    except OSError as error:
        raise unread(word, error) from error
    raise Fault(6, f"cannot read {word}")


def check_whole(source):
    """The class file can be read as one, or the end."""
    file = source.file
    if file.is_class_file:
        file.read_whole()
    if file.stopped is not None or not file.is_class_file:
        raise Fault(3, f"cannot read {source.shown} as a class file: byte {file.stopped or 0} does not fit")


def has_slot(field):
    """Whether a field is a slot: of an object, and of int, boolean or a reference."""
    return not field.access & STATIC and field.kind[:1] in ("I", "Z", "L", "[")


def fields_of(known):
    """The slots that a class declares."""
    declared = known.file.fields if known.file else []
    names = [field.name for field in declared]
    owner, found = spelled(known.name), []
    for field in filter(has_slot, declared):
        several = f":{spelled_type(field.kind)}" if names.count(field.name) > 1 else ""
        found.append(Field(owner, spelled(field.name), field.kind, f"{owner}.{spelled(field.name)}{several}"))
    return found
