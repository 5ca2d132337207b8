"""Warnings and notes: where a report would be narrower than it looks, and where many classes are tried."""

import os

from .class_file import STATIC, argument_name
from .names import class_of_type, spelled
from .say import MOST_NAMES, counted, listed
from .world import BOUNDLESS, PLATFORM, PLATFORM_INTERFACES, Universe, parameter_types

# More classes than that are worth a note.
FEW = 4


class Slot:
    """A slot that may be read: what it is called, and its type."""

    def __init__(self, words, kind):
        self.words, self.kind = words, kind


def slots_of(needs, targets):
    """The slots of the parameters, and then those of the fields that reached code accesses."""
    slots = []
    for _, method in targets:
        first = 0 if method.access & STATIC else 1
        for place, kind in enumerate(parameter_types(method), first):
            name = argument_name(method, place)
            slots.append(Slot(f"argument {place}" + (f" ({spelled(name)})" if name else ""), kind))
    return slots + [Slot(f"{spelled(owner)}.{spelled(name)}", kind) for owner, name, kind in needs.fields]


class Given:
    """The classes that are handed on, as far as a report is about them."""

    def __init__(self, handed):
        self.handed = handed
        self.world = handed.needs.world
        sources = {}
        for source in handed.given:
            sources.setdefault(source.name, source)
        self.names = {name for name in sources if name is not None}
        self.classes = [source.known() for name, source in sources.items() if name is not None]
        self._universe = None

    @property
    def universe(self):
        if self._universe is None:
            self._universe = Universe(self.world, self.classes)
        return self._universe

    def has_below(self, name):
        """Whether an object may be of that class or of one below it."""
        if name in PLATFORM:
            return any(self.universe.fitting(name))
        return any(each.is_concrete and self.world.is_below(each.name, name) for each in self.classes)

    def beside(self, name):
        """The path of a class file of that name that lies beside one that is given, or None."""
        for source in self.handed.given:
            path = beside(source, name)
            if path:
                return path
        return None


def beside(source, name):
    """The path at which the class file of that name would lie, by that of another one, if there is a file."""
    if source.path is None or source.name is None:
        return None
    end = source.name + ".class"
    candidates = [os.path.join(os.path.dirname(source.path), name.rpartition("/")[2] + ".class")]
    if source.path == end or source.path.endswith("/" + end):
        candidates.insert(0, source.path[: -len(end)] + name + ".class")
    for path in candidates:
        if os.path.isfile(path) and read_name_of(path) == name:
            return path
    return None


def read_name_of(path):
    """The name of the class of a class file, or None."""
    from .places import read_single

    source = read_single(path)
    return source.name if source else None


def warning(given, slot):
    """What is to be said of a slot that can only be null, or None."""
    named = class_of_type(slot.kind)
    if named is None or named in PLATFORM and named not in PLATFORM_INTERFACES:
        return None
    if named not in given.names and named not in PLATFORM:
        path = given.beside(named)
        found = f"; it lies in {path}" if path else ""
        return f"warning: class {spelled(named)} is not given, so {slot.words} can only be null{found}"
    if slot.kind.startswith("L") and not given.has_below(named):
        return f"warning: no class below {spelled(named)} is given, so {slot.words} can only be null"
    return None


def note(given, slot):
    """What is to be said of a slot that may hold many classes, or None."""
    named = slot.kind[1:-1] if slot.kind.startswith("L") else None
    if named not in BOUNDLESS:
        return None
    classes, arrays = given.universe.fitting(named)
    if len(classes) + len(arrays) <= FEW and not given.handed.looked_into:
        return None
    kinds = counted(len(classes), "class", "classes")
    kinds += f" and {counted(len(arrays), 'array type', 'array types')}" if arrays else ""
    names = [*map(spelled, classes), *arrays]
    return f"note: {slot.words} may hold each of {kinds}: {listed(names) if names else 'none'}"


def remarks(handed):
    """The lines to be written before an exploration: warnings, and then notes; at most eight, and how many more."""
    given = Given(handed)
    lines = []
    for known, method in handed.targets:
        if not method.access & STATIC and not given.has_below(known.name):
            lines.append(f"warning: no class below {spelled(known.name)} is given, so there is no receiver and no path")
    slots = slots_of(handed.needs, handed.targets)
    for about in (warning, note):
        for slot in slots:
            line = about(given, slot)
            if line and line not in lines:
                lines.append(line)
    more = len(lines) - MOST_NAMES
    return lines[:MOST_NAMES] + ([f"and {more} more"] if more > 0 else [])
