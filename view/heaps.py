"""The heap of a path, before and after: its objects, each with its slots, and what is held there."""

from .forms import read_slot
from .names import read_kind


class Cell:
    """A slot. `before` and `after` are what it holds, as the report spells it, `?` where it was not read; `kind` its type."""

    def __init__(self, key, label, before, after, written=False, kind=None):
        self.key, self.label, self.before, self.after, self.written = key, label, before, after, written
        self.kind = kind


class Thing:
    """An object of a heap: `sort` is picture, made, open or beyond. `key` is its name in the report, or its slot if beyond."""

    def __init__(self, key, sort, kind=None, cells=(), length=None, above=False):
        self.key, self.sort, self.kind, self.cells = key, sort, kind, list(cells)
        self.length, self.above = length, above
        self.number = None


class Heap:
    """All objects of a path, the arguments that lead to them, and what is returned or thrown."""

    def __init__(self, path, names):
        self.path, self.names = path, names
        self.things = [self._picture(number) for number in range(len(path.objects))]
        self.things += [self._new(number) for number in range(len(path.made))]
        self.things += [self._other(slot, seen) for slot, seen in path.extras()]
        self.by_key = {thing.key: thing for thing in self.things}
        for number, thing in enumerate(self.things):
            thing.number = number
        count = len(names.names.report.parameters) + names.names.has_receiver
        self.arguments = [self._argument(number) for number in range(count)]
        self.result = path.value if path.ending in ("returns", "throws") else None

    def _argument(self, number):
        held = self.held(f"a{number}")
        kind = self.names.names.argument_kind(number)
        return Cell(f"a{number}", self.names.names.argument(number), held, held, kind=kind)

    def held(self, text):
        """What a slot of the picture holds before: what was seen there, or `?`."""
        seen = self.path.seen.get(text)
        if seen is None:
            return "?"
        return f"beyond:{text}" if seen == "beyond" else self._resolved(seen)

    def _resolved(self, seen):
        return self.path.resolved(seen)

    def _other(self, slot, seen):
        """What an open location is, or what lies beyond."""
        if seen == "beyond":
            return Thing(f"beyond:{slot.text}", "beyond")
        return Thing(seen, self.path.standings[int(seen[1:])])

    def _picture(self, number):
        held = self.path.objects[number]
        cells = [] if held.above else [self._cell(slot) for slot in self._slots(number)]
        return Thing(f"o{number}", "picture", held.kind, self._labelled(cells), held.length, held.above)

    def _cell(self, slot):
        before = self.held(slot.text)
        written = self.path.sets.get(slot.text)
        return Cell(slot, None, before, written[1] if written else before, bool(written), self.names.kind(slot))

    def _slots(self, number):
        """The slots of an object of the picture; of a class that is not there those of which the report speaks."""
        held = self.path.objects[number]
        if held.length is not None:
            return [read_slot(f"o{number}[{index}]") for index in range(held.length)]
        layout = self.names.names.classes.layout(held.kind)
        if layout is not None:
            return [read_slot(f"o{number}.{field.key}") for field in layout]
        slots = [*(slot for slot, _ in self.path.sees), *(slot for slot, _ in self.path.sets.values())]
        return list({slot.text: slot for slot in slots if slot.holder == number}.values())

    def _labelled(self, cells):
        """The cells by the names of their slots, with the class where two have one name."""
        labels = [str(cell.key.index) if cell.key.owner is None else self.names.label(cell.key) for cell in cells]
        for cell, label in zip(cells, labels):
            several = labels.count(label) > 1
            owner = self.names.names.types.of_exact(cell.key.owner) + "." if several else ""
            cell.label, cell.key = owner + label, cell.key.text
        return cells

    def _new(self, number):
        kind, outs = self.path.made[number]
        return Thing(f"n{number}", "made", kind, self._made(number), len(outs) if kind.startswith("[") else None)

    def _made(self, number):
        """The slots of an object that the run has made, which it did not have before."""
        kind, outs = self.path.made[number]
        layout = self.names.names.classes.layout(kind) if not kind.startswith("[") else None
        if layout is not None and len(layout) == len(outs):
            slots = [read_slot(f"o{number}.{field.key}") for field in layout]
            return self._labelled(
                [Cell(slot, None, None, out, True, field.kind) for slot, field, out in zip(slots, layout, outs)]
            )
        element = read_kind(kind)[1:] if kind.startswith("[") else None
        return [Cell(f"n{number}[{index}]", str(index), None, out, True, element) for index, out in enumerate(outs)]
