"""The input that a path carries: what its slots hold, and whether the path's conditions hold of it."""

from .conditions import conditions_of
from .forms import is_object, read_int
from .terms import Values


class Input:
    """The input of a path, with the classes of its objects."""

    def __init__(self, path, classes):
        self.path, self.classes = path, classes
        self._places = {}

    @property
    def is_known(self):
        """Whether the classes of all its objects are there."""
        return all(self.classes.layout(kind) is not None for kind, _ in self.path.inputs if not kind.startswith("["))

    def keys(self, number):
        """The slots of object N behind `oN`, in the order of its values."""
        kind, values = self.path.inputs[number]
        if kind.startswith("["):
            return [f"[{index}]" for index in range(len(values))]
        return ["." + field.key for field in self.classes.layout(kind) or []]

    def value(self, slot):
        """What the slot of the picture holds."""
        if slot.argument is not None:
            return self.path.arguments[slot.argument]
        if slot.holder not in self._places:
            self._places[slot.holder] = dict(zip(self.keys(slot.holder), self.path.inputs[slot.holder][1]))
        return self._places[slot.holder][slot.text[len(f"o{slot.holder}") :]]

    def values(self):
        """The values of the path's terms."""
        variables = [read_int(self.value(slot)) for slot, seen in self.path.sees if seen.startswith("v")]
        return Values(self.path.terms, variables)

    def place(self, key):
        """The object of the input that an object or a location of the picture is."""
        if is_object(key):
            return f"i{key[1:]}"
        return next(self.value(slot) for slot, seen in self.path.sees if seen == key)

    def out(self, out, values):
        """A value that the path states, of this input: an int, `null`, `iN`, `sN` or `nN`."""
        if out[0] in "ol":
            return self.place(out)
        if out == "null" or out[0] in "sn":
            return out
        return str(values.of(out))

    def meets(self, condition, values):
        """Whether the condition is true of this input."""
        return getattr(self, f"_{condition.sort}")(condition, values)

    def meets_all(self):
        values = self.values()
        return all(self.meets(condition, values) for condition in conditions_of(self.path))

    def _null(self, condition, _):
        return self.value(condition.slot) == "null"

    def _some(self, condition, _):
        return self.value(condition.slot) not in ("null", *map(self.place, condition.others))

    def _same(self, condition, _):
        return self.value(condition.slot) == self.place(condition.value)

    def _type(self, condition, _):
        held = self.value(condition.slot)
        if held == "null" or held in map(self.place, condition.others):
            return False
        return self.path.inputs[int(held[1:])][0] == condition.value

    def _length(self, condition, values):
        if not self._type(condition, values):
            return False
        length = len(self.path.inputs[int(self.value(condition.slot)[1:])][1])
        return length > condition.length if condition.above else length == condition.length

    def _term(self, condition, values):
        return bool(values.of(f"t{condition.value}")) == condition.truth
