"""The conditions of a path, as its lines say them: of slots in the order of reading, then of terms."""

from .forms import is_object


class Condition:
    """What a slot holds or a term is. `sort` is null, some, same, type, length or term.

    `value` is the object of a slot that is the same, the exact type of a new object, or the number of a term. `others` are the
    objects that are found before, each another one than a new object.
    """

    def __init__(self, sort, slot=None, value=None, **more):
        self.sort, self.slot, self.value = sort, slot, value
        self.others = more.get("others", ())
        self.length, self.above = more.get("length"), more.get("above", False)
        self.truth = more.get("truth", True)


def conditions_of(path):
    """All conditions of a path."""
    found = [condition for slot, seen in path.sees for condition in of_slot(path, slot, path.resolved(seen))]
    return found + [Condition("term", value=number, truth=truth) for number, truth in path.conditions]


def of_slot(path, slot, seen):
    """The conditions of a slot that was read."""
    if seen.startswith("v"):
        return []
    if seen == "null":
        return [Condition("null", slot)]
    if not is_object(seen):
        return [Condition("some", slot, others=() if is_open(path, seen) else found_before(path, len(path.objects)))]
    held = path.objects[int(seen[1:])]
    if held.origin != slot:
        return [Condition("same", slot, seen)]
    others = found_before(path, int(seen[1:]))
    if held.length is not None:
        return [Condition("length", slot, held.kind, length=held.length, above=held.above, others=others)]
    return [Condition("type", slot, held.kind, others=others)]


def is_open(path, seen):
    return seen.startswith("l") and path.standings[int(seen[1:])] == "open"


def found_before(path, number):
    """The objects with lower numbers."""
    return [f"o{each}" for each in range(min(number, len(path.objects)))]
