"""The sentence that says what a path does, and what a cut path means."""

from .forms import is_object

# What each bound is the greatest of, and the option that raises it.
BOUND_WORDS = {
    "k": "objects of the input lie deeper than",
    "array": "an array of the input is longer than",
    "alloc": "the run makes an array that is longer than",
    "loops": "a frame jumps back more often than",
    "depth": "more calls stand on one another than",
    "steps": "the run carries out more instructions than",
}
ENDLESS = ("loops", "steps", "depth")


def ending(path, report, writer):
    """How a path ends."""
    if path.ending == "returns":
        return f"returns {writer.value(path.value, report.result)}" if path.value else "returns"
    if path.ending == "throws":
        return f"throws {thrown(path, writer)}"
    if path.ending == "illtyped":
        return "is ill-typed"
    if path.ending == "cut":
        return f"cut by {path.value}"
    return path.ending


def thrown(path, writer):
    """What is thrown: the class of a made object, or the object and its class."""
    kind = thrown_kind(path)
    if kind is None:
        return writer.value(path.value, None)
    named = writer.types.of_exact(kind)
    return named if path.value[0] == "n" else f"{writer.value(path.value, None)}, a {named}"


def thrown_kind(path):
    """The exact type of what is thrown, or None where it is not known."""
    if path.value[0] == "n":
        return path.made[int(path.value[1:])][0]
    return path.objects[int(path.value[1:])].kind if path.value[0] == "o" else None


def cut_words(path, report):
    """Why a path is cut, and the option that raises the bound."""
    bound = path.value
    return f"{BOUND_WORDS[bound]} {bound} = {report.limits[bound]}; --{bound} raises it"


def ring(path):
    """The slot that closes a ring of slots that were read, and the object that it holds, or None."""
    for slot, seen in path.sees:
        seen = path.resolved(seen)
        if slot.holder is None or not is_object(seen) or path.objects[int(seen[1:])].origin == slot:
            continue
        if leads(path, seen, f"o{slot.holder}"):
            return slot, seen
    return None


def leads(path, start, end):
    """Whether slots that were read lead from one object of the picture to the other."""
    seen, waiting = {start}, [start]
    while waiting:
        here = waiting.pop()
        if here == end:
            return True
        for slot, held in path.sees:
            held = path.resolved(held)
            if slot.holder is not None and f"o{slot.holder}" == here and held not in seen:
                seen.add(held)
                waiting.append(held)
    return False


def ring_words(path, names):
    """That a cut path may never end, or nothing."""
    found = ring(path) if path.ending == "cut" and path.value in ENDLESS else None
    if found is None:
        return None
    slot, held = found
    return f"the heap is a ring ({names.slot(slot)} == {names.object(held)}): the method may never end on it"
