"""The marks of a heap: what a reader should look at. None of them is said to be a fault."""

from .forms import read_numbered

# Each mark with its sign and what it says, in the order of the legend.
UNREAD, CHANGED, OVERWRITTEN, LOST, ASIDE, OPEN, BEYOND = "unread", "changed", "overwritten", "lost", "aside", "open", "beyond"
LEGEND = {
    UNREAD: ("?", "a slot that was not read"),
    CHANGED: ("*", "a slot whose value changed"),
    OVERWRITTEN: ("!", "a slot that was written and never read: what it held is unknown and may be lost"),
    LOST: ("lost", "an object that nothing read or written leads to from arguments, receiver and result any more"),
    ASIDE: ("aside", "an object that the returned object does not lead to"),
    OPEN: ("open", "an object of which nothing is known; it may also be one of the other objects"),
    BEYOND: ("beyond", "an object that lies deeper than --k follows"),
}
# Signs of a whole path, which stand beside its sentence; that of a ring is of its slots, the others are marks of its heap.
RING = "ring"
SIGNS = {
    RING: ("ring", "slots that were read form a ring, on which the method may never end"),
    OVERWRITTEN: LEGEND[OVERWRITTEN],
    LOST: LEGEND[LOST],
}


def cell_mark(cell):
    """The mark of a slot after the run, or None."""
    if cell.before == "?":
        return OVERWRITTEN if cell.written else UNREAD
    return CHANGED if cell.before is not None and cell.before != cell.after else None


def thing_marks(heap):
    """By the key of each object its marks after the run, where it has some."""
    marks = {thing.key: [thing.sort] for thing in heap.things if thing.sort in (OPEN, BEYOND)}
    if not heap.path.has_ended:
        return marks
    returned = heap.result if heap.path.ending == "returns" else None
    roots = [cell.after for cell in heap.arguments] + ([heap.result] if heap.result else [])
    led = reached(heap, roots)
    from_result = reached(heap, [returned]) if returned in heap.by_key else None
    for thing in heap.things:
        if thing.key not in led:
            marks.setdefault(thing.key, []).append(LOST)
        elif from_result is not None and thing.key not in from_result:
            marks.setdefault(thing.key, []).append(ASIDE)
    return marks


def reached(heap, roots):
    """The keys of the objects to which these lead by what slots hold after the run."""
    waiting = [key for key in roots if key in heap.by_key]
    seen = set(waiting)
    while waiting:
        for cell in heap.by_key[waiting.pop()].cells:
            if cell.after in heap.by_key and cell.after not in seen:
                seen.add(cell.after)
                waiting.append(cell.after)
    return seen


def is_reference(text):
    """Whether a cell leads to an object."""
    return text is not None and (text.startswith("beyond:") or read_numbered(text, "oln") is not None)
