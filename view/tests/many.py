"""A report with many paths, for tests and measurements: lists of nodes that are put into the other order, and classes for it."""

from script.tests.maker import ARETURN, Maker

ALOAD_0 = b"\x2a"


def node(folder):
    """The class file of the nodes."""
    made = Maker("coll/Node").field("elem", "I").field("next", "Lcoll/Node;")
    return made.method("turn", "(Lcoll/Node;)Lcoll/Node;", ALOAD_0 + ARETURN).write(folder)


def many(paths, objects):
    """A report with that many paths, each of a list of that many nodes, whose ints are compared with one another.

    No two paths end with the same heap, as long as there are more heaps than paths.
    """
    lines = [
        "kiasan report 1",
        "target coll/Node.turn(Lcoll/Node;)Lcoll/Node;",
        f"init lazy k 16 array 3 alloc 16 loops 100 depth 16 steps 2000 paths {paths} budget 2",
    ]
    for number in range(paths):
        lines += path(number, objects)
    lines.append(f"total {paths} ended {paths} cut 0 undecided 0 open 0")
    return "".join(f"{line}\n" for line in lines).encode()


def path(number, objects):
    """The lines of one path: a list whose last node leads to null or, where the number is odd, to the first one.

    Behind the run the nodes lead where the digits of the number say.
    """
    last = "o0" if number % 2 else "null"
    nexts = [*(f"o{each + 1}" for each in range(objects - 1)), last]
    places_after = ["null", *(f"o{each}" for each in range(objects))]
    after = [places_after[number // (objects + 1) ** each % (objects + 1)] for each in range(objects)]
    lines = [f"path {number}", "see a0 o0"]
    for each, held in enumerate(nexts):
        lines += [f"see o{each}.coll/Node.elem v{each}", f"see o{each}.coll/Node.next {held}"]
    lines += ["obj o0 coll/Node a0", *(f"obj o{each} coll/Node o{each - 1}.coll/Node.next" for each in range(1, objects))]
    lines += [f"let t{each} lt v{each} v{each + 1}" for each in range(objects - 1)]
    lines += [f"when not t{each}" for each in range(objects - 1)]
    lines += [f"returns o{objects - 1}", *(f"set o{each}.coll/Node.next {held}" for each, held in enumerate(after))]
    places = [held.replace("o", "i") for held in nexts]
    return [*lines, "arg i0", *(f"in i{each} coll/Node 0 {held}" for each, held in enumerate(places))]
