"""Arrays, casts and literals, after The Java Virtual Machine Specification, Java SE 8 Edition, section 6.5, and after what
docs/INSTRUCTIONS.md says of this project's own rules."""

from dataclasses import replace

from calls import type_named
from classes import is_reference
from states import IllTyped
from texts import NULL

LOADS, STORES = ("iaload", "baload", "aaload"), ("iastore", "bastore", "aastore")
# the type of the elements that an instruction takes, where it takes one
ELEMENTS = {"i": "I", "b": "Z"}
PRIMITIVES = {4: "Z", 10: "I"}
ARRAYS = (*LOADS, *STORES, "arraylength", "newarray", "anewarray")


def is_taken(name, exact):
    """Whether the array instruction takes objects of that exact type."""
    return exact.startswith("[") and (is_reference(exact[1:]) if name[0] == "a" else exact[1:] == ELEMENTS[name[0]])


class Arrays:
    """The steps on arrays, and those on the types of objects. An index and a length are chosen."""

    def kinds_taken(self, name):
        """The kinds of what a load or a store takes, the top one first."""
        return ("r" if name[0] == "a" else "i") * (name in STORES) + "ir"

    def accessed(self, state):
        """The name of the next instruction, its array and its index, where it takes an element of an array that it may take."""
        found = self.next_of(state)
        if not found or found.name not in LOADS + STORES:
            return None
        try:
            (*_, (_, index), array), _ = self.popped(state, self.kinds_taken(found.name))
        except IllTyped:
            return None
        if array == NULL or not is_taken(found.name, self.exact_type(state, array)):
            return None
        return found.name, array, index

    def unread_element(self, state):
        """The element that the next instruction reads for the first time, behind the choice of its index, and its type."""
        access = self.accessed(state) if state.chosen is not None else None
        if not access or access[0] not in LOADS or access[1][0] != "o":
            return None
        number = access[1][1]
        return None if state.cells[number][state.chosen] else ((number, state.chosen), state.objects[number][0][1:])

    def length(self, state, array):
        return len(state.made[array[1]][1]) if array[0] == "n" else state.objects[array[1]][1]

    def array_choices(self, state):
        """The ways on where an index or a length is chosen, or None."""
        access = self.accessed(state)
        if access:
            _, array, index = access
            count = self.length(state, array)
            ways = [(("index", place), [("eq", index, ("int", place), True)]) for place in range(count)]
            return ways + [(("outside",), [("ult", index, ("int", count), False)] if count else [])]
        found, stack = self.next_of(state), state.frame.stack
        if not found or found.name not in ("newarray", "anewarray") or not stack or stack[0][0] != "t":
            return None
        length, most = stack[0][1], self.bounds["alloc"]
        ways = [(("size", count), [("eq", length, ("int", count), True)]) for count in range(most + 1)]
        above = [("lt", length, ("int", 0), False), ("lt", ("int", most), length, True)]
        return [(("negative",), [("lt", length, ("int", 0), True)]), *ways, (("too large",), above)]

    def array_step(self, state, name, words, way):
        if name == "arraylength":
            (array,), rest = self.popped(state, "r")
            if array == NULL:
                return self.throws(state, "java/lang/NullPointerException")
            if not self.exact_type(state, array).startswith("["):
                raise IllTyped
            return self.goes(state, (("t", self.pool.number(self.length(state, array))), *rest))
        if name in ("newarray", "anewarray"):
            return self.array_made(state, name, words, way)
        return self.element_accessed(state, name, way)

    def array_made(self, state, name, words, way):
        _, rest = self.popped(state, "i")
        if way == ("negative",):
            return self.throws(state, "java/lang/NegativeArraySizeException")
        if way == ("too large",):
            return ("cut", "alloc"), state
        component = PRIMITIVES[words[0]] if name == "newarray" else type_named(state.frame.method.file.class_name(words[0]))
        told, after = self.goes(state, (("n", len(state.made)), *rest))
        zero = ("t", self.pool.number(0))
        values = (NULL if is_reference(component) else zero,) * way[1]
        return told, replace(after, made=after.made + ((f"[{component}", values),))

    def element_accessed(self, state, name, way):
        (*values, _, array), rest = self.popped(state, self.kinds_taken(name))
        if array == NULL:
            return self.throws(state, "java/lang/NullPointerException")
        exact = self.exact_type(state, array)
        if not is_taken(name, exact):
            raise IllTyped
        if way == ("outside",):
            return self.throws(state, "java/lang/ArrayIndexOutOfBoundsException")
        if name in LOADS:
            return self.goes(state, (self.held(state, array, state.chosen), *rest))
        (value,) = values
        if name == "aastore" and value != NULL and not self.world.fits(self.exact_type(state, value), exact[1:]):
            return self.throws(state, "java/lang/ArrayStoreException")
        told, after = self.goes(state, rest)
        return told, self.written(after, array, state.chosen, self.kept(value, exact[1:]))

    def type_tested(self, state, name, words):
        """checkcast, which lets null pass, or instanceof, which does not."""
        (value,), rest = self.popped(state, "r")
        high = type_named(state.frame.method.file.class_name(words[0]))
        fits = value != NULL and self.world.fits(self.exact_type(state, value), high)
        if name == "instanceof":
            return self.goes(state, (("t", self.pool.number(int(fits))), *rest))
        if not fits and value != NULL:
            return self.throws(state, "java/lang/ClassCastException")
        return self.goes(state, state.frame.stack)

    def literal(self, state, entry):
        return ("s", self.world.literals.index(state.frame.method.file.literal(entry)))
