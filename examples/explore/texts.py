"""The texts of paths: the blocks of a report, the inputs that they carry, their tests, and diagrams, after docs/USING.md."""

import re
from dataclasses import dataclass

from asked import is_log_of
from classes import is_reference

NULL = ("null",)


def escaped(name):
    """A name, each byte of which that is none of its signs is spelled in base 16."""
    return "".join(byte if byte.isascii() and byte.isalnum() or byte in "_$/<>-" else f"%{ord(byte):02X}" for byte in name)


def descriptor_text(descriptor):
    """A descriptor, with the names in it escaped."""
    return re.sub(r"L([^;]*);", lambda found: f"L{escaped(found[1])};", descriptor)


def type_text(name):
    """A class, or the descriptor of an array."""
    return descriptor_text(name) if name.startswith("[") else escaped(name)


def unread(kind):
    """What a slot of an input holds that was not read."""
    return "null" if is_reference(kind) else "0"


@dataclass
class Leaf:
    """A path: the numbers of its alternatives, how it ends, and the state at its end."""

    explorer: object
    decisions: tuple
    outcome: tuple
    state: object

    @property
    def kind(self):
        return self.outcome[0] if self.outcome[0] in ("cut", "undecided", "open") else "ended"

    @property
    def length(self):
        """How many instructions the machine carries out in a run of the path that has ended."""
        return self.state.carried + (self.outcome[0] != "illtyped")

    # -- what is stated

    def written(self):
        cells = [(number, place, cell) for number, row in enumerate(self.state.cells) for place, cell in enumerate(row)]
        return [(number, place, cell[1]) for number, place, cell in cells if cell and cell[0] == "written"]

    def order(self):
        """The terms of the text, with their numbers."""
        roots = [term for term, _ in self.state.when]
        if self.kind == "ended":
            made = [value for _, values in self.state.made for value in values]
            values = [*self.outcome[1:], *(value for *_, value in self.written()), *made]
            roots += [value[1] for value in values if isinstance(value, tuple) and value[0] == "t"]
        return self.explorer.pool.walked(roots)

    def block(self, found):
        """The lines of a report, where the variables of the input have these values; of an undecided path, with this log."""
        state, pool, world, order = self.state, self.explorer.pool, self.explorer.world, self.order()
        lines = [f"path {self.decisions_text()}"]
        lines += [f"see {self.slot_text(slot)} {shown}" for slot, _, shown in state.seen]
        for number, (name, length, slot) in enumerate(state.objects):
            size = {None: "", "above": f" above {self.explorer.bounds['array']}"}.get(length, f" length {length}")
            lines.append(f"obj o{number} {type_text(name)}{size} {self.slot_text(slot)}")
        for term, number in order.items():
            op, *operands = pool.nodes[term]
            lines.append(" ".join([f"let t{number}", op, *(self.operand(operand, order) for operand in operands)]))
        lines += [f"when {'' if truth else 'not '}t{order[term]}" for term, truth in state.when]
        lines.append(self.leaf_line(order))
        if self.kind in ("open", "undecided"):
            return lines + (found if self.kind == "undecided" else [])
        if self.kind == "ended":
            written = [((number, place), value) for number, place, value in self.written()]
            lines += [f"set {self.slot_text(slot)} {self.out_text(value, order)}" for slot, value in written]
            lines += self.made_lines(lambda value: self.out_text(value, order))
        return lines + self.input_lines(found)

    def decisions_text(self):
        return ".".join(map(str, self.decisions)) or "-"

    def leaf_line(self, order):
        """The first line of the leaf."""
        if self.kind == "open":
            return "open"
        if self.kind == "undecided":
            return f"undecided {self.explorer.bounds['budget']}"
        return self.ending_text(lambda value: self.out_text(value, order))

    def slot_text(self, slot):
        if slot[0] == "a":
            return f"a{slot[1]}"
        world, exact = self.explorer.world, self.state.objects[slot[0]][0]
        if exact.startswith("["):
            return f"o{slot[0]}[{slot[1]}]"
        owner, name, kind = world.slots(exact)[slot[1]]
        told = f":{descriptor_text(kind)}" if world.is_told_by_kind(owner, name) else ""
        return f"o{slot[0]}.{escaped(owner)}.{escaped(name)}{told}"

    def operand(self, term, order):
        node = self.explorer.pool.nodes[term]
        return f"v{node[1]}" if node[0] == "var" else str(node[0]) if isinstance(node[0], int) else f"t{order[term]}"

    def out_text(self, value, order):
        return self.operand(value[1], order) if value[0] == "t" else "null" if value == NULL else f"{value[0]}{value[1]}"

    def ending_text(self, told):
        return " ".join(part if isinstance(part, str) else told(part) for part in self.outcome)

    def made_lines(self, told):
        for number, (name, values) in enumerate(self.state.made):
            yield " ".join([f"new n{number} {type_text(name)}", *map(told, values)])

    # -- the input that the path carries, and its test

    def input_objects(self):
        """The types of the input's objects, and the values of each, as they are at first: names of variables, or texts."""
        world, state = self.explorer.world, self.state
        own = [kind for _, kind, shown in state.seen if shown == "beyond"]
        types = [(name, self.input_length(length)) for name, length, _ in state.objects]
        for kind in own:
            name = next(name for name in world.universe if world.fits(name, kind))
            types.append((name, 0 if name.startswith("[") else None))
        return [(name, [unread(kind) for kind in self.element_kinds(name, length)]) for name, length in types]

    def input_length(self, length):
        return self.explorer.bounds["array"] + 1 if length == "above" else length

    def element_kinds(self, name, length):
        return [kind for *_, kind in self.explorer.world.slots(name)] if length is None else [name[1:]] * length

    def first(self, values):
        """The arguments, and the objects of the input with their types and values."""
        objects = self.input_objects()
        args = [unread(kind) for kind in self.explorer.method.parameters]
        beyond = len(self.state.objects)
        for slot, _, shown in self.state.seen:
            if shown == "beyond":
                text, beyond = f"i{beyond}", beyond + 1
            elif shown[0] == "v":
                text = values.get(int(shown[1:]), 0)
            else:
                text = shown.replace("o", "i")
            (args if slot[0] == "a" else objects[slot[0]][1])[slot[1]] = str(text)
        return args, objects

    def input_lines(self, values):
        args, objects = self.first(values)
        lines = [f"arg {value}" for value in args]
        return lines + [" ".join([f"in i{number} {type_text(name)}", *slots]) for number, (name, slots) in enumerate(objects)]

    def test(self, values):
        """The lines of the path's test."""
        explorer, (_, objects) = self.explorer, self.first(values)
        pool, bounds = explorer.pool, explorer.bounds

        def told(value):
            if value[0] == "t":
                return str(pool.value(value[1], values))
            return "null" if value == NULL else f"{value[0].replace('o', 'i')}{value[1]}"

        for number, place, value in self.written():
            objects[number][1][place] = told(value)
        names = " ".join(f"{name} {bounds[name]}" for name in ("alloc", "loops", "depth", "steps"))
        lines = [f"test {explorer.method.target}", f"bounds {names}", *self.input_lines(values), self.ending_text(told)]
        lines += [" ".join([f"out i{number}", *slots]) for number, (_, slots) in enumerate(objects)]
        return [*lines, *self.made_lines(told), "end"]

    # -- the diagram

    def diagram(self):
        """The lines of the path's diagram."""
        order = self.order()
        before = {slot: shown for slot, _, shown in self.state.seen}
        lines = [f"diagram {self.decisions_text()}", "before", *self.drawn(before)]
        if self.kind == "ended":
            after = before | {(number, place): self.out_text(value, order) for number, place, value in self.written()}
            lines += ["after", *self.drawn(after), *self.drawn_made(order)]
        return lines + [self.leaf_line(order)]

    def drawn(self, held):
        """A line for each object of the picture, where the slots hold that."""
        for number, (name, length, _) in enumerate(self.state.objects):
            cells = [f"{slot}={held.get((number, place), '?')}" for place, slot in enumerate(self.slot_names(name, length))]
            yield " ".join([f"o{number} {type_text(name)}", *cells])

    def drawn_made(self, order):
        for number, (name, values) in enumerate(self.state.made):
            names = self.slot_names(name, len(values) if name.startswith("[") else None)
            cells = [f"{slot}={self.out_text(value, order)}" for slot, value in zip(names, values, strict=True)]
            yield " ".join([f"n{number} {type_text(name)}", *cells])

    def slot_names(self, name, length):
        """The names of fields, or the indices of an array whose length is known."""
        if length is None:
            return [escaped(field) for _, field, _ in self.explorer.world.slots(name)]
        return [] if length == "above" else range(length)

    # -- what a solver has chosen

    def found_in(self, lines):
        """What the lines of a report or of a test have of the solver: the values of the variables, or the log of an undecided path,
        which must be one entry for each unit of the budget, and fresh."""
        if self.kind == "open":
            return {}
        if self.kind != "undecided":
            return self.values_of([line for line in lines if line.startswith(("arg ", "in "))])
        log = [line for line in lines if line.startswith("learn ")]
        assert len(log) == self.explorer.bounds["budget"] and is_log_of(self.explorer.pool, self.state.when, log), log
        return log

    def values_of(self, lines):
        """The values of the variables in the lines of an input, which must be one that the path carries."""
        names = self.input_lines({number: f"v{number}" for number in range(len(self.state.kinds))})
        assert len(names) == len(lines), (names, lines)
        values = {}
        for named, line in zip(names, lines):
            for name, word in zip(named.split(" "), line.split(" "), strict=True):
                if re.fullmatch(r"v\d+", name):
                    values[int(name[1:])] = int(word)
        asked = {}
        for term, _ in self.state.when:
            asked |= self.explorer.pool.variables(term)
        for number, value in values.items():
            assert number in asked or value == 0, f"v{number} is in no condition, and {value}"
            assert -(2**31) <= value < 2**31 and (self.state.kinds[number] == "I" or value in (0, 1)), f"v{number} is {value}"
        assert self.explorer.pool.met(self.state.when, values), f"the conditions of {lines} do not hold"
        return values


def report_head(target, bounds):
    words = [f"{name} {bounds[name]}" for name in ("k", "array", "alloc", "loops", "depth", "steps", "paths", "budget")]
    return ["kiasan report 1", f"target {target}", f"init lazy {' '.join(words)}"]


def report_end(leaves):
    counts = [f"{kind} {sum(leaf.kind == kind for leaf in leaves)}" for kind in ("ended", "cut", "undecided", "open")]
    return " ".join([f"total {len(leaves)}", *counts])


def status_of(leaves):
    """1 where a path is undecided or open, else 0."""
    return f"status {int(any(leaf.kind in ('undecided', 'open') for leaf in leaves))}"
