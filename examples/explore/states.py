"""What a run over an unknown input has met.

A value is a tuple: ("t", a term), ("null",), ("o", an object of the picture), ("s", a literal) or ("n", an object that the run has
made). A slot is ("a", an argument), or an object of the picture and the number of its field or element.
"""

from dataclasses import dataclass, field, replace


class IllTyped(Exception):
    """The instruction may not be carried out."""


@dataclass(frozen=True)
class Frame:
    """An activation of a method. The stack has its top first. Before the first instruction it has no locals. A caller stands at
    its call, and its stack no longer has the arguments."""

    method: object
    at: int = 0
    locals: tuple = None
    stack: tuple = ()
    transfers: int = 0


def frame_of(method, args):
    """The first frame of an activation with these arguments, all of which it holds, whatever room the method asks for."""
    return Frame(method, locals=args + (None,) * (method.code.locals - len(args)))


@dataclass(frozen=True)
class State:
    """The frame that goes on and those that wait for it, the last one next. A cell of an object of the picture is None, or a
    value behind "read" or "written". An object that the run has made has its type and its values. Chosen is the index that the
    instruction has at which the frame stands, once it was asked for."""

    frame: Frame
    callers: tuple = ()
    args: tuple = ()
    kinds: tuple = ()
    seen: tuple = ()
    objects: tuple = ()
    cells: tuple = ()
    made: tuple = ()
    when: tuple = ()
    carried: int = 0
    chosen: int = None
    values: dict = field(default_factory=dict)

    def with_frame(self, **changes):
        return replace(self, frame=replace(self.frame, **changes))

    def with_cell(self, number, place, cell):
        return replace(self, cells=changed(self.cells, number, changed(self.cells[number], place, cell)))

    def with_made_value(self, number, place, value):
        name, values = self.made[number]
        return replace(self, made=changed(self.made, number, (name, changed(values, place, value))))


def changed(items, place, item):
    return items[:place] + (item,) + items[place + 1 :]
