"""What a method needs: the class files that its exploration or its run asks for, and the slots that it may read.

What is reached is told as in docs/REFUSALS.md; a class that is not known names nothing further.
"""

from .class_file import STATIC, Unfit
from .instructions import CALLS, CLASS_USES, FIELD_ACCESSES, SELECTING, SPECIAL, entry_of, instructions
from .names import class_of_entry, class_of_type
from .world import BOUNDLESS, World, parameter_types

CODE = "the code"


class Needs:
    """The classes that methods need, of those that are given and of those that lie in places.

    `given` are all given classes, which count as needed; `offered` are those of places, of which classes are taken as they
    are needed. `taken` says of each that was taken why: CODE, or the name of the class below which it stands. `reached` are the
    methods that are carried out, each with its class file, and `fields` the slots that they access. `_calls` are the calls that
    select, and `_receivers` the classes that an object may be of, both by the name of a class that these name or stand below.
    """

    def __init__(self, given, offered=()):
        self.world = World()
        self.given = [known for known in given if self.world.add(known)]
        self.offered = [known for known in offered if self.world.add(known)]
        self.is_offered = {known.name for known in self.offered}
        self.taken = {}
        self.fields = {}
        self._below = {}
        self._roots = set()
        self._calls, self._receivers = {}, {}
        self.reached = []
        self._seen = set()
        self._waiting = []
        self._note_below()
        for known in self.given:
            self._come(known, CODE)

    def _note_below(self):
        """Which classes name a class as a superclass or interface."""
        for known in [*self.given, *self.offered]:
            for above in known.above:
                self._below.setdefault(above, []).append(known.name)

    def add_target(self, owner, method):
        """A method that is explored or run, with all that it reaches."""
        self.need(owner, CODE)
        if not method.access & STATIC:
            self.look_below(owner)
        for kind in parameter_types(method):
            self.need_type(kind)
        self.reach(owner, method)
        self.finish()

    def need(self, name, why):
        """The class is needed, with all that it stands below."""
        if name in self.is_offered and name not in self.taken:
            self.taken[name] = why
            self._come(self.world.get(name), why)

    def _come(self, known, why):
        """The class is among those that count: calls may select its methods."""
        for above in known.above:
            self.need(above, why)
        if not known.is_concrete:
            return
        for above in self.world.supertypes(known.name):
            self._receivers.setdefault(above, []).append(known.name)
            for name, kind in list(self._calls.get(above, ())):
                self._select(known.name, name, kind)

    def need_type(self, kind):
        """A declared type of a slot: its class, and all that stand below it."""
        named = class_of_type(kind)
        if named:
            self.need(named, CODE)
            self.look_below(named)

    def look_below(self, name):
        """All classes below that class are needed, but for the classes below which each one stands."""
        if name in BOUNDLESS or name in self._roots:
            return
        self._roots.add(name)
        waiting, seen = [name], {name}
        while waiting:
            for below in self._below.get(waiting.pop(), ()):
                if below not in seen:
                    seen.add(below)
                    waiting.append(below)
                    self.need(below, name)

    def reach(self, owner, method):
        """The method is carried out."""
        if method.code and id(method) not in self._seen:
            self._seen.add(id(method))
            self.reached.append((self.world.get(owner).file, method))
            self._waiting.append((owner, method))

    def finish(self):
        """Looks at the code of all methods that are reached."""
        while self._waiting:
            owner, method = self._waiting.pop(0)
            file = self.world.get(owner).file
            for at, opcode in instructions(method.code.bytes):
                try:
                    self._look(owner, file, method.code.bytes, at, opcode)
                except Unfit:
                    continue

    def _look(self, owner, file, code, at, opcode):
        if opcode in CLASS_USES:
            self.need(class_of_entry(file.class_name(entry_of(code, at))), CODE)
        elif opcode in FIELD_ACCESSES:
            self._access(*file.member(entry_of(code, at)))
        elif opcode in CALLS:
            self._call(opcode, owner, *file.member(entry_of(code, at)))

    def _access(self, named, name, kind):
        self.need(class_of_entry(named), CODE)
        found = self.world.find_field(named, name, kind)
        if found:
            self.fields.setdefault((found[0].name, name, kind), None)
            self.need_type(kind)

    def _call(self, opcode, owner, named, name, kind):
        self.need(class_of_entry(named), CODE)
        if opcode in SELECTING:
            self._call_selected(named, name, kind)
            return
        start = named
        if opcode == SPECIAL and name != "<init>" and self._is_superclass(named, owner):
            start = self.world.get(owner).parent
        found = self.world.find_method(start, name, kind)
        if found:
            self.reach(found[0].name, found[1])

    def _is_superclass(self, named, owner):
        return named != owner and any(known.name == named for known in self.world.superclasses(owner))

    def _call_selected(self, named, name, kind):
        calls = self._calls.setdefault(named, {})
        if named.startswith("[") or (name, kind) in calls:
            return
        calls[(name, kind)] = None
        self.look_below(named)
        for receiver in list(self._receivers.get(named, ())):
            self._select(receiver, name, kind)

    def _select(self, receiver, name, kind):
        found = self.world.select(receiver, name, kind)
        if found:
            self.reach(found[0].name, found[1])

