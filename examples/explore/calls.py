"""Calls, returns and the making of objects, after The Java Virtual Machine Specification, Java SE 8 Edition, sections 5.4 and
6.5, and after what docs/INSTRUCTIONS.md says of this project's own rules."""

from dataclasses import replace

from classes import STRING, is_reference
from methods import Method, types_of
from states import IllTyped, frame_of
from texts import NULL

CALLS = ("invokevirtual", "invokespecial", "invokestatic", "invokeinterface")


def type_named(name):
    """The type of a class by its name, or of an array by its descriptor."""
    return name if name.startswith("[") else f"L{name};"


class Calls:
    """The steps that lead from frame to frame."""

    def method_of(self, member):
        if member not in self.methods:
            self.methods[member] = Method(member)
        return self.methods[member]

    def exact_type(self, state, value):
        """The class of an object, or the descriptor of an array."""
        if value[0] == "s":
            return STRING
        return (state.objects if value[0] == "o" else state.made)[value[1]][0]

    def called(self, state, how, named):
        parameters, _ = types_of(named[2])
        kinds = "".join("r" if is_reference(kind) else "i" for kind in parameters)
        kinds = kinds if how == "invokestatic" else "r" + kinds
        args, rest = self.popped(state, kinds[::-1])
        args = args[::-1]
        if how != "invokestatic" and args[0] == NULL:
            return self.throws(state, "java/lang/NullPointerException")
        member = self.member_called(state, how, named, args)
        if member and member.is_of_platform:
            return self.called_of_platform(state, member, args, rest)
        if not member or not member.code:
            raise IllTyped
        if 1 + len(state.callers) >= self.bounds["depth"]:
            return ("cut", "depth"), state
        callers = (*state.callers, replace(state.frame, stack=rest))
        frame = frame_of(self.method_of(member), args)
        return ("goes",), replace(state, frame=frame, callers=callers, carried=state.carried + 1)

    def member_called(self, state, how, named, args):
        """The method that the call comes to, or None."""
        owner, name, kind = named
        if how == "invokestatic":
            return self.world.find_method(owner, name, kind)
        if how == "invokespecial":
            return self.world.find_method(self.begins_at(state, owner, name), name, kind)
        exact = self.exact_type(state, args[0])
        return self.world.select(exact, name, kind) if self.world.fits(exact, type_named(owner)) else None

    def begins_at(self, state, owner, name):
        """The class in which invokespecial seeks first."""
        current = state.frame.method.file
        is_above = owner in self.world.chain(current.name)[1:]
        return current.parent if is_above and name != "<init>" else owner

    def called_of_platform(self, state, member, args, rest):
        """A constructor does nothing, and Object.equals tells whether two are one. They have no frames."""
        if member.name == "<init>":
            return self.goes(state, rest)
        return self.goes(state, (("t", self.pool.number(int(args[0] == args[1]))), *rest))

    def returned(self, state, name):
        method = state.frame.method
        kind = {"ireturn": "i", "areturn": "r", "return": ""}[name]
        values, _ = self.popped(state, kind)
        if kind != ("" if method.result == "V" else "r" if is_reference(method.result) else "i"):
            raise IllTyped
        if not state.callers:
            return ("returns", *(self.kept(value, method.result) for value in values)), state
        *callers, caller = state.callers
        if len(caller.stack) + len(values) > caller.method.code.stack:
            raise IllTyped
        stack = (*(self.kept(value, method.result) for value in values), *caller.stack)
        frame = replace(caller, at=caller.method.instructions[caller.at].next, stack=stack)
        return ("goes",), replace(state, frame=frame, callers=tuple(callers), carried=state.carried + 1)

    def object_made(self, state, name):
        """An object of the class, with 0 or null in each of its slots."""
        if len(state.frame.stack) >= state.frame.method.code.stack:
            raise IllTyped
        told, after = self.goes(state, (("n", len(state.made)), *state.frame.stack))
        return told, self.with_object(after, name)

    def with_object(self, state, name):
        zero = ("t", self.pool.number(0))
        values = tuple(NULL if is_reference(kind) else zero for *_, kind in self.world.slots(name))
        return replace(state, made=state.made + ((name, values),))
