"""Throws and handlers, after The Java Virtual Machine Specification, Java SE 8 Edition, sections 2.10 and 6.5."""

from dataclasses import replace

from classes import THROWABLE
from states import IllTyped
from texts import NULL


class Throws:
    """The steps that hand an exception to its handler, or end the run."""

    def athrow(self, state):
        (value,), _ = self.popped(state, "r")
        if value == NULL:
            return self.throws(state, "java/lang/NullPointerException")
        exact = self.exact_type(state, value)
        if THROWABLE not in self.world.supertypes(exact):
            raise IllTyped
        return self.thrown(state, exact, lambda: (value, state))

    def throws(self, state, name):
        """What comes of an exception of the class, which the machine makes."""
        return self.thrown(state, name, lambda: (("n", len(state.made)), self.with_object(state, name)))

    def thrown(self, state, exact, make):
        """What comes of an exception of that exact type, which is made where it lands, or where it ends the run."""
        for passed, frame in enumerate([state.frame, *reversed(state.callers)]):
            target = self.handler(frame, exact)
            if target is not None:
                return self.landed(state, passed, frame, target, make)
        value, after = make()
        return ("throws", value), after

    def handler(self, frame, exact):
        """Where the first handler of the frame's offset is that takes the exception, or None."""
        file, above = frame.method.file, self.world.supertypes(exact)
        for start, end, target, catch in frame.method.code.handlers:
            if start <= frame.at < end and (catch == 0 or file.class_name(catch) in above):
                return target
        return None

    def landed(self, state, passed, frame, target, make):
        if frame.method.code.stack == 0:
            raise IllTyped
        is_back = target <= frame.at
        if is_back and frame.transfers >= self.bounds["loops"]:
            return ("cut", "loops"), state
        value, after = make()
        frame = replace(frame, at=target, stack=(value,), transfers=frame.transfers + is_back)
        callers = state.callers[: len(state.callers) - passed]
        return ("goes",), replace(after, frame=frame, callers=callers, carried=state.carried + 1, chosen=None)
