"""What `--only` and `--fail-on` name: a sort of path."""

import re

from script.names import nearest, spelled
from script.say import Fault

from .forms import BOUNDS, read_int, read_name
from .names import classes_of, short_of
from .sentences import thrown_kind

ENDINGS = ("throws", "returns", "cut", "undecided", "open", "illtyped")
CLASS = re.compile(r"[^\s./=;\[-][^\s=;\[]*")
MET, MAY_BE = "is", "may be"
THROWABLE, MOST_NEAR = "java/lang/Throwable", 3


def read_want(word):
    """What the word names, or a fault of words."""
    if word in ENDINGS:
        return Ending(word)
    name, equals, value = word.partition("=")
    if equals and name == "cut" and value in BOUNDS:
        return Cut(value)
    if equals and name == "returns" and (value in ("null", "true", "false") or read_int(value) is not None):
        return Returned(value)
    if equals or not CLASS.fullmatch(word):
        says = "throws, a class, returns=VALUE, cut, cut=BOUND, undecided, open or illtyped"
        raise Fault(2, f"{word} names no path: {says}")
    return Thrown(word)


class Ending:
    """Paths that end so."""

    def __init__(self, ending):
        self.ending = ending

    def of(self, path, _report, _classes):
        """Whether the path is one: MET, MAY_BE, or None."""
        return MET if path.ending == self.ending else None

    def may(self):
        """What is said of a path of which it is not known whether it is one."""
        verb, _, rest = self.says().partition(" ")
        return f"may {verb[:-1]} {rest}"

    def fault(self, _report, _classes):
        """Why no path can be one, or nothing."""
        return None

    def check(self, _report, _classes):
        """What is named is there, or the end."""

    def says(self):
        """What such a path does."""
        return {"illtyped": "is ill-typed", "throws": "throws", "returns": "returns"}.get(self.ending, f"is {self.ending}")


class Cut(Ending):
    """Paths that are cut by a bound."""

    def __init__(self, bound):
        super().__init__("cut")
        self.bound = bound

    def says(self):
        return f"is cut by {self.bound}"

    def of(self, path, _report, _classes):
        return MET if path.ending == "cut" and path.value == self.bound else None


class Returned(Ending):
    """Paths that return a value; one that is a term may be it."""

    def __init__(self, value):
        super().__init__("returns")
        self.value = value

    def of(self, path, report, classes):
        if path.ending != "returns" or self.fault(report, classes):
            return None
        if path.value[0] in "vt":
            return MAY_BE
        return MET if path.value == {"true": "1", "false": "0"}.get(self.value, self.value) else None

    def says(self):
        return f"returns {self.value}"

    def fault(self, report, _classes):
        kinds = {"true": "Z", "false": "Z", "null": "L["}.get(self.value, "I")
        if report.result[0] in kinds:
            return None
        return f"no path returns {self.value}: the method's result is {'none' if report.result == 'V' else report.result}"


class Thrown(Ending):
    """Paths that throw an exception, or one below it; one whose superclasses are not known may be it."""

    def __init__(self, name):
        super().__init__("throws")
        self.name = name.encode("utf-8", "surrogateescape").decode("latin-1").replace(".", "/")

    def names(self, name):
        """Whether a class, as a class file has it, is called so: with its package, without it, or nested with dots."""
        full = name.replace("$", "/")
        return self.name in (name, full) or (f"/{name}".endswith(f"/{self.name}") or f"/{full}".endswith(f"/{self.name}"))

    def of(self, path, _report, classes):
        if path.ending != "throws":
            return None
        kind = thrown_kind(path)
        if kind is None or kind.startswith("["):
            return MAY_BE
        name = read_name(kind)
        above = classes.world.supertypes(name)
        if any(map(self.names, above)):
            return MET
        return None if all(each in classes.world.classes for each in above) else MAY_BE

    def says(self):
        return f"throws {spelled(self.name)}"

    def check(self, report, classes):
        """A class of that name is given, of the report or of the platform, or the end: else a slip would be met by no path."""
        named = {*classes.world.classes, *classes_of(report)}
        known = named.union(*map(classes.world.supertypes, named))
        if any(map(self.names, known)):
            return
        says = f"{spelled(self.name)} names no path: no class of that name is given, of the report or of the platform"
        words = [*ENDINGS, *sorted({short_of(name) for name in known if self.may_be_thrown(name, classes.world)})]
        near = nearest(words, short_of(self.name))[:MOST_NEAR]
        raise Fault(2, says, *([f"near names: {', '.join(map(spelled, near))}"] if near else []))

    @staticmethod
    def may_be_thrown(name, world):
        """Whether it is not known that objects of that class are never thrown."""
        above = world.supertypes(name)
        return THROWABLE in above or not all(each in world.classes for each in above)
