"""The classes that are known, given or of the platform, and the rules of lookup (docs/USING.md, docs/REFUSALS.md)."""

from .class_file import ABSTRACT, INTERFACE, PRIVATE, STATIC
from .names import class_of_type, element, split_method, type_end

OBJECT = "java/lang/Object"
SERIALIZABLE, CLONEABLE, COMPARABLE = "java/io/Serializable", "java/lang/Cloneable", "java/lang/Comparable"
PLATFORM_INTERFACES = (CLONEABLE, COMPARABLE, SERIALIZABLE)
# Superclass and interfaces, by name, in the order of docs/USING.md ('Class files').
PLATFORM = {
    OBJECT: (None, ()),
    "java/lang/String": (OBJECT, (SERIALIZABLE, COMPARABLE)),
    "java/lang/Throwable": (OBJECT, (SERIALIZABLE,)),
    "java/lang/Exception": ("java/lang/Throwable", ()),
    "java/lang/RuntimeException": ("java/lang/Exception", ()),
    "java/lang/Error": ("java/lang/Throwable", ()),
    "java/lang/ArithmeticException": ("java/lang/RuntimeException", ()),
    "java/lang/IndexOutOfBoundsException": ("java/lang/RuntimeException", ()),
    "java/lang/ArrayIndexOutOfBoundsException": ("java/lang/IndexOutOfBoundsException", ()),
    "java/lang/ArrayStoreException": ("java/lang/RuntimeException", ()),
    "java/lang/ClassCastException": ("java/lang/RuntimeException", ()),
    "java/lang/IllegalArgumentException": ("java/lang/RuntimeException", ()),
    "java/lang/IllegalStateException": ("java/lang/RuntimeException", ()),
    "java/lang/NegativeArraySizeException": ("java/lang/RuntimeException", ()),
    "java/lang/NullPointerException": ("java/lang/RuntimeException", ()),
    "java/lang/UnsupportedOperationException": ("java/lang/RuntimeException", ()),
    CLONEABLE: (OBJECT, ()),
    COMPARABLE: (OBJECT, ()),
    "java/util/NoSuchElementException": ("java/lang/RuntimeException", ()),
    SERIALIZABLE: (OBJECT, ()),
}
# Declared types below which nothing is looked for: each class fits them.
BOUNDLESS = frozenset((OBJECT, *PLATFORM_INTERFACES))


class Known:
    """A class of the world: its class file, or None for one of the platform, and where its bytes come from."""

    def __init__(self, name, file=None, source=None):
        self.name, self.file, self.source = name, file, source
        if file is None:
            self.parent, self.interfaces = PLATFORM[name]
        else:
            self.parent, self.interfaces = file.parent, tuple(file.interfaces)
        self._methods = self._fields = None

    @property
    def is_concrete(self):
        """Whether an object may be of that very class."""
        if self.file is None:
            return self.name not in PLATFORM_INTERFACES
        return not self.file.access & (INTERFACE | ABSTRACT)

    @property
    def above(self):
        """The names of the superclass and the interfaces."""
        return self.interfaces if self.parent is None else (self.parent, *self.interfaces)

    def method(self, name, kind):
        if self._methods is None:
            found = self.file.methods if self.file else ()
            self._methods = {(method.name, method.kind): method for method in found}
        return self._methods.get((name, kind))

    def field(self, name, kind):
        if self._fields is None:
            found = self.file.fields if self.file else ()
            self._fields = {(field.name, field.kind): field for field in found}
        return self._fields.get((name, kind))


PLATFORM_CLASSES = {name: Known(name) for name in PLATFORM}


class World:
    """Classes by their names: those of the platform, and others that are added, of which the first of one name counts."""

    def __init__(self):
        self.classes = dict(PLATFORM_CLASSES)
        self._supertypes = {}

    def add(self, known):
        """Whether the class was not known by then."""
        if known.name in self.classes:
            return False
        self.classes[known.name] = known
        return True

    def get(self, name):
        return self.classes.get(name)

    def superclasses(self, name):
        """The class of that name and its superclasses, upwards, as far as they are known."""
        seen = set()
        while name in self.classes and name not in seen:
            seen.add(name)
            yield self.classes[name]
            name = self.classes[name].parent

    def supertypes(self, name):
        """The names of a class and of all its superclasses and interfaces, known or not."""
        if name not in self._supertypes:
            found, waiting = {name}, [name]
            while waiting:
                known = self.classes.get(waiting.pop())
                for above in known.above if known else ():
                    if above not in found:
                        found.add(above)
                        waiting.append(above)
            self._supertypes[name] = found
        return self._supertypes[name]

    def is_below(self, name, other):
        """Whether the one class is the other or below it."""
        return other in self.supertypes(name)

    def find_field(self, owner, name, kind):
        """The class that declares a field, and the field, or None: the named class first, then its superclasses."""
        for known in self.superclasses(owner):
            field = known.field(name, kind)
            if field:
                return known, field
        return None

    def find_method(self, owner, name, kind):
        """The class that declares the method of a call that does not select, and the method, or None.

        What a superinterface alone declares is refused there (docs/REFUSALS.md), so nothing is reached by it.
        """
        for known in self.superclasses(owner):
            method = known.method(name, kind)
            if method:
                return known, method
        return None

    def select(self, receiver, name, kind):
        """The class and the method that a call takes on an object of a class, or None."""
        for known in self.superclasses(receiver):
            method = known.method(name, kind)
            if method and not method.access & (PRIVATE | STATIC):
                return known, method
        return None


def parameter_types(method):
    """The types of a method's parameters; none where its descriptor is none."""
    parts = split_method(method.kind)
    return parts[0] if parts else []


def types_of(kind):
    """The types in a descriptor of a field or of a method."""
    if kind.startswith("("):
        parts = split_method(kind)
        return [] if parts is None else [*parts[0], *([] if parts[1] == "V" else [parts[1]])]
    return [kind] if type_end(kind, 0) == len(kind) else []


class Universe:
    """The exact types that an object of an input may have: names of classes, and descriptors of arrays."""

    def __init__(self, world, given):
        named, arrays = set(), set()
        for known in given:
            self._note(known.file, named, arrays)
        self.world = world
        self._names = {known.name for known in given}.union(PLATFORM)
        self.classes = [known.name for known in given if known.is_concrete]
        self.classes += [name for name in PLATFORM if name in named and PLATFORM_CLASSES[name].is_concrete]
        self.arrays = sorted(kind for kind in arrays if self._is_known(element(kind)))

    @staticmethod
    def _note(file, named, arrays):
        names, kinds = file.named_types()
        types = [kind for text in kinds for kind in types_of(text)]
        named.update(name for name in names if not name.startswith("["))
        named.update(kind[1:-1] for kind in types if kind.startswith("L"))
        for kind in [*names, *types]:
            while kind.startswith("["):
                arrays.add(kind)
                kind = kind[1:]

    def _is_known(self, kind):
        return kind in ("Z", "I") or class_of_type(kind) in self._names

    def fitting(self, name):
        """The classes, and the arrays, that may stand in a slot of that class."""
        fits = name in (OBJECT, CLONEABLE, SERIALIZABLE)
        return [each for each in self.classes if self.world.is_below(each, name)], self.arrays if fits else []

