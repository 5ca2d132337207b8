"""Class files and what they are together, after The Java Virtual Machine Specification, Java SE 8 Edition (chapters 4 and
5.4), and after what this project says of its worlds: the twenty classes of the platform, the slots of a class, the types of
input objects.

A class goes by its name, an array by its descriptor, a declared type by its descriptor. Names have a character for each
byte.
"""

import re
import struct

PRIVATE, STATIC, INTERFACE, ABSTRACT = 0x0002, 0x0008, 0x0200, 0x0400
OBJECT, THROWABLE, STRING = "java/lang/Object", "java/lang/Throwable", "java/lang/String"

# name, superclass, superinterfaces
PLATFORM = [line.split() for line in """
java/lang/Object
java/lang/String java/lang/Object java/io/Serializable java/lang/Comparable
java/lang/Throwable java/lang/Object java/io/Serializable
java/lang/Exception java/lang/Throwable
java/lang/RuntimeException java/lang/Exception
java/lang/Error java/lang/Throwable
java/lang/ArithmeticException java/lang/RuntimeException
java/lang/IndexOutOfBoundsException java/lang/RuntimeException
java/lang/ArrayIndexOutOfBoundsException java/lang/IndexOutOfBoundsException
java/lang/ArrayStoreException java/lang/RuntimeException
java/lang/ClassCastException java/lang/RuntimeException
java/lang/IllegalArgumentException java/lang/RuntimeException
java/lang/IllegalStateException java/lang/RuntimeException
java/lang/NegativeArraySizeException java/lang/RuntimeException
java/lang/NullPointerException java/lang/RuntimeException
java/lang/UnsupportedOperationException java/lang/RuntimeException
java/util/NoSuchElementException java/lang/RuntimeException
java/lang/Cloneable java/lang/Object
java/lang/Comparable java/lang/Object
java/io/Serializable java/lang/Object
""".split("\n") if line]
PLATFORM_INTERFACES = {"java/lang/Cloneable", "java/lang/Comparable", "java/io/Serializable"}

# how many bytes an entry of the constant pool has behind its tag
ENTRY_SIZES = {3: 4, 4: 4, 5: 8, 6: 8, 7: 2, 8: 2, 9: 4, 10: 4, 11: 4, 12: 4, 15: 3, 16: 2, 18: 4}


class Reader:
    def __init__(self, content):
        self.content, self.at = content, 0

    def take(self, form):
        values = struct.unpack_from(">" + form, self.content, self.at)
        self.at += struct.calcsize(">" + form)
        return values if len(values) > 1 else values[0]

    def skip(self, count):
        self.at += count
        return self.content[self.at - count : self.at]


class Member:
    """A field, or a method with its code, if it has one."""

    is_of_platform = False

    def __init__(self, reader, file):
        self.flags, name, kind, count = reader.take("HHHH")
        self.name, self.kind, self.code, self.file = file.text(name), file.text(kind), None, file
        for _ in range(count):
            named, length = reader.take("HI")
            content = reader.skip(length)
            if file.text(named) == "Code":
                self.code = Code(Reader(content))

    @property
    def is_static(self):
        return bool(self.flags & STATIC)

    @property
    def is_selected(self):
        """Whether selection may take the method."""
        return not self.flags & (PRIVATE | STATIC)


class PlatformMethod:
    """A method of a platform class that may be called: a constructor that does nothing, or Object.equals."""

    is_of_platform, is_static, is_selected, code = True, False, True, None

    def __init__(self, name):
        self.name = name


class Code:
    """Each handler has its first offset, the one behind its last, the one that it is at, and the entry of what it takes."""

    def __init__(self, reader):
        self.stack, self.locals, length = reader.take("HHI")
        self.bytes = reader.skip(length)
        self.handlers = [reader.take("HHHH") for _ in range(reader.take("H"))]


class ClassFile:
    def __init__(self, content):
        reader = Reader(content)
        reader.skip(8)
        self.pool = read_pool(reader)
        self.flags, this, parent, count = reader.take("HHHH")
        self.name, self.parent = self.class_name(this), self.class_name(parent)
        self.interfaces = [self.class_name(reader.take("H")) for _ in range(count)]
        self.fields = [Member(reader, self) for _ in range(reader.take("H"))]
        self.methods = [Member(reader, self) for _ in range(reader.take("H"))]

    def text(self, number):
        return self.pool[number][1]

    def class_name(self, number):
        return self.text(self.pool[number][1])

    def constant(self, number):
        """The int of an Integer entry, or None."""
        tag, value = self.pool[number]
        return struct.unpack(">i", value)[0] if tag == 3 else None

    def literal(self, number):
        """The text of a String entry."""
        return self.text(self.pool[number][1])

    def literals(self):
        return {self.text(value) for tag, value in filter(None, self.pool) if tag == 8}

    def member_named(self, number):
        """Class, name and descriptor of a Fieldref, a Methodref or an InterfaceMethodref."""
        owner, pair = struct.unpack(">HH", self.pool[number][1])
        name, kind = struct.unpack(">HH", self.pool[pair][1])
        return self.class_name(owner), self.text(name), self.text(kind)

    def names(self):
        """Each class by its name and each array by its descriptor that a Class entry names, or a descriptor."""
        kinds = [member.kind for member in self.fields + self.methods]
        for tag, value in (entry for entry in self.pool if entry):
            if tag == 7:
                yield self.text(value)
            elif tag == 12:
                kinds.append(self.text(struct.unpack(">HH", value)[1]))
        for kind in kinds:
            for array, name in re.findall(r"(\[+(?:[BCSZIJFD]|L[^;]*;))|L([^;]*);", kind):
                yield array or name


def read_pool(reader):
    pool = [None] * reader.take("H")
    number = 1
    while number < len(pool):
        tag = reader.take("B")
        if tag == 1:
            pool[number] = (tag, reader.skip(reader.take("H")).decode("latin-1"))
        else:
            value = reader.skip(ENTRY_SIZES[tag])
            pool[number] = (tag, struct.unpack(">H", value)[0] if tag in (7, 8) else value)
        number += 2 if tag in (5, 6) else 1
    return pool


def has_slot(kind):
    return kind in ("I", "Z") or kind[0] in "L["


def is_reference(kind):
    return kind[0] in "L["


class World:
    """The classes of some files, and those of the platform."""

    def __init__(self, contents):
        self.given = [ClassFile(content) for content in contents]
        self.files = {file.name: file for file in self.given}
        self.above = {name: above for name, *above in PLATFORM}
        self.above |= {file.name: [file.parent, *file.interfaces] for file in self.given}
        self.universe = self.input_types()
        self.literals = sorted(set().union(*(file.literals() for file in self.given)))

    def chain(self, name):
        """The class and those above it, the lowest first."""
        names = [name]
        while self.above.get(names[-1]):
            names.append(self.above[names[-1]][0])
        return names

    def supertypes(self, name):
        return {name}.union(*(self.supertypes(above) for above in self.above.get(name, [])))

    def interfaces(self, name):
        """The interfaces above a class, those of the lowest class first."""
        for low in self.chain(name):
            for above in self.above.get(low, [])[1:]:
                yield from (above, *self.interfaces(above))

    def slots(self, name):
        """The fields of an object that have slots: class, name and descriptor, those of the highest class first."""
        if name.startswith("["):
            return []
        files = [self.files[above] for above in reversed(self.chain(name)) if above in self.files]
        fields = [(file.name, field) for file in files for field in file.fields if not field.is_static]
        return [(owner, field.name, field.kind) for owner, field in fields if has_slot(field.kind)]

    def find_field(self, owner, name, kind):
        """The field that a Fieldref names, by the class that declares it."""
        for above in self.chain(owner):
            fields = self.files[above].fields if above in self.files else []
            if (name, kind) in [(field.name, field.kind) for field in fields]:
                return above, name, kind
        return None

    def declared(self, owner, name, kind):
        """The method of that name and type that the class declares, or None."""
        if owner in self.files:
            return next((found for found in self.files[owner].methods if (found.name, found.kind) == (name, kind)), None)
        callable_here = {OBJECT: [("<init>", "()V"), ("equals", "(Ljava/lang/Object;)Z")]}.get(owner, [])
        if THROWABLE in self.chain(owner):
            callable_here = [("<init>", "()V"), ("<init>", "(Ljava/lang/String;)V")]
        return PlatformMethod(name) if (name, kind) in callable_here else None

    def find_method(self, owner, name, kind):
        """The method that a Methodref names, or None: of the class, of those above it, or of the interfaces above it."""
        owner = OBJECT if owner.startswith("[") else owner
        by_classes = [self.declared(above, name, kind) for above in self.chain(owner)]
        by_interfaces = [self.declared(above, name, kind) for above in self.interfaces(owner)]
        return next(filter(None, by_classes + [found for found in by_interfaces if found and found.is_selected]), None)

    def select(self, exact, name, kind):
        """The method that is selected for an object of that exact type, or None."""
        chain = self.chain(OBJECT if exact.startswith("[") else exact)
        found = [self.declared(above, name, kind) for above in chain]
        return next((method for method in found if method and method.is_selected), None)

    def is_told_by_kind(self, owner, name):
        """Whether the class declares several fields of the name."""
        return sum(field.name == name for field in self.files[owner].fields) > 1

    def fits(self, low, high):
        """Whether an object of that class or array may be where that type is declared."""
        if not low.startswith("["):
            return high[0] == "L" and high[1:-1] in self.supertypes(low)
        if high[0] == "L":
            return high[1:-1] in ("java/lang/Object", "java/lang/Cloneable", "java/io/Serializable")
        low, high = low[1:], high[1:]
        if not is_reference(low) or not is_reference(high):
            return low == high
        return self.fits(low[1:-1] if low[0] == "L" else low, high)

    def input_types(self):
        """The exact types that an object of an input may have, in their order."""
        named = {name for file in self.given for name in file.names()}
        classes = [file.name for file in self.given if not file.flags & (INTERFACE | ABSTRACT)]
        platform = [name for name, *_ in PLATFORM if name in named and name not in PLATFORM_INTERFACES]
        arrays = set()
        for name in named:
            element = name.lstrip("[")
            if name != element and (element in ("I", "Z") or element[1:-1] in self.above):
                arrays |= {"[" * count + element for count in range(1, len(name) - len(element) + 1)}
        return classes + platform + sorted(arrays)
