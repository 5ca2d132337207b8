"""The reader of class files (JVMS 8 chapter 4): names, flags, members, the constant pool, code, the tables of lines and locals.

It stops at the first byte that does not fit, and says then only what it has; `stopped` is the offset of what does not fit. It
judges nothing: what is wrong with a class file is for the program to say.
"""

from .names import split_method

INTERFACE, ABSTRACT, STATIC, PRIVATE, SYNTHETIC = 0x0200, 0x0400, 0x0008, 0x0002, 0x1000
UTF8, INTEGER, CLASS, STRING, FIELD, METHOD, INTERFACE_METHOD, NAME_AND_TYPE = 1, 3, 7, 8, 9, 10, 11, 12
# The bytes of an entry of the constant pool, with its tag, by the tag: 0 where there is none (JVMS 8 table 4.4-A).
SIZES = [0] * 256
for _tag, _size in {3: 5, 4: 5, 5: 9, 6: 9, 7: 3, 8: 3, 9: 5, 10: 5, 11: 5, 12: 5, 15: 4, 16: 3, 18: 5}.items():
    SIZES[_tag] = _size
# More bytes than that no class file has that the program reads.
MOST_BYTES = 1_048_576


class Unfit(Exception):
    """Something does not fit, at that offset of the file."""

    def __init__(self, at):
        super().__init__(at)
        self.at = at


class Handler:
    """A row of a handler table: offsets, and the class that is caught, or None for any."""

    def __init__(self, start, end, target, caught):
        self.start, self.end, self.target, self.caught = start, end, target, caught


class Code:
    """The code of a method: its bytes, its handlers, its lines (offset and line), and its locals."""

    def __init__(self, data):
        self.bytes = data
        self.handlers, self.lines, self.locals = [], [], {}

    def line_at(self, at):
        """The line of the source that the instruction at that offset comes from, or None."""
        starts = [(start, line) for start, line in self.lines if start <= at]
        return max(starts)[1] if starts else None


class Member:
    """A field, or a method with its code or None."""

    def __init__(self, access, name, kind):
        self.access, self.name, self.kind, self.code = access, name, kind, None


class ClassFile:
    """A class file, as far as its bytes fit. The head is read at once, members where they are asked for."""

    def __init__(self, data):
        self.data = data
        self.offsets = [0]
        self.access, self.name, self.parent, self.interfaces = 0, None, None, []
        self.stopped = None
        self.members_at = None
        self._members = None
        try:
            self._read_head()
        except (Unfit, IndexError) as stop:
            self.stopped = stop.at if isinstance(stop, Unfit) else len(data)

    @property
    def is_class_file(self):
        return self.data[:4] == b"\xca\xfe\xba\xbe"

    def read_whole(self):
        """Reads the members too, so that `stopped` speaks of the whole file."""
        self._read_members()

    @property
    def fields(self):
        return self._read_members()[0]

    @property
    def methods(self):
        return self._read_members()[1]

    @property
    def source(self):
        """The file that the class was compiled of, or None."""
        return self._read_members()[2]

    def number(self, at, size=2):
        """The number of that many bytes at an offset."""
        if at + size > len(self.data):
            raise Unfit(at)
        return int.from_bytes(self.data[at : at + size], "big")

    def place(self, number, tag):
        """The offset of an entry of the constant pool of that tag."""
        at = self.offsets[number] if number < len(self.offsets) else 0
        if at == 0 or self.data[at] != tag:
            raise Unfit(at)
        return at

    def tag(self, number):
        """The tag of an entry of the constant pool, or None where there is no entry."""
        at = self.offsets[number] if number < len(self.offsets) else 0
        return self.data[at] if at else None

    def text(self, number):
        at = self.place(number, UTF8)
        return self.data[at + 3 : at + 3 + self.number(at + 1)].decode("latin-1")

    def class_name(self, number):
        return self.text(self.number(self.place(number, CLASS) + 1))

    def name_and_type(self, number):
        at = self.place(number, NAME_AND_TYPE)
        return self.text(self.number(at + 1)), self.text(self.number(at + 3))

    def member(self, number):
        """The class, name and descriptor of a Fieldref, Methodref or InterfaceMethodref."""
        if self.tag(number) not in (FIELD, METHOD, INTERFACE_METHOD):
            raise Unfit(self.offsets[number] if number < len(self.offsets) else 0)
        at = self.offsets[number]
        return (self.class_name(self.number(at + 1)), *self.name_and_type(self.number(at + 3)))

    def named_types(self):
        """The names of all Class entries, and the descriptors of all fields, methods and NameAndType entries."""
        names, kinds = [], []
        for number in range(1, len(self.offsets)):
            try:
                tag = self.tag(number)
                if tag == CLASS:
                    names.append(self.class_name(number))
                elif tag == NAME_AND_TYPE:
                    kinds.append(self.name_and_type(number)[1])
            except Unfit:
                continue
        return names, kinds + [member.kind for member in [*self.fields, *self.methods]]

    def _read_head(self):
        if not self.is_class_file:
            raise Unfit(0)
        at = self._read_pool(self.number(8))
        self.access = self.number(at)
        self.name = self.class_name(self.number(at + 2))
        parent = self.number(at + 4)
        self.parent = self.class_name(parent) if parent else None
        count = self.number(at + 6)
        at += 8
        for place in range(at, at + 2 * count, 2):
            self.interfaces.append(self.class_name(self.number(place)))
        self.members_at = at + 2 * count

    def _read_pool(self, count):
        """Notes where each entry begins. The offset behind the last one."""
        data, sizes, offsets = self.data, SIZES, self.offsets
        at, length = 10, len(data)
        while len(offsets) < count:
            tag = data[at]
            offsets.append(at)
            if tag == 1:
                at += 3 + (data[at + 1] << 8 | data[at + 2])
            else:
                size = sizes[tag]
                if size == 0 or at + size > length:
                    raise self._cut(offsets, at)
                at += size
                if size == 9:
                    offsets.append(0)
        if at > length:
            raise self._cut(offsets, offsets[-1] or offsets[-2])
        return at

    @staticmethod
    def _cut(offsets, at):
        """The entry at that offset, which does not fit, is none."""
        while offsets[-1] in (0, at) and len(offsets) > 1:
            offsets.pop()
        return Unfit(at)

    def _read_members(self):
        """Fields, methods and the source, as far as they fit."""
        if self._members is None:
            self._members = ([], [], None)
            if self.members_at is not None:
                reader = MemberReader(self, self.members_at)
                reader.read_all()
                self._members = (reader.fields, reader.methods, reader.source)
        return self._members


class MemberReader:
    """Reads what stands behind the head of a class file."""

    def __init__(self, file, at):
        self.file, self.at = file, at
        self.fields, self.methods, self.source = [], [], None

    def read_all(self):
        try:
            self._read_list(self.fields)
            self._read_list(self.methods)
            for name, start, end in self._attributes():
                if name == "SourceFile" and end - start == 2:
                    self.source = self.file.text(self.file.number(start))
        except Unfit as stop:
            self.file.stopped = stop.at

    def _next(self, size=2):
        number = self.file.number(self.at, size)
        self.at += size
        return number

    def _attributes(self):
        """Each attribute's name and the ends of its content, which are inside the file."""
        for _ in range(self._next()):
            name = self.file.text(self._next())
            start = self.at + 4
            end = start + self._next(4)
            if end > len(self.file.data):
                raise Unfit(start)
            yield name, start, end
            self.at = end

    def _read_list(self, into):
        for _ in range(self._next()):
            member = Member(self._next(), self.file.text(self._next()), self.file.text(self._next()))
            into.append(member)
            for name, start, end in self._attributes():
                if name == "Code" and into is self.methods and member.code is None:
                    member.code = self._code(start, end)

    def _code(self, start, end):
        """The code whose attribute has its content there."""
        file = self.file
        length = file.number(start + 4, 4)
        behind = start + 8 + length
        if length == 0 or behind + 2 > end:
            raise Unfit(start)
        code = Code(file.data[start + 8 : behind])
        for at in range(behind + 2, behind + 2 + 8 * file.number(behind), 8):
            caught = file.number(at + 6)
            numbers = (file.number(at), file.number(at + 2), file.number(at + 4))
            code.handlers.append(Handler(*numbers, file.class_name(caught) if caught else None))
        tables = MemberReader(file, behind + 2 + 8 * len(code.handlers))
        if tables.at + 2 <= end:
            tables.read_tables(code)
        return code

    def read_tables(self, code):
        """The tables of lines and of locals. What does not fit of them is left out."""
        try:
            for name, start, end in self._attributes():
                if name == "LineNumberTable":
                    self._read_lines(code, start, end)
                elif name == "LocalVariableTable":
                    self._read_locals(code, start, end)
        except Unfit:
            return

    def _read_lines(self, code, start, end):
        count = self.file.number(start)
        for at in range(start + 2, min(start + 2 + 4 * count, end - 3), 4):
            code.lines.append((self.file.number(at), self.file.number(at + 2)))

    def _read_locals(self, code, start, end):
        count = self.file.number(start)
        for at in range(start + 2, min(start + 2 + 10 * count, end - 9), 10):
            if self.file.number(at) == 0:
                code.locals[self.file.number(at + 8)] = self.file.text(self.file.number(at + 4))


def argument_name(method, place):
    """The name in the source of a method's argument, the receiver as argument 0, or None."""
    if method.code is None:
        return None
    parts = split_method(method.kind)
    kinds = ([] if method.access & STATIC else ["this"]) + (parts[0] if parts else [])
    words = sum(2 if kind in ("J", "D") else 1 for kind in kinds[:place])
    return method.code.locals.get(words)
