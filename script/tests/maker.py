"""Class files made by hand, for tests of the script (JVMS 8 chapter 4)."""

import struct

STATIC, PUBLIC, ABSTRACT, INTERFACE = 0x0008, 0x0021, 0x0421, 0x0601
PRIVATE, PROTECTED, SYNTHETIC = 0x0002, 0x0004, 0x1000
ALOAD_0, ACONST_NULL, ICONST_0, IRETURN, ARETURN, RETURN = b"\x2a", b"\x01", b"\x03", b"\xac", b"\xb0", b"\xb1"
GETFIELD, PUTFIELD, VIRTUAL, SPECIAL, STATIC_CALL, INTERFACE_CALL = b"\xb4", b"\xb5", b"\xb6", b"\xb7", b"\xb8", b"\xb9"
NEW, NEW_ARRAY_OF, CAST, INSTANCE, POP = b"\xbb", b"\xbd", b"\xc0", b"\xc1", b"\x57"


class Maker:
    """A class file: entries of the constant pool are added as they are asked for."""

    def __init__(self, name, parent="java/lang/Object", interfaces=(), access=PUBLIC, source=None):
        self.entries, self.numbers = [], {}
        self.name = name
        self.head = struct.pack(">HHH", access, self.named(name), self.named(parent) if parent else 0)
        self.interfaces = [self.named(each) for each in interfaces]
        self.fields, self.methods = [], []
        self.attributes = [] if source is None else [self.attribute("SourceFile", struct.pack(">H", self.utf8(source)))]

    def entry(self, tag, content):
        if (tag, content) not in self.numbers:
            self.entries.append(bytes([tag]) + content)
            self.numbers[(tag, content)] = len(self.entries)
        return self.numbers[(tag, content)]

    def long_entry(self):
        """A Long, which takes two numbers (JVMS 8 section 4.4.5)."""
        number = self.entry(5, bytes(8))
        self.entries.append(b"")
        return number

    def utf8(self, text):
        data = text.encode("latin-1")
        return self.entry(1, struct.pack(">H", len(data)) + data)

    def named(self, name):
        return self.entry(7, struct.pack(">H", self.utf8(name)))

    def member(self, owner, name, kind, tag):
        name_and_type = self.entry(12, struct.pack(">HH", self.utf8(name), self.utf8(kind)))
        return self.entry(tag, struct.pack(">HH", self.named(owner), name_and_type))

    def field_ref(self, owner, name, kind):
        return struct.pack(">H", self.member(owner, name, kind, 9))

    def method_ref(self, owner, name, kind):
        return struct.pack(">H", self.member(owner, name, kind, 10))

    def interface_ref(self, owner, name, kind):
        return struct.pack(">H", self.member(owner, name, kind, 11)) + bytes([1, 0])

    def class_ref(self, name):
        return struct.pack(">H", self.named(name))

    def attribute(self, name, content):
        return struct.pack(">HI", self.utf8(name), len(content)) + content

    def field(self, name, kind, access=0):
        self.fields.append(struct.pack(">HHHH", access, self.utf8(name), self.utf8(kind), 0))
        return self

    def method(self, name, kind, code=None, access=STATIC, handlers=(), lines=(), names=()):
        """A method; `lines` are pairs of offset and line, `names` the names of locals by their numbers, each
        from the first offset on or from one that is given."""
        tables = []
        if lines:
            rows = b"".join(struct.pack(">HH", *pair) for pair in lines)
            tables.append(self.attribute("LineNumberTable", struct.pack(">H", len(lines)) + rows))
        if names:
            rows = b"".join(
                struct.pack(">HHHHH", *(start or [0]), len(code), self.utf8(name), self.utf8("I"), at)
                for at, name, *start in names
            )
            tables.append(self.attribute("LocalVariableTable", struct.pack(">H", len(names)) + rows))
        attributes = []
        if code is not None:
            content = struct.pack(">HHI", 4, 4, len(code)) + code + struct.pack(">H", len(handlers))
            content += b"".join(struct.pack(">HHHH", *row) for row in handlers)
            attributes.append(self.attribute("Code", content + struct.pack(">H", len(tables)) + b"".join(tables)))
        head = struct.pack(">HHHH", access, self.utf8(name), self.utf8(kind), len(attributes))
        self.methods.append(head + b"".join(attributes))
        return self

    def data(self):
        lists = [self.fields, self.methods, self.attributes]
        return (
            struct.pack(">IHHH", 0xCAFEBABE, 0, 52, len(self.entries) + 1)
            + b"".join(self.entries)
            + self.head
            + struct.pack(f">H{len(self.interfaces)}H", len(self.interfaces), *self.interfaces)
            + b"".join(struct.pack(">H", len(items)) + b"".join(items) for items in lists)
        )

    def write(self, folder, path=None):
        """Writes the class file where its name says, in a folder."""
        file = folder / (path or f"{self.name}.class")
        file.parent.mkdir(parents=True, exist_ok=True)
        file.write_bytes(self.data())
        return file


def taking(name, *classes, **more):
    """A class with a static method `f` of parameters of those classes, which returns 0."""
    made = Maker(name, **more)
    kind = f"({''.join(f'L{each};' for each in classes)})I"
    return made.method("f", kind, ICONST_0 + IRETURN)
