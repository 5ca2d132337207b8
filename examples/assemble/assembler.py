"""An assembler of its own for texts without faults, by the format of docs/USING.md and JVMS 8 chapters 4 and 6: the entries of
the constant pool are the constants of ldc lines, and then what each line needs, each behind those that it names."""

import re
import struct

# mnemonics by opcode (JVMS 8 section 6.5)
MNEMONICS = """
00 nop 01 aconst_null 02 iconst_m1 03 iconst_0 04 iconst_1 05 iconst_2 06 iconst_3 07 iconst_4 08 iconst_5 10 bipush
11 sipush 12 ldc 13 ldc_w 15 iload 19 aload 1a iload_0 1b iload_1 1c iload_2 1d iload_3 2a aload_0 2b aload_1 2c aload_2
2d aload_3 2e iaload 32 aaload 33 baload 36 istore 3a astore 3b istore_0 3c istore_1 3d istore_2 3e istore_3 4b astore_0
4c astore_1 4d astore_2 4e astore_3 4f iastore 53 aastore 54 bastore 57 pop 58 pop2 59 dup 5a dup_x1 5b dup_x2 5c dup2
5d dup2_x1 5e dup2_x2 5f swap 60 iadd 64 isub 68 imul 6c idiv 70 irem 74 ineg 78 ishl 7a ishr 7c iushr 7e iand 80 ior
82 ixor 84 iinc 91 i2b 92 i2c 93 i2s 99 ifeq 9a ifne 9b iflt 9c ifge 9d ifgt 9e ifle 9f if_icmpeq a0 if_icmpne
a1 if_icmplt a2 if_icmpge a3 if_icmpgt a4 if_icmple a5 if_acmpeq a6 if_acmpne a7 goto aa tableswitch ab lookupswitch
ac ireturn b0 areturn b1 return b4 getfield b5 putfield b6 invokevirtual b7 invokespecial b8 invokestatic
b9 invokeinterface bb new bc newarray bd anewarray be arraylength bf athrow c0 checkcast c1 instanceof c6 ifnull
c7 ifnonnull c8 goto_w
""".split()
OPCODES = {name: int(code, 16) for code, name in zip(MNEMONICS[::2], MNEMONICS[1::2])}
WIDE = 0xC4
BRANCHES = {name for name in OPCODES if name.startswith(("if", "goto"))}
MEMBERS = {"getfield": 9, "putfield": 9, "invokevirtual": 10, "invokespecial": 10, "invokestatic": 10, "invokeinterface": 11}


def plain(name):
    """The bytes of a name or a descriptor, in which %XX stands for a byte."""
    return re.sub(rb"%(..)", lambda pair: bytes.fromhex(pair[1].decode()), name.encode())


class Pool:
    """The entries of a constant pool, each once."""

    def __init__(self):
        self.numbers = {}

    def number(self, *entry):
        return self.numbers.setdefault(entry, len(self.numbers) + 1)

    def text(self, name):
        return self.number(1, plain(name))

    def named(self, tag, name):
        """A Class or a String."""
        self.text(name)
        return self.number(tag, plain(name))

    def member(self, tag, owner, name, kind):
        self.named(7, owner)
        self.text(name)
        self.text(kind)
        self.number(12, plain(name), plain(kind))
        return self.number(tag, plain(owner), plain(name), plain(kind))

    def constant(self, kind, word):
        if kind == "int":
            return self.number(3, int(word))
        return self.named(8, word)

    def bytes_of(self, entry):
        tag, *parts = entry
        if tag == 1:
            return struct.pack(">BH", 1, len(parts[0])) + parts[0]
        if tag == 3:
            return struct.pack(">Bi", 3, parts[0])
        if tag in (7, 8):
            return struct.pack(">BH", tag, self.numbers[1, parts[0]])
        if tag == 12:
            return struct.pack(">BHH", 12, *(self.numbers[1, part] for part in parts))
        return struct.pack(">BHH", tag, self.numbers[7, parts[0]], self.numbers[(12, *parts[1:])])

    def bytes(self):
        return struct.pack(">H", len(self.numbers) + 1) + b"".join(map(self.bytes_of, self.numbers))


def argument_words(kind):
    """How many words the arguments take, with the receiver."""
    params = re.findall(r"\[+(?:L[^;]*;|.)|L[^;]*;|.", kind[1 : kind.index(")")])
    return 1 + sum(2 if param in "JD" else 1 for param in params)


def instruction(pool, at, name, words, to):
    """The bytes of an instruction at an offset; `to` is where a label leads."""
    op = OPCODES[name]
    if name in ("ldc", "ldc_w"):
        return struct.pack(">BB" if name == "ldc" else ">BH", op, pool.constant(*words))
    if name in MEMBERS:
        tail = bytes([argument_words(words[2]), 0]) if name == "invokeinterface" else b""
        return struct.pack(">BH", op, pool.member(MEMBERS[name], *words)) + tail
    if name in ("new", "anewarray", "checkcast", "instanceof"):
        return struct.pack(">BH", op, pool.named(7, words[0]))
    if name in BRANCHES:
        return struct.pack(">Bi" if name == "goto_w" else ">Bh", op, to(words[0]) - at)
    if name == "tableswitch":
        low, default, *targets = words
        table = struct.pack(">ii", int(low), int(low) + len(targets) - 1)
        return switch(op, at, default, table, [to(label) - at for label in targets], to)
    if name == "lookupswitch":
        default, *cases = words
        pairs = [case.split(":") for case in cases]
        numbers = [number for key, label in pairs for number in (int(key), to(label) - at)]
        return switch(op, at, default, struct.pack(">i", len(pairs)), numbers, to)
    if name in ("iload", "aload", "istore", "astore") and int(words[0]) > 255:
        return struct.pack(">BBH", WIDE, op, int(words[0]))
    layout = {"bipush": "b", "sipush": "h", "iinc": "Bb"}.get(name, "B" * len(words))
    return struct.pack(">B" + layout, op, *map(int, words))



def switch(op, at, default, table, numbers, to):
    head = bytes([op]) + bytes(-(at + 1) % 4) + struct.pack(">i", to(default) - at)
    return head + table + struct.pack(f">{len(numbers)}i", *numbers)


def body_bytes(pool, sizes, lines):
    """The content of a Code attribute. The labels are known from the second walk on."""
    labels = {}
    for _ in range(2):
        code, handlers = b"", b""
        for name, *words in lines:
            if name.startswith(":"):
                labels[name[1:]] = len(code)
            elif name == "raw":
                code += bytes.fromhex(words[0])
            elif name == "catch":
                caught = 0 if words[3] == "any" else pool.named(7, words[3])
                handlers += struct.pack(">4H", *(labels.get(label, 0) for label in words[:3]), caught)
            else:
                at = len(code)
                code += instruction(pool, at, name, words, lambda label: labels.get(label, at))
    rows = struct.pack(">H", len(handlers) // 8) + handlers
    return struct.pack(">HHI", *map(int, sizes), len(code)) + code + rows + struct.pack(">H", 0)


def assemble(text):
    """The class file of a text."""
    lines = [line.split(" ") for line in text.splitlines()]
    pool = Pool()
    for name, *words in lines:
        if name == "ldc":
            pool.number(3, int(words[1])) if words[0] == "int" else pool.number(8, plain(words[1]))
    interfaces, fields, methods = [], [], []
    rest = iter(lines)
    for name, *words in rest:
        if name == "class":
            head = struct.pack(">HHH", int(words[0], 16), pool.named(7, words[1]), pool.named(7, words[2]))
        elif name == "implements":
            interfaces.append(struct.pack(">H", pool.named(7, words[0])))
        else:
            member = struct.pack(">HHH", int(words[0], 16), pool.text(words[1]), pool.text(words[2]))
            if name == "field":
                fields.append(member + struct.pack(">H", 0))
            elif len(words) == 3:
                methods.append(member + struct.pack(">H", 0))
            else:
                code_name = pool.text("Code")
                content = body_bytes(pool, words[3:], iter_body(rest))
                methods.append(member + struct.pack(">HHI", 1, code_name, len(content)) + content)
    tables = [struct.pack(">H", len(table)) + b"".join(table) for table in (interfaces, fields, methods)]
    return struct.pack(">IHH", 0xCAFEBABE, 0, 52) + pool.bytes() + head + b"".join(tables) + struct.pack(">H", 0)


def iter_body(rest):
    """The lines up to the one of `end`."""
    lines = []
    for line in rest:
        if line == ["end"]:
            return lines
        lines.append(line)
    raise ValueError("a body without an end")
