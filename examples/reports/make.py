#!/usr/bin/env python3
"""Writes the class files of crates/report_rows/data: three classes without methods, whose names and fields no Java source can
have (JVMS 8 chapter 4). The rows beside them and what is expected of them are written by hand.

Usage: examples/reports/make.py
"""

import struct
from pathlib import Path

HERE = Path(__file__).resolve().parent
DATA = HERE.parent.parent / "crates" / "report_rows" / "data"
PUBLIC, STATIC = 0x0001, 0x0008
OBJECT = "java/lang/Object"

# by the name of the file: the class, its superclass, and its fields, each with its flags, its name and its descriptor
CLASSES = {
    "Node": ("Node", OBJECT, [(0, "elem", "I"), (0, "next", "LNode;")]),
    # two fields of one name, an int and an array of objects of the class
    "Namesakes": ("a b", OBJECT, [(0, "f g", "I"), (0, "f g", "[La b;")]),
    # a long, which has no slot, beside an int of its name; an int and a static boolean of one name
    "Low": (
        "Low",
        "Node",
        [(0, "next", "I"), (0, "wide", "I"), (0, "wide", "J"), (0, "mark", "I"), (STATIC, "mark", "Z")],
    ),
}


def class_bytes(name, parent, fields):
    texts = [name, parent]
    for _, *words in fields:
        texts += [word for word in words if word not in texts]
    numbers = {text: number for number, text in enumerate(texts, start=1)}
    entries = [struct.pack(">BH", 1, len(text)) + text.encode() for text in texts]
    entries += [struct.pack(">BH", 7, numbers[text]) for text in (name, parent)]
    this = len(texts) + 1
    listed = [struct.pack(">HHHH", access, numbers[field], numbers[kind], 0) for access, field, kind in fields]
    return (
        struct.pack(">IHHH", 0xCAFEBABE, 0, 52, len(entries) + 1)
        + b"".join(entries)
        + struct.pack(">HHHHH", 0x0020 | PUBLIC, this, this + 1, 0, len(listed))
        + b"".join(listed)
        + struct.pack(">HH", 0, 0)
    )


for file, parts in CLASSES.items():
    (DATA / f"{file}.class").write_bytes(class_bytes(*parts))
