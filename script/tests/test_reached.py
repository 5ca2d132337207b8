"""What code reaches, and which classes are needed for it: by docs/USING.md and the rules of lookup (JVMS 8 chapters 5, 6)."""

from script.tests.maker import (
    ABSTRACT,
    ACONST_NULL,
    ALOAD_0,
    GETFIELD,
    ICONST_0,
    INTERFACE,
    INTERFACE_CALL,
    IRETURN,
    NEW,
    POP,
    PUTFIELD,
    RETURN,
    SPECIAL,
    STATIC_CALL,
    VIRTUAL,
    Maker,
)
from script.tests.test_places import needed
from script.tests.tools import call, folder, same

PUBLIC, PRIVATE, STATIC = 1, 2, 8
END = ICONST_0 + IRETURN


def naming(made, name):
    """Code that names a class, by which it is seen that the code is reached."""
    return NEW + made.class_ref(name) + POP


def with_method(name, method, names, flags=PUBLIC, **more):
    """A class with a method of these flags whose code names a class."""
    made = Maker(name, **more)
    return made.method(method, "()V", naming(made, names) + RETURN, access=flags)


def plain(*names):
    return [Maker(name) for name in names]


def call_of(made, how, owner, method, kind="()V"):
    """A call on null, or of a static method."""
    ref = made.interface_ref if how == INTERFACE_CALL else made.method_ref
    return (b"" if how == STATIC_CALL else ACONST_NULL) + how + ref(owner, method, kind)


def test_the_class_that_a_field_access_names():
    for access, back in ((GETFIELD, POP), (PUTFIELD, b"")):
        made = Maker("M")
        value = ICONST_0 if access == PUTFIELD else b""
        made.method("f", "()I", ACONST_NULL + value + access + made.field_ref("Sub", "x", "I") + back + END)
        classes = [made, Maker("Base").field("x", "I"), Maker("Sub", "Base"), *plain("Other")]
        same(needed(classes, "M.f()I"), ["Base", "M", "Sub"], "the class that is named, and the one that declares the field")


def test_the_type_of_a_field_that_is_accessed():
    """Its class, all below it, and of an array those of the elements; the field may be private and of a superclass."""
    for kind in ("LShape;", "[[LShape;"):
        for access in (0, PRIVATE):
            made = Maker("M", "Base")
            made.method("f", "()I", ACONST_NULL + GETFIELD + made.field_ref("M", "x", kind) + POP + END)
            base = Maker("Base").field("x", kind, access).field("y", "LUnread;")
            classes = [made, base, Maker("Shape", access=ABSTRACT), Maker("Round", "Shape"), Maker("Disc", "Round")]
            found = needed([*classes, *plain("Unread")], "M.f()I")
            same(found, ["Base", "Disc", "M", "Round", "Shape"], f"a field of type {kind} with flags {access}")


def test_the_type_of_a_static_field():
    """It is accessed too, though the method is refused for it."""
    made = Maker("M").field("x", "LNode;", STATIC)
    made.method("f", "()I", b"\xb2" + made.field_ref("M", "x", "LNode;") + POP + END)
    same(needed([made, *plain("Node", "Other")], "M.f()I"), ["M", "Node"], "a static field")


def test_a_field_of_another_descriptor():
    made = Maker("M").field("x", "LOther;").field("x", "LNode;")
    made.method("f", "()I", ACONST_NULL + GETFIELD + made.field_ref("M", "x", "LNode;") + POP + END)
    same(needed([made, *plain("Node", "Other")], "M.f()I"), ["M", "Node"], "two fields of one name")


def test_parameters_of_the_target_alone():
    made = Maker("M")
    made.method("f", "(LTaken;)I", call_of(made, STATIC_CALL, "M", "g", "(LPassed;)V") + END)
    made.method("g", "(LPassed;)V", RETURN)
    same(needed([made, *plain("Taken", "Passed")], "M.f(LTaken;)I"), ["M", "Taken"], "parameters")


def test_a_static_method_has_no_receiver():
    made = Maker("M").method("f", "()I", END)
    same(needed([made, Maker("Under", "M")], "M.f()I"), ["M"], "below the class of a static method")


def test_a_static_call_finds_the_method_above_the_named_class():
    made = Maker("M")
    made.method("f", "()I", call_of(made, STATIC_CALL, "Sub", "g") + END)
    classes = [made, with_method("Base", "g", "Deep", STATIC), Maker("Sub", "Base"), *plain("Deep", "Other")]
    same(needed(classes, "M.f()I"), ["Base", "Deep", "M", "Sub"], "a static method of a superclass")


def test_a_call_of_a_superclasss_method_begins_at_the_superclass():
    """JVMS 8 invokespecial: where the named class is a superclass, the direct superclass is looked at first."""
    made = Maker("M", "Mid")
    made.method("f", "()I", ALOAD_0 + SPECIAL + made.method_ref("Top", "g", "()V") + END, access=PUBLIC)
    mid, top = with_method("Mid", "g", "OfMid", parent="Top"), with_method("Top", "g", "OfTop")
    found = needed([made, mid, top, *plain("OfMid", "OfTop")], "M.f()I")
    same(found, ["M", "Mid", "OfMid", "Top"], "super.g()")


def test_an_initialiser_is_that_of_the_named_class():
    made = Maker("M", "Mid")
    made.method("f", "()I", NEW + made.class_ref("Top") + SPECIAL + made.method_ref("Top", "<init>", "()V") + END)
    mid, top = with_method("Mid", "<init>", "OfMid", parent="Top"), with_method("Top", "<init>", "OfTop")
    found = needed([made, mid, top, *plain("OfMid", "OfTop")], "M.f()I")
    same(found, ["M", "Mid", "OfTop", "Top"], "new Top()")


def test_a_private_method_is_that_of_the_own_class():
    made = Maker("M", "Top")
    made.method("f", "()I", ALOAD_0 + SPECIAL + made.method_ref("M", "g", "()V") + END, access=PUBLIC)
    made.method("g", "()V", naming(made, "Own") + RETURN, access=PRIVATE)
    found = needed([made, with_method("Top", "g", "OfTop"), *plain("Own", "OfTop")], "M.f()I")
    same(found, ["M", "Own", "Top"], "this.g()")


def test_code_of_an_interface_that_is_named():
    """I.super.g() runs the code that I declares."""
    made = Maker("M", interfaces=["I"])
    made.method("f", "()I", ALOAD_0 + SPECIAL + made.interface_ref("I", "g", "()V")[:2] + END, access=PUBLIC)
    face = with_method("I", "g", "Deep", interfaces=["J"], access=INTERFACE)
    classes = [made, face, Maker("J", access=INTERFACE), *plain("Deep", "Other")]
    same(needed(classes, "M.f()I"), ["Deep", "I", "J", "M"], "I.super.g()")


def test_what_a_call_selects():
    """The first method from the class of the object upwards that is neither private nor static, of each class below."""
    for how in (VIRTUAL, INTERFACE_CALL):
        named = Maker("Shape", access=INTERFACE if how == INTERFACE_CALL else ABSTRACT)
        above = {"interfaces": ["Shape"]} if how == INTERFACE_CALL else {"parent": "Shape"}
        made = Maker("M")
        made.method("f", "()I", call_of(made, how, "Shape", "g") + END)
        classes = [made, named.method("g", "()V", access=0x0401), with_method("Base", "g", "Public", **above)]
        classes += [with_method("Hidden", "g", "Private", PRIVATE, parent="Base")]
        classes += [with_method("Silent", "g", "Static", STATIC, parent="Base")]
        classes += [with_method("Own", "g", "Owned", parent="Base"), with_method("Apart", "g", "Never")]
        classes += [with_method("Unmade", "g", "Abstract", parent="Base", access=ABSTRACT)]
        found = needed([*classes, *plain("Public", "Private", "Static", "Owned", "Never", "Abstract")], "M.f()I")
        wanted = ["Base", "Hidden", "M", "Own", "Owned", "Public", "Shape", "Silent and 1 more"]
        same(found, wanted, "what is selected: one more is Unmade, of which no object is")


def test_objects_that_come_behind_a_call():
    """Below java/lang/Object and the platform's interfaces nothing is looked for, but what comes otherwise is selected."""
    face = "java/lang/Comparable"
    for first in (True, False):
        made = Maker("M")
        calls = call_of(made, INTERFACE_CALL, face, "g")
        makes = naming(made, "Late")
        made.method("f", "()I", (calls + makes if first else makes + calls) + END)
        late = with_method("Late", "g", "Deep", interfaces=[face])
        other = with_method("Never", "g", "Other", interfaces=[face])
        found = needed([made, late, other, *plain("Deep", "Other")], "M.f()I")
        same(found, ["Deep", "Late", "M"], f"a call of an interface of the platform, first: {first}")


def test_objects_of_classes_that_are_named_singly():
    with folder() as path:
        made = Maker("M")
        made.method("f", "()I", call_of(made, VIRTUAL, "java/lang/Object", "g") + END).write(path)
        with_method("Single", "g", "Deep").write(path)
        for other in plain("Deep", "Other"):
            other.write(path / "all")
        ran = call("explore", "--method", "M.f()I", "M.class", "Single.class", "all", cwd=path)
        same(ran.said[0], "of all (2 class files): Deep", "a class that is named singly")


def test_methods_that_call_one_another():
    made = Maker("M")
    made.method("f", "()I", call_of(made, STATIC_CALL, "M", "f", "()I") + POP + call_of(made, STATIC_CALL, "M", "g") + END)
    made.method("g", "()V", call_of(made, STATIC_CALL, "M", "f", "()I") + POP + naming(made, "Deep") + RETURN)
    same(needed([made, *plain("Deep", "Other")], "M.f()I"), ["Deep", "M"], "methods that call one another")


def test_code_behind_instructions_of_other_lengths():
    """Of switches with each padding, of wide, and of instructions of four and five bytes (JVMS 8 section 6.5)."""
    longs = [b"\xc4\x84\0\1\0\1", b"\xc4\x15\0\1" + POP, b"\xc8\0\0\0\5", b"\x10\1" + POP, b"\x11\0\1" + POP]
    for before in range(4):
        for long in [None, *longs]:
            code = with_switches(b"\0" * before + (long or b""))
            made = Maker("M")
            made.method("f", "(I)I", code + naming(made, "Deep") + END)
            same(needed([made, *plain("Deep", "Other")], "M.f(I)I"), ["Deep", "M"], f"behind {code!r}")


def with_switches(code):
    """The code, and behind it a tableswitch of -1 and 0 and a lookupswitch of 7, each to what stands behind it."""
    code += ICONST_0
    pad = -(len(code) + 1) % 4
    behind = int_bytes(1 + pad + 12 + 4 * 2)
    code += b"\xaa" + bytes(pad) + behind + int_bytes(-1) + int_bytes(0) + behind * 2 + ICONST_0
    pad = -(len(code) + 1) % 4
    behind = int_bytes(1 + pad + 8 + 8)
    return code + b"\xab" + bytes(pad) + behind + int_bytes(1) + int_bytes(7) + behind


def int_bytes(number):
    return number.to_bytes(4, "big", signed=True)


def test_a_target_that_is_an_initialiser_reaches_nothing():
    """A method whose name begins with < is none that a target names (refused 45)."""
    same(needed([with_method("M", "<init>", "Deep"), *plain("Deep")], "M.<init>()V"), ["M"], "an initialiser")


def test_interfaces_of_interfaces():
    made = Maker("M", interfaces=["I"]).method("f", "()I", END)
    classes = [made, Maker("I", interfaces=["J"], access=INTERFACE), Maker("J", access=INTERFACE), Maker("K", access=INTERFACE)]
    same(needed(classes, "M.f()I"), ["I", "J", "M"], "interfaces of interfaces")


TEST = "test {}\nbounds alloc 16 loops 10 depth 16 steps 2000\n{}returns 0\n{}end\n"


def test_a_replay_names_classes():
    """The class of each test, and each type of its `in` and `new` lines, an array by its element."""
    with folder() as path:
        for name in ("M", "N"):
            Maker(name).method("f", "()I", END).write(path / "all")
        for name in ("In", "New", "Of", "Other"):
            Maker(name).write(path / "all")
        text = TEST.format("M.f()I", "in i0 In\n", "out i0\nnew n0 New\nnew n1 [LOf; null\n") + TEST.format("N.f()I", "", "")
        (path / "a.tests").write_text(text, encoding="ascii")
        said = call("replay", "--tests", "a.tests", "all", cwd=path).said
        same(said[0], "of all (6 class files): In, M, N, New, Of", "classes of tests")
