"""Folders, archives, and the files beside a class file: what is taken of them, and what is said of it."""

import os
import shutil
import zipfile

from script.tests.maker import (
    ABSTRACT,
    ACONST_NULL,
    ALOAD_0,
    CAST,
    GETFIELD,
    ICONST_0,
    INTERFACE,
    INTERFACE_CALL,
    IRETURN,
    NEW,
    POP,
    STATIC_CALL,
    Maker,
    taking,
)
from script.tests.tools import DATA, call, environment, explained, folder, same, status_lines

SIZE = "p/List.size(Lp/List;)I"


def write_list(path):
    """A class with a field of a nested class, a method that reads it, and a class that it does not need."""
    made = Maker("p/List").field("head", "Lp/List$Node;").field("other", "Lp/Other;")
    read = ALOAD_0 + GETFIELD + made.field_ref("p/List", "head", "Lp/List$Node;") + POP
    made.method("size", "(Lp/List;)I", read + ICONST_0 + IRETURN)
    made.write(path)
    Maker("p/List$Node").write(path)
    Maker("p/List$Other").write(path)
    Maker("p/Other").write(path)


def write_archive(path, name="lib.jar"):
    """An archive of the class files in a folder, with another class of the name of one, which is not looked into."""
    with zipfile.ZipFile(path.parent / name, "w", zipfile.ZIP_DEFLATED) as archive:
        for named in ("p/List", "M"):
            archive.writestr(f"META-INF/versions/9/{named}.class", Maker(named).data())
        for file in sorted(path.rglob("*.class")):
            archive.write(file, file.relative_to(path))
    return path.parent / name


def paths_of(ran):
    """How many paths a report has."""
    return int(ran.out.decode("latin-1").split("\n")[-2].split()[1])


def test_a_folder_and_an_archive():
    with folder() as path:
        write_list(path / "classes")
        for name in ("lib.jar", "lib.zip", "LIB.JAR"):
            write_archive(path / "classes", name)
        shutil.copytree(path / "classes", path / "folder.jar")
        for place in ("classes", "lib.jar", "lib.zip", "LIB.JAR", "folder.jar"):
            ran = call("explore", "--method", SIZE, place, cwd=path)
            # no list; one without nodes; one with a node; each node is deeper than none
            same((ran.status, paths_of(ran)), (0, 3), place)
            same(ran.said, [f"of {place} (4 class files): p/List, p/List$Node"], place)


def test_files_beside_a_class_file():
    with folder() as path:
        write_list(path)
        ran = call("explore", "--method", SIZE, "p/List.class", cwd=path)
        same((ran.status, paths_of(ran)), (0, 3), "nested classes")
        same(ran.said, ["of p/List$*.class (2 class files): p/List$Node"], "nested classes")
        ran = call("explore", "--method", SIZE, "p/List.class", "p/List$Node.class", cwd=path)
        same((ran.status, paths_of(ran), ran.said), (0, 3, []), "a nested class that is named")
        for name in ("ListNode.class", "List.Node.class", "List$Node.txt", "MyList$Node.class"):
            (path / "p/List$Node.class").replace(path / "p" / name)
            ran = call("explore", "--method", SIZE, "p/List.class", cwd=path)
            same(ran.said[0].startswith("warning: class p/List$Node is not given"), True, ran.said[0])
            (path / "p" / name).replace(path / "p/List$Node.class")
        said = call("explore", "--method", SIZE, "List.class", cwd=path / "p").said
        same(said, ["of List$*.class (2 class files): p/List$Node"], "class files of this folder")


def test_files_beside_stand_behind_their_class_file():
    with folder() as path:
        write_list(path)
        (path / "Z.class").write_bytes((DATA / "magic.class").read_bytes())
        ran = call("explore", "--method", SIZE, "p/List.class", "Z.class", cwd=path)
        same(ran.out, b"refused 10 file 2\n", "a class file behind them")
        same(ran.said[1:], explained("refused 10 file F", "file 2 is Z.class"), "a class file behind them")
        (path / "p/List$Node.class").write_bytes(Maker("p/List$Node").data() + b"\0")
        ran = call("explore", "--method", SIZE, "p/List.class", cwd=path)
        same(ran.said[1:], explained("refused 17 file F at N", "file 1 is p/List$Node.class"), "a file beside")


def test_one_class_twice():
    """Of one name the first counts, and a class file that is named singly before all."""
    with folder() as path:
        write_list(path / "one")
        Maker("p/List").write(path / "two")
        write_archive(path / "two", "two.jar")
        for words, said in [
            (["one", "two.jar"], ["of one (4 class files): p/List, p/List$Node", "of two.jar (1 class file): nothing"]),
            (["two.jar", "one"], ["of two.jar (1 class file): p/List", "of one (4 class files): nothing"]),
            (
                ["two", "one/p/List.class"],
                ["of two (1 class file): nothing", "of one/p/List$*.class (2 class files): p/List$Node"],
            ),
        ]:
            ran = call("explore", "--method", SIZE, *words, cwd=path)
            form = "refused 45 TARGET" if words[0] == "two.jar" else None
            same(ran.said, said + (explained(form) if form else []), words)


def test_one_class_twice_in_a_place():
    """The first by rising names of the files counts, whatever is written first."""
    for first, second in (("a", "b"), ("b", "a")):
        with folder() as path:
            write_list(path / "all" / first)
            Maker("p/List").write(path / "all" / second)
            with zipfile.ZipFile(path / "lib.jar", "w") as archive:
                for file in (*(path / "all/b").rglob("*.class"), *(path / "all/a").rglob("*.class")):
                    archive.write(file, file.relative_to(path / "all"))
            for place in ("all", "lib.jar"):
                ran = call("explore", "--method", SIZE, place, cwd=path)
                taken = "p/List, p/List$Node" if first == "a" else "p/List"
                same(ran.said[0], f"of {place} (5 class files): {taken}", f"one class twice in {place}")
                same(ran.status, 0 if first == "a" else 4, f"one class twice in {place}")


def test_where_class_files_stand():
    """Those named singly stand in their places, those of a place where its word stood, by rising names."""
    with folder() as path:
        write_list(path / "classes")
        (path / "X.class").write_bytes((DATA / "magic.class").read_bytes())
        ran = call("explore", "--method", SIZE, "classes", "X.class", cwd=path)
        said = ["of classes (4 class files): p/List, p/List$Node", *explained("refused 10 file F", "file 2 is X.class")]
        same((ran.out, ran.said), (b"refused 10 file 2\n", said), "behind a folder")
        ran = call("explore", "--method", SIZE, "X.class", "classes", cwd=path)
        same(ran.out, b"refused 10 file 0\n", "before a folder")


def test_a_class_file_of_an_archive_is_called_by_it():
    with folder() as path:
        write_list(path / "classes")
        (path / "classes/p/List$Node.class").write_bytes(Maker("p/List$Node").data() + b"\0")
        write_archive(path / "classes")
        at = len(Maker("p/List$Node").data())
        ran = call("explore", "--method", SIZE, "lib.jar", cwd=path)
        same(ran.out.decode(), f"refused 17 file 1 at {at}\n", "a damaged class file of an archive")
        wanted = explained("refused 17 file F at N", "file 1 is lib.jar!/p/List$Node.class")
        same(ran.said[1:], wanted, "a damaged class file of an archive")


def test_one_class_twice_in_one_folder():
    for first, second in (("A", "B"), ("B", "A")):
        with folder() as path:
            write_list(path / "all")
            (path / "all/p/List.class").rename(path / f"all/p/{first}.class")
            Maker("p/List").write(path / "all", f"p/{second}.class")
            ran = call("explore", "--method", SIZE, "all", cwd=path)
            same(ran.said[0].startswith("of all (5 class files): p/List"), True, ran.said[0])
            same(ran.status, 0 if first == "A" else 4, f"the class of {first}.class")


def test_a_class_file_whose_name_cannot_be_read():
    """It goes by its path in the place, and is refused where it is needed."""
    with folder() as path:
        write_list(path / "classes")
        (path / "classes/p/List$Node.class").write_bytes(Maker("p/List$Node").data()[:12])
        (path / "classes/p/Other.class").write_bytes(Maker("p/Other").data()[:12])
        write_archive(path / "classes")
        for words, file in [
            (["classes"], "classes/p/List$Node.class"),
            (["lib.jar"], "lib.jar!/p/List$Node.class"),
            (["--k", "2", "classes"], "classes/p/List$Node.class"),
        ]:
            ran = call("explore", "--method", SIZE, *words, cwd=path)
            same(ran.said[0], f"of {words[-1]} (4 class files): p/List, p/List$Node", words)
            same((ran.status, ran.out.decode().split()[:4]), (3, "refused 12 file 1".split()), words)
            same(ran.said[1:], explained("refused 12 file F at N", f"file 1 is {file}"), words)
        ran = call("explore", "--method", "p/List$Node.f()I", "classes/p", cwd=path)
        same((ran.status, ran.said[0]), (6, "no class p/List$Node in classes/p"), "a path from elsewhere")


def padded(made, length):
    """A class file of that length, with an attribute that nobody reads (JVMS 8 section 4.7)."""
    short = len(made.data()) + len(made.attribute("Padding", b""))
    made.attributes.append(made.attribute("Padding", bytes(length - short - len(b"\1\0\7Padding"))))
    same(len(made.data()), length, "the length of a padded class file")
    return made


def test_the_longest_class_files():
    """One of 1,048,576 bytes is read, and one of a byte more refused, as docs/USING.md says."""
    for length, status, output in [(1_048_576, 0, b"kiasan report 1"), (1_048_577, 3, b"refused 19 file 0")]:
        with folder() as path:
            padded(Maker("M").method("f", "()I", ICONST_0 + IRETURN), length).write(path / "all")
            write_archive(path / "all")
            for words in (["all"], ["lib.jar"], ["all/M.class"]):
                ran = call("explore", "--method", "M.f()I", *words, cwd=path)
                same((ran.status, ran.out.split(b"\n")[0]), (status, output), f"{length} bytes, {words}")


def test_a_folder_whose_name_is_that_of_an_option():
    """A class file of it that stands first is no option of the program."""
    with folder() as path:
        (path / "empty").mkdir()
        Maker("Other").write(path / "empty")
        write_list(path / "--k")
        ran = call("explore", "--method", SIZE, "empty", "--k", cwd=path)
        said = ["of empty (1 class file): nothing", "of --k (4 class files): p/List, p/List$Node"]
        same((ran.status, paths_of(ran), ran.said), (0, 3, said), "a folder that is called --k")


def test_archives_in_a_folder_are_not_looked_into():
    with folder() as path:
        write_list(path / "classes")
        (path / "all").mkdir()
        write_archive(path / "classes").rename(path / "all/lib.jar")
        ran = call("explore", "--method", SIZE, "all", cwd=path)
        same((ran.status, ran.said), (6, ["cannot read all: is a folder without class files"]), "an archive in a folder")
        with zipfile.ZipFile(path / "none.jar", "w") as archive:
            archive.writestr("p/List.txt", b"")
            archive.writestr("META-INF/List.class", Maker("p/List").data())
        ran = call("explore", "--method", SIZE, "none.jar", cwd=path)
        same((ran.status, ran.said), (6, ["cannot read none.jar: is an archive without class files"]), "an archive without any")


def test_words_of_diagrams():
    """The words are those of explore, and so is the number of paths."""
    with folder() as path:
        write_list(path / "all")
        ran = call("diagrams", "--method", SIZE, "all", cwd=path)
        drawn = [line for line in ran.out.decode().splitlines() if line.startswith("diagram ")]
        same((ran.status, len(drawn)), (0, 3), "diagrams")
        same(ran.said, ["of all (4 class files): p/List, p/List$Node"], "diagrams")


def test_a_file_of_a_folder_that_cannot_be_read():
    """As root every file may be read, so the call is made as nobody; then only where nobody may run the script."""
    other = {"user": 65534, "group": 65534} if os.geteuid() == 0 else {}
    with folder() as path:
        path.chmod(0o755)
        write_list(path / "all")
        (path / "all/p/Other.class").chmod(0)
        (path / "all/secret").mkdir(mode=0)
        try:
            ran = call("explore", "--method", SIZE, "all", cwd=path, **other)
        except PermissionError:
            return
        finally:
            (path / "all/secret").chmod(0o755)
        said = [f"warning: cannot read all/{name}: Permission denied" for name in ("secret", "p/Other.class")]
        same((ran.status, ran.said), (0, [*said, "of all (3 class files): p/List, p/List$Node"]), "files without rights")


def needed(classes, method, *words):
    """What is taken of a folder with these classes for a method."""
    with folder() as path:
        for made in classes:
            made.write(path / "all")
        ran = call("explore", "--method", method, *words, "all", cwd=path)
        same(ran.status != 3, True, f"class files that have no fault: {ran.out}")
        line = next(line for line in ran.said if line.startswith("of all"))
        return line.partition(": ")[2].split(", ")


def test_what_code_names_is_needed():
    made = Maker("M", "Above", ["Face"])
    code = STATIC_CALL + made.method_ref("Called", "g", "()V") + NEW + made.class_ref("Made") + POP
    code += ACONST_NULL + CAST + made.class_ref("[[LCast;") + POP + ACONST_NULL + b"\xc1" + made.class_ref("Tested") + POP
    code += ICONST_0 + b"\xbd" + made.class_ref("Element") + POP + ALOAD_0
    code += GETFIELD + made.field_ref("Holder", "held", "[LHeld;") + POP + ICONST_0 + IRETURN
    made.method("f", "(LHolder;)I", code)
    called = Maker("Called")
    called.method("g", "()V", NEW + called.class_ref("Later") + POP + b"\xb1")
    holder = Maker("Holder").field("held", "[LHeld;").field("unread", "LUnread;")
    others = [Maker(name) for name in "Above Made Cast Tested Element Held Later Unread Unnamed".split()]
    found = needed([made, called, holder, Maker("Face", access=INTERFACE), *others], "M.f(LHolder;)I")
    # the three that are not listed are M, Made and Tested: no code names Unread and Unnamed
    same(found, ["Above", "Called", "Cast", "Element", "Face", "Held", "Holder", "Later and 3 more"], "what code names")


def test_what_is_below_is_needed():
    """Below the receiver's class, the types of parameters and of accessed fields, and the class that a call names."""
    shape = Maker("Shape", access=INTERFACE).method("area", "()I", access=0x0401)
    made = Maker("M")
    made.method("f", "(LObjects;)I", ICONST_0 + IRETURN)
    made.method("g", "()I", ALOAD_0 + INTERFACE_CALL + made.interface_ref("Shape", "area", "()I") + IRETURN, access=1)
    round_ = Maker("Round", "Base", ["Shape"])
    round_.method("area", "()I", NEW + round_.class_ref("Pen") + POP + ICONST_0 + IRETURN, access=1)
    classes = [shape, made, round_, Maker("Under", "M"), Maker("Less", "Objects")]
    classes += [Maker(name) for name in ("Base", "Pen", "Objects", "Alone")]
    same(needed(classes, "M.f(LObjects;)I"), ["Less", "M", "Objects"], "below a parameter's class")
    found = needed(classes, "M.g()I")
    same(found, ["Base", "M", "Pen", "Round", "Shape", "Under"], "below a receiver's class, and what a call selects")


def test_nothing_is_looked_for_below_the_platforms_roots():
    made = taking("M", "java/lang/Object", "java/lang/Comparable")
    other = Maker("Other", interfaces=["java/lang/Comparable"])
    found = needed([made, Maker("Any"), other], "M.f(Ljava/lang/Object;Ljava/lang/Comparable;)I")
    same(found, ["M"], "below java/lang/Object")


def test_65_class_files_are_needed():
    with folder() as path:
        Maker("M", "Top").method("f", "(LShape;)I", ICONST_0 + IRETURN).write(path / "all")
        Maker("Top").write(path / "all")
        Maker("Shape", access=ABSTRACT).write(path / "all")
        for number in range(61):
            Maker(f"S{number:02}", "Shape").write(path / "all")
        same(call("explore", "--method", "M.f(LShape;)I", "all", cwd=path).status, 0, "64 class files")
        Maker("Last", "S00").write(path / "all")
        ran = call("explore", "--method", "M.f(LShape;)I", "all", cwd=path)
        same((ran.status, ran.out), (4, b"refused 49\n"), "65 class files")
        why = "65 class files are needed: 3 by the code, 62 since they are below Shape; name singly those that are to count"
        taken = "of all (65 class files): Last, M, S00, S01, S02, S03, S04, S05 and 57 more"
        same(ran.said, [taken, *explained("refused 49", why)], "65 class files")


def test_why_so_many():
    """Those named singly, those by the code, and those below a class, of which most stand first."""
    with folder() as path:
        made = Maker("M")
        made.method("f", "(LFew;LMany;)I", NEW + made.class_ref("Made") + POP + ICONST_0 + IRETURN).write(path)
        for name in ("Made", "Few", "Many"):
            Maker(name).write(path / "all")
        for number in range(20):
            Maker(f"F{number:02}", "Few").write(path / "all")
        for number in range(40):
            Maker(f"G{number:02}", "Many").write(path / "all")
        same(call("explore", "--method", "M.f(LFew;LMany;)I", "M.class", "all", cwd=path).status, 5, "64 class files")
        Maker("H", "Few").write(path / "all")
        ran = call("explore", "--method", "M.f(LFew;LMany;)I", "M.class", "all", cwd=path)
        why = "65 class files are needed: 1 named singly, 3 by the code, 40 since they are below Many, "
        why += "21 since they are below Few; name singly those that are to count"
        same(ran.said[1:], explained("refused 49", why), "65 class files")


def test_65_class_files_that_are_named_singly():
    """Who names them has chosen, so nothing is said of what is needed."""
    with folder() as path:
        files = [Maker(f"S{number:02}").write(path) for number in range(65)]
        same(call("explore", "--method", "S00.f()I", *files, cwd=path).said, explained("refused 49"), "65 class files")


def test_near_names():
    """At most eight, those first that have most in common with the wanted one."""
    with folder() as path:
        names = ["p/Lists", "q/List", *(f"p/List{number:02}" for number in range(10)), "Unlike"]
        for name in names:
            Maker(name).write(path / "all")
        ran = call("explore", "--method", "p/List.f()I", "all", cwd=path)
        near = ran.said[1].removeprefix("near names: ").split(", ")
        same((ran.said[0], len(near), set(near) <= set(names[:-1])), ("no class p/List in all", 8, True), "near names")
        same(sorted(near[:2]), ["p/Lists", "q/List"], "the nearest names")


def test_near_names_of_other_letters():
    """Small and capital letters count as the same."""
    with folder() as path:
        for name in ("coll/MyList", "Unlike"):
            Maker(name).write(path / "all")
        for word in ("coll/mylist", "coll/MYLIST", "COLL/MYLIST", "mylist"):
            ran = call("explore", "--method", f"{word}.f()I", "all", cwd=path)
            same((ran.status, ran.said), (6, [f"no class {word} in all", "near names: coll/MyList"]), word)


def test_a_class_that_is_not_beside():
    """Where the one place is what lies beside a class file, the program says that the class is not there."""
    with folder() as path:
        write_list(path)
        ran = call("explore", "--method", "p/Lst.f()I", "p/List.class", cwd=path)
        same((ran.status, ran.out), (4, b"refused 45 p/Lst.f()I\n"), "a slip, and no place that was named")


def test_the_targets_class_is_not_there():
    with folder() as path:
        write_list(path / "classes")
        write_archive(path / "classes")
        ran = call("explore", "--method", "p/Lst.f()I", "classes", "lib.jar", cwd=path)
        same((ran.status, ran.out), (6, b""), "a slip in a class's name")
        said = ran.said
        same(said[0], "no class p/Lst in classes, lib.jar", "a slip in a class's name")
        same(said[1].split(", ")[0], "near names: p/List", "a slip in a class's name")
        ran = call("explore", "--method", "Quite.f()I", "classes", cwd=path)
        same((ran.status, ran.said), (6, ["no class Quite in classes"]), "no near name")


def test_a_damaged_archive():
    with folder() as path:
        write_list(path / "classes")
        data = write_archive(path / "classes").read_bytes()
        (path / "cut.jar").write_bytes(data[:-30])
        (path / "empty.zip").write_bytes(b"")
        for name in ("cut.jar", "empty.zip"):
            ran = call("explore", "--method", SIZE, name, cwd=path)
            same((ran.status, ran.out), (6, b""), name)
            same(ran.said, [f"cannot read {name}: File is not a zip file"], name)
        said = call("explore", "--method", SIZE, "gone.jar", cwd=path).said
        same(said, ["cannot read gone.jar: No such file or directory"], "no archive")


def test_a_damaged_entry_of_an_archive():
    with folder() as path:
        write_list(path / "classes")
        data = bytearray(write_archive(path / "classes").read_bytes())
        at = data.index(b"p/Other.class") + len("p/Other.class")
        data[at : at + 4] = b"\xff\xff\xff\xff"
        (path / "bad.jar").write_bytes(data)
        ran = call("explore", "--method", SIZE, "bad.jar", cwd=path)
        same((ran.status, len(ran.said)), (0, 2), "a damaged entry")
        same(ran.said[0].startswith("warning: cannot read bad.jar!/p/Other.class: "), True, ran.said[0])
        same(ran.said[1], "of bad.jar (3 class files): p/List, p/List$Node", "a damaged entry")


def test_a_damaged_entry_of_the_target():
    with folder() as path:
        write_list(path / "classes")
        data = bytearray(write_archive(path / "classes").read_bytes())
        at = data.index(b"p/List.class", data.index(b"p/List$Other.class")) + len("p/List.class")
        data[at : at + 4] = b"\xff\xff\xff\xff"
        (path / "bad.jar").write_bytes(data)
        ran = call("explore", "--method", SIZE, "bad.jar", cwd=path)
        same((ran.status, ran.said[0]), (6, "no class p/List in bad.jar"), "the target's damaged class")
        same(ran.said[1].startswith("warning: cannot read bad.jar!/p/List.class: "), True, ran.said[1])


def test_no_file_is_left_behind():
    with folder() as path:
        write_list(path / "classes")
        write_archive(path / "classes")
        (path / "tmp").mkdir()
        for words in ([SIZE, "lib.jar"], ["p/List.none()I", "lib.jar"], ["p/Lst.f()I", "lib.jar"]):
            call("explore", "--method", *words, cwd=path, env=environment(TMPDIR=str(path / "tmp")))
            same(list((path / "tmp").iterdir()), [], words)


def test_odd_names():
    """A class file whose folder has a space, a `;`, a line feed, or bytes that are no UTF-8 in its name."""
    odd = b"a b;c\nd$e/\xff"
    with folder() as path:
        write_list(path / "classes")
        os.makedirs(os.path.join(os.fsencode(path), b"odd", odd))
        os.rename(os.path.join(os.fsencode(path), b"classes"), os.path.join(os.fsencode(path), b"odd", odd, b"in"))
        ran = call("explore", "--method", SIZE, "odd", cwd=path)
        same((ran.status, paths_of(ran)), (0, 3), "odd names")
        same(ran.said, ["of odd (4 class files): p/List, p/List$Node"], "odd names")
        odd = os.path.join(os.fsencode(path), b"odd", b"a b;c\nd$e")
        ran = call("explore", "--method", SIZE, odd, cwd=path)
        shown = str(path / "odd" / "a b;c%0Ad$e")
        same(ran.said, [f"of {shown} (4 class files): p/List, p/List$Node"], "a word with a line feed")


def test_a_class_whose_name_is_odd():
    with folder() as path:
        taking("a b=c", "a b=c").write(path / "all", "x.class")
        ran = call("explore", "--method", "a%20b%3Dc.f(La%20b%3Dc;)I", "all", cwd=path)
        same((ran.status, ran.said), (0, ["of all (1 class file): a%20b%3Dc"]), "an odd class name")


def test_what_is_no_class_file_is_passed_over():
    with folder() as path:
        write_list(path / "all")
        (path / "all/Text.class").write_text("none", encoding="ascii")
        (path / "all/p/Source.java").write_text("none", encoding="ascii")
        (path / "all/p/Gone.class").symlink_to("nowhere")
        (path / "all/p/List$Folder.class").mkdir()
        same(call("explore", "--method", SIZE, "all", cwd=path).said, ["of all (4 class files): p/List, p/List$Node"], "others")
        ran = call("explore", "--method", SIZE, "all/p/List.class", cwd=path)
        same(ran.said, ["of all/p/List$*.class (2 class files): p/List$Node"], "others beside a class file")


def test_words_without_a_target_are_handed_on():
    with folder() as path:
        write_list(path / "all")
        for words, form in [(["explore", "all"], "refused 95"), (["explore", "--k", "17", "--method", SIZE, "all"], None)]:
            ran = call(*words, cwd=path)
            same(ran.status, 2, words)
            wanted = explained(form) if form else explained("refused 94 word W", "word 2 is --k 17, --k takes 0 to 16")
            same(ran.said, wanted, words)
        ran = call("explore", "--method", "p.List.size(Lp/List;)I", "all", cwd=path)
        wanted = explained("refused 98 word W", "word 2 is --method p.List.size(Lp/List;)I", f"there is {SIZE}")
        same(ran.said, wanted, "a target with dots")


TEST = """test M.f(Ljava/lang/Object;)I
bounds alloc 16 loops 10 depth 16 steps 2000
arg i0
in i0 {}{}
returns 0
out i0{}
end
"""


def test_replay_takes_what_tests_name():
    with folder() as path:
        taking("M", "java/lang/Object").field("held", "[LHeld;").write(path / "all")
        Maker("Held", "Above").write(path / "all")
        Maker("Above").write(path / "all")
        Maker("Other").write(path / "all")
        (path / "a.tests").write_text(TEST.format("Held", "", "") + TEST.format("[LHeld;", " null", " null"), encoding="ascii")
        ran = call("replay", "--tests", "a.tests", "all", cwd=path)
        same((ran.status, ran.out), (0, b"test 0 passes\ntest 1 passes\ntests 2 passed 2 differed 0\n"), "replay")
        same(ran.said, ["of all (4 class files): Above, Held, M"], "replay")


def test_a_status_behind_a_place():
    with folder() as path:
        write_list(path / "all")
        ran = call("explore", "--paths", "1", "--method", SIZE, "all", cwd=path)
        same((ran.status, ran.said[1:]), (1, status_lines(1)), "open paths of a folder")
