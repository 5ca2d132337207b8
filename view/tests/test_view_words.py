"""The words of view and junit: each WHAT, faults of words, of files and of reports, and their statuses."""

from script.tests.maker import ACONST_NULL, ARETURN, Maker
from script.tests.tools import DATA, ROOT, call, folder, same

from .tools import box, lines_of, stored

EXAMPLES = ROOT / "examples"
CALL = "view [--text] [--only WHAT].. [--fail-on WHAT].. [--run] REPORT [FILE..]"
NAMES_NO_PATH = "names no path: throws, a class, returns=VALUE, cut, cut=BOUND, undecided, open or illtyped"
UNKNOWN = "but nothing is known of 2 cut, 1 undecided, 1 open paths"
# The report `forms`, with each WHAT: the status and the paths that are told.
FORMS = (
    ("throws", 10, ["0 throws"]),
    ("NullPointerException", 10, ["0 throws"]),
    ("java.lang.NullPointerException", 10, ["0 throws"]),
    ("java/lang/RuntimeException", 10, ["0 throws"]),
    ("Exception", 10, ["0 throws"]),
    ("Box", 0, [f"no path throws Box, {UNKNOWN}"]),
    ("p.Box", 0, [f"no path throws p/Box, {UNKNOWN}"]),
    ("ArithmeticException", 0, [f"no path throws ArithmeticException, {UNKNOWN}"]),
    ("returns", 10, ["1.0 returns"]),
    ("returns=null", 0, [f"no path returns null, {UNKNOWN}"]),
    (
        "returns=5",
        0,
        ["no path returns 5: the method's result is Ljava/lang/Object;", f"no path returns 5, {UNKNOWN}"],
    ),
    ("cut", 10, ["1.1.0 cut by array", "1.1.1 cut by k"]),
    ("cut=k", 10, ["1.1.1 cut by k"]),
    ("cut=loops", 0, [f"no path is cut by loops, {UNKNOWN}"]),
    ("undecided", 10, ["3 undecided"]),
    ("open", 10, ["4 open"]),
    ("illtyped", 10, ["2 is ill-typed"]),
)
FAULTS = (
    ([], f"view: no report is named: {CALL}"),
    (["--text"], f"view: no report is named: {CALL}"),
    (["--page", "x"], f"view: --page is no option: {CALL}"),
    (["--only"], f"view: --only has no value: {CALL}"),
    (["--only=throws", "r"], f"view: --only=throws is no option, write --only throws: {CALL}"),
    (["--txt=1", "r"], f"view: --txt=1 is no option: {CALL}"),
    (["r", "--text"], f"view: --text stands behind REPORT, and options stand before it: {CALL}"),
    (["r", "A.class", "--only", "throws"], f"view: --only stands behind REPORT, and options stand before it: {CALL}"),
    (["--only", "returns=x", "r"], f"returns=x {NAMES_NO_PATH}"),
    (["--only", "returns=01", "r"], f"returns=01 {NAMES_NO_PATH}"),
    (["--only", "returns=2147483648", "r"], f"returns=2147483648 {NAMES_NO_PATH}"),
    (["--fail-on", "cut=budget", "r"], f"cut=budget {NAMES_NO_PATH}"),
    (["--fail-on", "", "r"], f" {NAMES_NO_PATH}"),
    (["--fail-on", "a b", "r"], f"a b {NAMES_NO_PATH}"),
    (["--fail-on", "throws=X", "r"], f"throws=X {NAMES_NO_PATH}"),
)


def written(place, data, name="r"):
    (place / name).write_bytes(data)
    return name


def starts(line, wanted):
    return line == wanted or line.startswith(f"path {wanted}")


def test_each_what_with_its_status():
    with folder() as place:
        written(place, stored("forms"))
        box(place)
        for what, status, wanted in FORMS:
            ran = call("view", "--text", "--fail-on", what, "r", ".", cwd=place)
            same((ran.status, len(ran.said)), (status, len(wanted)), f"{what}: {ran.said}")
            for line, each in zip(ran.said, wanted):
                same(starts(line, each), True, f"{what}: {line}")


def test_only_leaves_out_other_paths_and_keeps_the_counts():
    with folder() as place:
        written(place, stored("forms"))
        for what, status, wanted in FORMS:
            ran = call("view", "--text", "--only", what, "r", cwd=place)
            text = ran.out.decode()
            found = [line[5:].partition(":")[0] for line in text.split("\n") if line.startswith("path ")]
            paths = [each.partition(" ")[0] for each in wanted] if status else []
            same((ran.status, found), (0, paths), what)
            counts = "returns 1, throws NullPointerException 1, ill-typed 1, cut by array 1, cut by k 1, undecided 1, open 1"
            same(counts in text.split("\n"), True, what)
            there = f"Shown are those of --only {what}, {len(paths)} of 7 paths; what is counted and said above is of all."
            same(there in text.split("\n"), True, f"what is said of --only {what}")


def test_a_slip_is_no_what():
    """A class that is neither given nor of the report nor of the platform stops what a build asks for."""
    with folder() as place:
        written(place, stored("forms"))
        Maker("q/TooLong", parent="java/lang/Exception").write(place)
        Maker("q/Deep", parent="q/Above").write(place)
        for what, near in [
            ("NullPointerExcption", "NullPointerException"),
            ("throw", "throws"),
            ("TooLon", "TooLong"),
            ("illtype", "illtyped"),
            ("q.Zzz", None),
        ]:
            for option in ("--fail-on", "--only"):
                ran = call("view", "--text", option, "throws", option, what, "r", "q/TooLong.class", cwd=place)
                named = what.replace(".", "/")
                says = f"{named} names no path: no class of that name is given, of the report or of the platform"
                same((ran.status, ran.out, ran.said[0]), (2, b"", says), what)
                nearest = ran.said[1].partition(": ")[2].split(", ")[0] if ran.said[1:] else None
                same(nearest, near, f"what is near to {what}")
        for what in ("TooLong", "q.TooLong", "Error", "Above", "Box"):
            ran = call("view", "--text", "--fail-on", what, "r", "q", cwd=place)
            same(ran.status, 0, f"{what}, which is given or named, and never thrown: {ran.said}")


def test_several_whats():
    with folder() as place:
        written(place, stored("forms"))
        ran = call(
            "view", "--text", "--fail-on", "open", "--fail-on", "illtyped", "--only", "cut=k", "--only", "open", "r", cwd=place
        )
        same(ran.status, 10, "the status")
        same([line.split(" where")[0] for line in ran.said], ["path 2 is ill-typed", "path 4 open"], "what fails")
        found = [line.split(":")[0] for line in ran.out.decode().split("\n") if line.startswith("path ")]
        same(found, ["path 1.1.1", "path 4"], "what is shown")


def test_a_value_that_is_a_term_may_be_returned():
    with folder() as place:
        ran = call("explore", "--method", "A.f(II)I", "A.class", cwd=EXAMPLES)
        written(place, ran.out)
        ran = call("view", "--text", "--fail-on", "returns=5", "r", EXAMPLES / "A.class", cwd=place)
        same((ran.status, ran.said), (10, ["path - may return 5: it returns a + b".replace("a + b", "arg0 + arg1")]), "a term")
        ran = call("view", "--text", "--fail-on", "returns=true", "r", cwd=place)
        same((ran.status, ran.said), (0, ["no path returns true: the method's result is I"]), "a boolean")


def test_booleans_that_are_returned():
    with folder() as place:
        ran = call("explore", "--method", "List.contains(I)Z", "--k", "1", "List.class", cwd=EXAMPLES)
        written(place, ran.out)
        for what in ("returns=true", "returns=false"):
            said = call("view", "--text", "--fail-on", what, "r", cwd=place).said
            same([line.split(" ")[3] for line in said], [what[len("returns=") :]], f"{what}: {said}")
        same(
            call("view", "--text", "--fail-on", "returns=1", "r", cwd=place).said[0],
            "no path returns 1: the method's result is Z",
            "an int",
        )


def test_an_exception_of_a_class_that_is_not_given_may_be_it():
    with folder() as place:
        data = stored("forms").replace(b"java/lang/NullPointerException", b"q/Bad")
        written(place, data)
        ran = call("view", "--text", "--fail-on", "Exception", "r", cwd=place)
        same((ran.status, ran.said[0].split(":")[0]), (10, "path 0 may throw Exception"), "an unknown class")
        Maker("q/Bad", parent="java/lang/Error").write(place)
        same(call("view", "--text", "--fail-on", "Exception", "r", ".", cwd=place).status, 0, "an error is no exception")
        for what in ("q.Bad", "Bad", "Error", "java.lang.Error"):
            same(call("view", "--text", "--fail-on", what, "r", ".", cwd=place).status, 10, what)


def test_at_most_twenty_paths_are_told():
    with folder() as place:
        ran = call("explore", "--method", "List.reverse(LList;)LList;", "--k", "7", "List.class", cwd=EXAMPLES)
        written(place, ran.out)
        said = call("view", "--text", "--fail-on", "returns", "r", cwd=place).said
        same(len(said), 21, "lines")
        ended = ran.out.count(b"\nreturns ")
        same(said[-1], f"and {ended - 20} more paths", "the last line")
        ran = call("explore", "--method", "List.reverse(LList;)LList;", "--k", "5", "List.class", cwd=EXAMPLES)
        said = call("view", "--text", "--fail-on", "returns", written(place, ran.out), cwd=place).said
        same((len(said), said[-1]), (21, "and 1 more path"), "one path more than are told")
        ran = call("explore", "--method", "List.reverse(LList;)LList;", "--k", "1", "List.class", cwd=EXAMPLES)
        said = call("view", "--text", "--fail-on", "throws", written(place, ran.out), cwd=place).said
        same(said, ["no path throws, but nothing is known of 1 cut path"], "one path of which nothing is known")


def test_faults_of_words():
    for words, said in FAULTS:
        ran = call("view", *words)
        same((ran.status, ran.out, ran.said), (2, b"", [said]), words)


def test_faults_of_reports():
    with folder() as place:
        lines = lines_of(stored("forms"))
        for count in range(len(lines)):
            data = b"".join(lines[:count])
            ran = call("view", "--text", written(place, data), cwd=place)
            front = f"r is no report: line {count + 1}: "
            same((ran.status, ran.out, ran.said[0][: len(front)]), (9, b"", front), f"cut behind line {count}")
        for data, says in [
            (b"", "it is empty"),
            (b"text\n", "a line that begins with kiasan is expected here"),
            (b"kiasan report 2\n", "the line kiasan report 1 is expected here"),
            (b"refused 50\n", "it is a refusal, refused 50: `./kiasan explain 50` says what it means"),
            (b"refused 45 A.g()I\n", "it is a refusal, refused 45 A.g()I: `./kiasan explain 45` says what it means"),
            (b"refused 50", "the line has no line feed behind it"),
            (b"refused of all\n", "a line that begins with kiasan is expected here"),
            (b"\xca\xfe\xba\xbe\0\0\0\x34", "it is a class file"),
            ((DATA / "a.tests").read_bytes(), "it is a file of tests, as `./kiasan tests` writes it"),
            (b"PK\x03\x04", "it is an archive"),
            (b"<!DOCTYPE html>\n", "it is a page"),
        ]:
            written(place, data)
            for word, named in [("r", "r"), ("-", "standard input")]:
                with open(place / "r", "rb") as file:
                    ran = call("view", word, cwd=place, stdin=file)
                wanted = [f"{named} is no report: line 1: {says}"]
                same((ran.status, ran.out, ran.said), (9, b"", wanted), f"{data[:20]}")


def test_faults_of_files():
    with folder() as place:
        written(place, stored("forms"))
        (place / "Text.class").write_bytes(b"text")
        (place / "Cut.class").write_bytes(box(place).read_bytes()[:100])
        (place / "empty").mkdir()
        wanted = (
            (["gone"], 6, "cannot read gone: No such file or directory"),
            (["."], 6, "cannot read .: Is a directory"),
            (["r", "Gone.class"], 6, "cannot read Gone.class: No such file or directory"),
            (["r", "empty"], 6, "cannot read empty: is a folder without class files"),
            (["r", "Text.class"], 3, "cannot read Text.class as a class file: byte 0 does not fit"),
        )
        for words, status, said in wanted:
            ran = call("view", *words, cwd=place)
            same((ran.status, ran.out, ran.said), (status, b"", [said]), words)
        ran = call("view", "r", "Cut.class", cwd=place)
        same(
            (ran.status, ran.out, ran.said[0].split(":")[0]),
            (3, b"", "cannot read Cut.class as a class file"),
            "a cut class file",
        )


def test_a_report_of_another_class_file():
    front = "the report is of another class file: "
    kind = "(Lp/Box;[II)Ljava/lang/Object;"
    wanted = (
        (
            Maker("p/Box").method("take", kind, ACONST_NULL + ARETURN, 0),
            "path 0: i0 has 6 values, and the class file of p/Box says 0 slots",
        ),
        (Maker("p/Box"), f"p/Box has no method p/Box.take{kind}"),
        (Maker("p/Box").method("take", kind, ACONST_NULL + ARETURN), f"p/Box.take{kind} is static"),
    )
    with folder() as place:
        written(place, stored("forms"))
        for made, says in wanted:
            made.write(place)
            ran = call("view", "--text", "r", ".", cwd=place)
            same((ran.status, ran.out, ran.said), (9, b"", [front + says]), "another class file")
        made = Maker("p/Box")
        for name, field in (("next", "I"), ("a+b", "I"), ("flag", "Z"), ("two", "I"), ("two", "Z"), ("number", "I")):
            made.field(name if name != "next" else "other", field)
        made.method("take", kind, ACONST_NULL + ARETURN, 0).write(place)
        ran = call("view", "--text", "r", ".", cwd=place)
        same((ran.status, ran.said), (9, [front + "path 0: the class file of p/Box has no slot o0.p/Box.next"]), "another slot")


def test_standard_input_and_an_output_that_is_closed():
    data = stored("forms")
    with folder() as place:
        written(place, data)
        with open(place / "r", "rb") as file:
            same(call("view", "--text", "-", stdin=file).out, call("view", "--text", "r", cwd=place).out, "the text")
        with open("/dev/full", "wb") as full:
            ran = call("view", "--text", "r", cwd=place, stdout=full)
        same((ran.status, ran.said), (7, ["the output could not be written"]), "a full disk")
