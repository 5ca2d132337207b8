"""Words and targets: what the script takes as in order is what the program takes, so that places are looked into for it."""

from script import words
from script.names import read_target, split_method
from script.tests.maker import ICONST_0, IRETURN, Maker
from script.tests.tools import direct, folder, judge_all, same

TARGET = "--method M.f()I"
# Words, in order or not; behind each of those of explore the target and a class file come.
OPTIONS = """
--k 0|--k 16|--k 17|--k 00|--k 01|--k -1|--k +1|--k 1_0|--k 1 --k 1|--k x|--array 16|--array 17|--alloc 1024|--alloc 1025
--loops 1000|--loops 1001|--depth 1|--depth 0|--depth 256|--depth 257|--steps 1|--steps 0|--steps 100000|--steps 100001
--steps 99999999999|--steps 99999999999999999999999|--paths 1 --budget 100000|--budget 100000 --paths 21|--budget 2000
--budget 2001|--paths 1000 --budget 2000|--paths 1001|--paths 20 --budget 100000|--paths 100001 --budget 1|--paths 0
--init lazy|--init lazier|--init eager|--init lazy --init lazy|--method M.f()I|--tests a.tests|--workers 2|--nothing 1|--k|--init
--k --k|--init --k|--loops 0 --k 1 --init lazy --array 2
""".strip().replace("\n", "|").split("|")
OPTIONS += ["--k \u0663", "--k 1\u0663", "--k \u00b2"]
OTHERS = """
explore|explore M.class|explore --method M.f()I|explore --method|explore M.class --method M.f()I
explore --method M.f()I M.class --k 17|explore --method M.f()I -k M.class|explore --method M.f M.class
replay --tests a.tests M.class|replay M.class|replay --tests a.tests|replay --tests
replay --tests a.tests --tests a.tests M.class|replay --tests a.tests --k 1 M.class|replay --k 1 --tests a.tests M.class|replay --method M.f()I M.class
replay --workers 1 --tests a.tests M.class|replay --tests a.tests --workers 64 M.class|replay --workers 65 --tests a.tests M.class|replay --workers 2 M.class
replay --workers 0 --tests a.tests M.class|replay --workers x --tests a.tests M.class|replay --workers 02 --tests a.tests M.class|replay --tests a.tests --workers
replay --workers 2 --tests a.tests --workers 2 M.class|replay --tests a.tests M.class --workers 2
""".strip().replace("\n", "|").split("|")
# Texts that are targets, or that look like some.
TARGETS = """
M.f()I|M.f|M|.f()I|M.()I|M.f(|M.f()|M.f()V|M.f(V)I|M.f()II|M.f(I)|M.fI)I|M.f((I)I|M..f()I|M.f.g()I|M.f()I.
M.f(L;)I|M.f(LM)I|M.f(LM;)I|M.f(LM;LM;)LM;|M.f([)I|M.f([V)I|M.f()[V|M.f([[[LM;[I)[[J|M.f(LM.N;)I|M.f(L[M;)I|M.f(Q)I
p/M.f()I|p.M.f()I|/M.f()I|M/.f()I|M$N.<init>()V|M<.f>()I|M-1.f_$()I|M;.f()I|M[.f()I|[M.f()I|M.f;()I
M%20N.f()I|M%2eN.f()I|M%2EN.f()I|M%41.f()I|M%2.f()I|M%.f()I|M%2G.f()I|M%-1.f()I|M%25.f()I|M%FF.f()I|M%00.f()I
M.f%20g()I|M.f%28()I|M.f%61()I|M.f%()I|M.f(LM%20;)I|M.f(LM%3B;)I|M.f(LM%4D;)I|M.f(LM%3b;)I|M.f(L%;)I|M%2F.f()I
M.f()LM%2E;|M+N.f()I|M.f+g()I|M#f()I|M::f()I|M.f(I,I)I|M.f(int)int|(I)I|.|()|M.()V
""".strip().replace("\n", "|").split("|")
TARGETS += ["M.f(" + "[" * 255 + "I)I", "M.f(" + "[" * 256 + "I)I", "M.f()" + "[" * 255 + "LM;", "M.f()" + "[" * 256 + "LM;"]
TARGETS += ["M.f(\u00e9)I", "\u00e9.f()I", "M.f()I\n", " M.f()I", "", "M.f(" + "I" * 300 + ")I"]


def write_all(path):
    Maker("M").method("f", "()I", ICONST_0 + IRETURN).write(path)
    (path / "a.tests").write_text("", encoding="ascii")


def test_words_in_order():
    orders = [f"{command} {text} {TARGET} M.class" for text in OPTIONS for command in ("explore", "tests", "diagrams")]
    options = words.read_page()[1]
    with folder() as path:
        write_all(path)

        def judge(text):
            asked = text.split(" ")
            same(words.Order(asked, options).in_order, direct(*asked, cwd=path).status != 2, text)

        judge_all(judge, orders + OTHERS)


def test_targets():
    with folder() as path:
        write_all(path)

        def judge(text):
            is_target = direct("explore", "--method", text, "M.class", cwd=path).status != 2
            same(read_target(text) is not None, is_target, repr(text))

        judge_all(judge, TARGETS)


def test_what_a_target_names():
    for text, wanted in [
        ("p/M.f(LM;[I)V", ("p/M", "f", "(LM;[I)V")),
        ("a%20b.c%2Ed(La%3Bb;)I", ("a b", "c.d", "(La%3Bb;)I")),
        ("M.()V", ("M", "", "()V")),
    ]:
        same(read_target(text), wanted, text)


def test_descriptors_of_methods():
    """JVMS 8 section 4.3: a name between L and ; is not empty, V is a result alone."""
    for text, wanted in [
        ("()V", ([], "V")),
        ("(I[[JLp/M;[Lp/M;D)[Z", (["I", "[[J", "Lp/M;", "[Lp/M;", "D"], "[Z")),
        *((text, None) for text in ("(L;)V", "()L;", "(V)V", "()[V", "([)V", "()", "(I", "I)V", "(LM)V", "()II", "(Q)V", "")),
    ]:
        same(split_method(text), wanted, text)


def test_places_of_words():
    """Where class files begin, and whose value a word is."""
    options = words.read_page()[1]
    order = words.Order("explore --k 3 --method M.f()I M.class --k".split(), options)
    same((order.files, order.file_words, order.value("--k")), (5, ["M.class", "--k"], "3"), "class files")
    same([order.option_at(place) for place in range(7)], [None, None, "--k", None, "--method", None, None], "values")
    order = words.Order("replay --tests a.tests M.class".split(), options)
    same((order.text, order.file_words, order.target), ("a.tests", ["M.class"], None), "a replay")
    order = words.Order("assemble a.asm".split(), options)
    same((order.text, order.file_words, order.in_order), ("a.asm", [], False), "an assembler text")
