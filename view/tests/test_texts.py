"""The text for a terminal, word for word, beside texts that were written by hand."""

from script.tests.tools import ROOT, call, folder, same

from .tools import METHODS, REPORTS, box, explored_report

WANTED = ROOT / "view" / "tests" / "wanted"


def test_texts():
    with folder() as place:
        for name, words, files in METHODS:
            (place / name).write_bytes(explored_report(words, files))
            ran = call("view", "--text", name, *files, cwd=place)
            same((ran.status, ran.err), (0, ""), name)
            found, wanted = (text.split("\n") for text in (ran.out.decode(), (WANTED / f"{name}.text").read_text()))
            same(found, wanted, name)


def test_the_text_of_every_form():
    with folder() as place:
        ran = call("view", "--text", REPORTS / "forms.report", box(place))
        same(ran.out.decode().split("\n"), (WANTED / "forms.text").read_text().split("\n"), "forms")
