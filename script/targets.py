"""`targets FILE..` and `targets --check FILE..`: the methods of class files, each as --method wants it."""

from os.path import exists

from .names import spelled_target
from .places import Finder, Source, is_place, is_regular, read_file
from .program import ask
from .refused import targets_of
from .say import Fault, put, say
from .slips import unread
from .words import Order, least, read_page


def list_targets(signals, program, words):
    """Lists the methods of the files. The exit status."""
    checked = words[:1] == ["--check"]
    files = words[1:] if checked else words
    if not files or files[0].startswith("--") or "--check" in files and not exists("--check"):
        raise Fault(2, "targets: give class files, folders or jars, behind `--check` or alone")
    status, finder = 0, Finder()
    for word in files:
        for source in sources_of(finder, word):
            if source.file.stopped is not None or not source.file.is_class_file:
                status = 2
                say(stop_of(source))
            for target in targets_of(source.file):
                text = spelled_target(*target)
                put(f"{text} {check(signals, program, finder, text, files)}\n" if checked else f"{text}\n")
    for line in finder.faults:
        say(line)
    return status


def stop_of(source):
    if not source.file.is_class_file:
        return f"{source.shown} is no class file"
    return f"{source.shown} is damaged: byte {source.file.stopped} does not fit, and what comes from there on is not read"


def sources_of(finder, word):
    """The class files that a word names."""
    if is_place(word):
        return finder.part(word)[1].sources
    try:
        if not is_regular(word):
            open(word, "rb").close()
        sources = [Source(word, read_file(word), word)]
    except OSError as error:
        raise unread(word, error) from error
    sources[0].file.read_whole()
    return sources


def check(signals, program, finder, target, files):
    """Whether the target can be explored today: `explored`, or the line that refuses it."""
    from .handing import Handed

    options = read_page()[1]
    with Handed(Order(["explore", *least(options), "--method", target, *files], options), finder) as handed:
        status, output = ask(signals, program, handed.words)
    if status in (0, 1):
        return "explored"
    line = output.decode("latin-1").partition("\n")[0]
    return line if line.startswith("refused ") else f"status {status}"
