"""The words that are handed on to the program: in the place of folders and archives the class files that are needed."""

import os

from .names import class_of_entry, nearest, read_name, read_target, spelled, spelled_method
from .needs import CODE, Needs
from .places import Finder, is_regular, is_utf8, read_single
from .program import Undisturbed
from .say import Fault, counted, listed, reason
from .words import EXPLORING

MOST_FILES = 64


class Handed:
    """Words of the program, with class files in place of places. As a context it keeps class files of archives.

    `files` are the words at class files' places as they are handed on, and `sources` what stands there, or None where a word
    could not be looked at; `lines` is what is to be said of places.
    """

    def __init__(self, order, finder=None):
        self.order = order
        self.finder = finder or Finder()
        self.words, self.files = order.words, order.file_words
        self.sources, self.lines, self.places, self.targets = [], [], [], []
        self.needs = None
        self._folder = None

    def __enter__(self):
        try:
            if self.order.in_order and all(map(is_utf8, self.order.words)):
                self._find()
            elif self.order.files is not None:
                self.sources = [read_single(word) for word in self.files]
        except BaseException:
            self.__exit__()
            raise
        return self

    def __exit__(self, *_):
        if self._folder:
            import shutil

            with Undisturbed():
                shutil.rmtree(self._folder, ignore_errors=True)
                self._folder = None

    @property
    def given(self):
        """The class files that are handed on and could be looked at."""
        return [source for source in self.sources if source]

    @property
    def looked_into(self):
        return bool(self.places)

    def _find(self):
        """Looks for what the targets need, and puts it in the place of the words that are places."""
        parts = [self.finder.part(word) for word in self.files]
        self.places = [place for _, place in parts if place]
        self.sources = [single for single, _ in parts]
        targets = self._read_targets()
        if not targets:
            return
        singles = [single.known() for single, _ in parts if single and single.name is not None]
        offered = [source.known() for place in self.places for source in place.sources]
        self.needs = Needs(singles, offered)
        self._ask(targets)
        self.lines += self.finder.faults
        self._put_together(parts)

    def _read_targets(self):
        """The targets, each with the classes of objects that it names besides; none where nobody asks for them."""
        if self.order.command in EXPLORING:
            return [(self.order.target, [])]
        if not self.places:
            return []
        try:
            return read_tests(self.order.text) if is_regular(self.order.text) else []
        except OSError:
            return []

    def _ask(self, targets):
        for (owner, name, kind), types in targets:
            known = self.needs.world.get(owner)
            if known is None or known.file is None:
                self._miss(owner)
                continue
            self.needs.need(owner, CODE)
            for each in types:
                self.needs.need(each, CODE)
            method = method_of(known, name, kind)
            if method:
                self.targets.append((known, method))
                self.needs.add_target(owner, method)
        self.needs.finish()

    def _miss(self, owner):
        """No class of the target's name is there: a fault, where a folder or an archive was named."""
        named = [place for place in self.places if place.kind != "beside"]
        if named:
            names = {source.name for place in self.places for source in place.sources}
            near = nearest(map(spelled, names), spelled(owner))
            lines = [*self.finder.faults, *([f"near names: {', '.join(near)}"] if near else [])]
            raise Fault(6, f"no class {spelled(owner)} in {', '.join(place.word for place in named)}", *lines)

    def _put_together(self, parts):
        """The words, with what was taken of each place."""
        self.files, self.sources = [], []
        taken = set(self.needs.taken)
        for word, (single, place) in zip(self.order.file_words, parts):
            if place is None or place.kind == "beside":
                self._add(word, single)
            if place:
                self._take(place, taken)
        if self.files and self.files[0].startswith("--"):
            self.files[0] = os.path.join(".", self.files[0])
        self.words = [*self.order.words[: self.order.files], *self.files]

    def _take(self, place, taken):
        names = []
        for source in place.sources:
            if source.name in taken and self.needs.world.get(source.name).source is source:
                names.append(spelled(source.name))
                self._add(source.path or self._unpacked(source), source)
        if names or place.kind != "beside":
            there = counted(len(place.sources), "class file", "class files")
            self.lines.append(f"of {place.word} ({there}): {listed(names) or 'nothing'}")

    def _add(self, word, source):
        self.files.append(word)
        self.sources.append(source)

    def _unpacked(self, source):
        """The path of a copy of a class file of an archive."""
        try:
            if self._folder is None:
                import tempfile

                with Undisturbed():
                    self._folder = tempfile.mkdtemp(prefix="kiasan.")
            path = os.path.join(self._folder, f"{len(self.files)}.class")
            with open(path, "wb") as file:
                file.write(source.file.data)
        except OSError as error:
            raise Fault(70, f"cannot unpack {source.shown}: {reason(error)}") from error
        return path

    def why_so_many(self):
        """Why more class files are needed than may be given; nothing where no place was looked into."""
        if not self.looked_into or len(self.files) <= MOST_FILES:
            return []
        reasons = {}
        for why in self.needs.taken.values():
            reasons[why] = reasons.get(why, 0) + 1
        by_code = reasons.pop(CODE, 0)
        singly = len(self.files) - by_code - sum(reasons.values())
        parts = [f"{singly} named singly"] * (singly > 0) + [f"{by_code} by the code"] * (by_code > 0)
        below = sorted(reasons.items(), key=lambda pair: -pair[1])
        parts += [f"{count} since they are below {spelled(name)}" for name, count in below]
        return [f"{len(self.files)} class files are needed: {listed(parts)}; name singly those that are to count"]

    def remarks(self):
        """Where the report of an exploration would be narrower than it looks; nothing where too many files are given."""
        if self.order.command not in EXPLORING or not self.targets:
            return []
        if len(self.files) > MOST_FILES or None in self.sources:
            return []
        from .remarks import remarks

        return remarks(self)


def method_of(known, name, kind):
    """The method of a class that a target names, or None."""
    for method in known.file.methods:
        if method.name == name and not name.startswith("<") and spelled_method(method.kind) == kind:
            return method
    return None


def read_tests(path):
    """The targets of a file of tests, each with the names of the classes of its objects."""
    tests = []
    with open(path, "rb") as file:
        for line in file.read().decode("latin-1").split("\n"):
            words = line.split(" ")
            if words[0] == "test" and len(words) == 2:
                target = read_target(words[1])
                if target:
                    tests.append((target, set()))
            elif words[0] in ("in", "new") and len(words) > 2 and tests:
                named = class_of_entry(words[2])
                name = read_name(named) if named else None
                if name:
                    tests[-1][1].add(name)
    return tests
