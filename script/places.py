"""Where class files lie: those named singly, folders, archives, and the files `X$*.class` beside a file `X.class`."""

import os

from .class_file import MOST_BYTES, ClassFile
from .say import Fault, reason
from .world import Known

ARCHIVES = (".jar", ".zip")


class Source:
    """A class file: what it is called to a reader, its bytes, and its path, or None where it has none to hand on.

    Of a damaged one whose name cannot be read the name is `called`, by its place in a folder or archive, or None.
    """

    def __init__(self, shown, data, path=None, called=None):
        self.shown, self.path = shown, path
        self.file = ClassFile(data)
        self.name = called if self.file.name is None else self.file.name

    def known(self):
        return Known(self.name, self.file, self)


class Place:
    """A word that names a place, or the files beside a class file: what it is called, and its class files by rising names."""

    def __init__(self, word, sources, kind):
        self.word, self.kind = word, kind
        self.sources = sorted((each for each in sources if each.name is not None), key=lambda each: each.name)


def is_regular(path):
    return os.path.isfile(path)


def is_archive(word):
    return word.lower().endswith(ARCHIVES) and is_regular(word)


def is_place(word):
    return os.path.isdir(word) or is_archive(word)


def read_file(path):
    """The bytes of a file, at most one more than a class file may have."""
    file = os.open(path, os.O_RDONLY)
    try:
        data = os.read(file, MOST_BYTES + 1)
        while len(data) <= MOST_BYTES:
            more = os.read(file, MOST_BYTES + 1 - len(data))
            if not more:
                break
            data += more
        return data
    finally:
        os.close(file)


def read_single(word):
    """The class file that a word names by itself, or None where it cannot be looked at."""
    try:
        return Source(word, read_file(word), word) if is_regular(word) else None
    except OSError:
        return None


def is_utf8(path):
    try:
        os.fsencode(path).decode("utf-8")
    except UnicodeDecodeError:
        return False
    return True


def called_by(path):
    """The name of the class whose file lies at that path from the top of a place."""
    return os.fsencode(path[: -len(".class")]).decode("latin-1")


class Finder:
    """Looks into places, into each once. `faults` are lines about what could not be looked at there."""

    def __init__(self):
        self.faults = []
        self._listings, self._parts = {}, {}

    def part(self, word):
        """The class file that a word names by itself, or None, and the place that it names or that lies beside it, or None."""
        if word not in self._parts:
            if is_place(word):
                self._parts[word] = None, self.look_into(word)
            else:
                self._parts[word] = read_single(word), self.beside(word)
        return self._parts[word]

    def look_into(self, word):
        """The place that the word names."""
        if os.path.isdir(word):
            place = Place(word, self._in_folder(word), "folder")
        else:
            place = Place(word, self._in_archive(word), "archive")
        if not place.sources:
            kind = "a folder" if place.kind == "folder" else "an archive"
            raise Fault(6, f"cannot read {word}: is {kind} without class files")
        return place

    def beside(self, word):
        """The files `X$*.class` beside a file `X.class`, or None where there are none."""
        if not word.endswith(".class"):
            return None
        folder, name = os.path.split(word)
        front = name[: -len(".class")] + "$"
        found = [each for each in self._listing(folder) if each.startswith(front) and each.endswith(".class")]
        sources = self._read_all([os.path.join(folder, each) for each in sorted(found)], folder)
        return Place(os.path.join(folder, f"{front}*.class"), sources, "beside") if sources else None

    def _listing(self, folder):
        """The names of what lies in a folder."""
        if folder not in self._listings:
            try:
                self._listings[folder] = os.listdir(folder or ".")
            except OSError:
                self._listings[folder] = []
        return self._listings[folder]

    def _in_folder(self, word):
        paths = []
        for folder, folders, files in os.walk(word, onerror=self._note):
            folders.sort()
            paths += [os.path.join(folder, name) for name in sorted(files) if name.endswith(".class")]
        return self._read_all(paths, word)

    def _read_all(self, paths, folder):
        """The class files of those paths, which lie in that folder."""
        front, sources = os.path.join(folder, ""), []
        for path in paths:
            try:
                if is_regular(path):
                    called = called_by(path[len(front) :])
                    self._add(sources, Source(path, read_file(path), path if is_utf8(path) else None, called))
            except OSError as error:
                self._note(error)
        return sources

    @staticmethod
    def _add(sources, source):
        """What is no class file is passed over."""
        if source.file.is_class_file:
            sources.append(source)

    def _note(self, error):
        self.faults.append(f"warning: cannot read {error.filename}: {reason(error)}")

    def _in_archive(self, word):
        """The class files of an archive, by rising names of its entries."""
        from zipfile import BadZipFile, ZipFile

        try:
            with ZipFile(word) as archive:
                return self._entries(word, archive)
        except OSError as error:
            raise Fault(6, f"cannot read {word}: {reason(error)}") from error
        except (BadZipFile, ValueError, NotImplementedError, EOFError) as error:
            raise Fault(6, f"cannot read {word}: {str(error) or 'it ends too early'}") from error

    def _entries(self, word, archive):
        from zipfile import BadZipFile
        from zlib import error as ZlibError

        sources = []
        for entry in sorted(archive.infolist(), key=lambda entry: entry.filename):
            if not entry.filename.endswith(".class") or entry.filename.startswith("META-INF/"):
                continue
            shown = f"{word}!/{entry.filename}"
            try:
                with archive.open(entry) as stream:
                    self._add(sources, Source(shown, stream.read(MOST_BYTES + 1), None, called_by(entry.filename)))
            except (BadZipFile, ZlibError, ValueError, RuntimeError, EOFError, OSError) as error:
                self.faults.append(f"warning: cannot read {shown}: {str(error) or 'it ends too early'}")
        return sources
