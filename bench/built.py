"""Small programs of the scripts' own, over crates of this repository.

A program is written into a throw-away repository, beside copies of the crates that it uses, proved and built there by
`rt run`, and kept in build/ until one of these changes.
"""

import os
import resource
import shutil
import subprocess
import sys
import tempfile
import time
from dataclasses import dataclass, field
from pathlib import Path

ROOT = Path(__file__).resolve().parent.parent

USES = """\
use std::env::{self, Env};
use std::io;
use std::process::ExitCode;
"""

# A program that prints what `answer` gives to its words.
MAIN = """\
fn main(rt: HostRuntime) -> ExitCode {
    let Ok(words) = command_words(&rt) else {
        return ExitCode::from(2);
    };
    let Ok(answer) = answer(rt.alloc(), words.as_slice()) else {
        return ExitCode::from(3);
    };
    let printed = match answer {
@ARMS@    };
    match printed {
        Ok(()) => ExitCode::from(0),
        Err(_) => ExitCode::from(4),
    }
}

/// The words after the program's name.
fn command_words<R: Env + AllocGlobal>(rt: &R) -> io::Result<Vec<String>> {
    let mut words = Vec::new(rt.alloc());
    for word in env::args(rt)?.skip(1) {
        words.push(word)?;
    }
    Ok(words)
}
"""

# Why a program has no answer.
STOP = """\
/// There was no memory.
#[derive(Clone, Copy, Debug)]
struct Stop;

impl From<AllocError> for Stop {
    fn from(_error: AllocError) -> Stop {
        Stop
    }
}

impl<T: Drop> From<AllocFailed<T>> for Stop {
    fn from(_error: AllocFailed<T>) -> Stop {
        Stop
    }
}
"""

DIGITS = """\
fn bytes_of(alloc: Global, digits: &[u8]) -> Result<Vec<u8>, Stop> {
    let mut bytes = Vec::new(alloc);
    let mut high = None;
    for digit in digits {
        match high {
            None => high = Some(value_of(*digit)),
            Some(first) => {
                bytes.push(first << 4 | value_of(*digit))?;
                high = None;
            }
        }
    }
    Ok(bytes)
}

fn value_of(digit: u8) -> u8 {
    match digit {
        b'0'..=b'9' => digit - b'0',
        b'a'..=b'f' => digit - b'a' + 10,
        _ => 0,
    }
}
"""

# The world of the classes whose files the words spell, and a method of it.
WORLD = """\
fn world_in(alloc: Global, words: &[String]) -> Result<World, Stop> {
    let mut files = Vec::new(alloc);
    for word in words {
        files.push(bytes_of(alloc, word.as_bytes())?)?;
    }
    match world_of(alloc, files.as_slice()) {
        Some(world) => Ok(world),
        None => Err(Stop),
    }
}

fn method_of(alloc: Global, world: &World, target: &[u8]) -> Result<MethodId, Stop> {
    let Ok(target) = read_target(alloc, target) else {
        return Err(Stop);
    };
    match world.find_target(&target) {
        Some(method) => Ok(method),
        None => Err(Stop),
    }
}
"""

NUMBER = """\
fn number(word: &String) -> Option<u32> {
    match word.as_str().parse::<u32>() {
        Ok(number) => Some(number),
        Err(_) => None,
    }
}
"""


def with_main(source, arms):
    """The source with the `main` that prints the Option which its `answer` gives, what `main` uses, and the other pieces above,
    where it asks for them. The arms print the Option."""
    source = source.replace("@USES@\n", USES).replace("@MAIN@\n", MAIN.replace("@ARMS@", arms)).replace("@STOP@\n", STOP)
    return source.replace("@DIGITS@\n", DIGITS).replace("@WORLD@\n", WORLD).replace("@NUMBER@\n", NUMBER)


def with_those_below(line):
    """The lines of crates.txt that a line of a program's own needs, those below first, and it at the end."""
    known = dict(found.split(":") for found in (ROOT / "crates.txt").read_text().splitlines() if ":" in found)
    lines = {}

    def add(name):
        if name in known and name not in lines:
            for below in known[name].split():
                add(below)
            lines[name] = f"{name}:{known[name]}"

    for below in line.split(":")[1].split():
        add(below)
    return "\n".join([*lines.values(), line, ""])


@dataclass(frozen=True)
class Program:
    """A program by name: the lines of crates.txt (its own is the last), its source, its proof files, and the words of a
    short run."""

    name: str
    crates: str
    source: str
    trial: list
    proofs: dict = field(default_factory=dict)

    @property
    def path(self):
        return ROOT / "build" / self.name

    @property
    def libraries(self):
        names = [line.split(":")[0] for line in self.crates.splitlines()]
        return [ROOT / "crates" / name for name in names if name != self.name]

    def is_built(self, script):
        """Whether the program is newer than each file that it is made of, its script among them."""
        if not self.path.is_file():
            return False
        folders = [library / folder for library in self.libraries for folder in ("src", "specs", "proofs")]
        sources = [file for folder in folders for file in folder.rglob("*")]
        sources += [Path(script), Path(__file__)]
        return all(file.stat().st_mtime <= self.path.stat().st_mtime for file in sources)

    def write_repository(self, root):
        """Writes the throw-away repository, and returns the folder of its program."""
        (root / "crates.txt").write_text(self.crates)
        for library in self.libraries:
            shutil.copytree(library, root / "crates" / library.name, ignore=shutil.ignore_patterns("must-fail", "out"))
        folder = root / "crates" / self.name
        for file, text in {"src/main.rt": self.source, **self.proofs}.items():
            (folder / file).parent.mkdir(parents=True, exist_ok=True)
            (folder / file).write_text(text)
        return folder

    def build(self, script):
        """Proves and builds the program, unless it is there. The copy that is kept has the time at which this began."""
        if self.is_built(script):
            return
        log = self.path.with_suffix(".log")
        print(f"building the program, which proves it first ({log})", file=sys.stderr)
        start = time.time()
        self.path.parent.mkdir(exist_ok=True)
        with tempfile.TemporaryDirectory() as root, log.open("wb") as out:
            folder = self.write_repository(Path(root))
            words = ["rt", "run", "--", *self.trial]
            if subprocess.run(words, cwd=folder, stdin=subprocess.DEVNULL, stdout=out, stderr=out).returncode != 0:
                sys.exit(f"the program could not be built; see {log}")
            fresh = shutil.copy(folder / "out" / self.name, self.path.with_suffix(".fresh"))
            os.utime(fresh, (start, start))
            os.replace(fresh, self.path)

    def timed_run(self, words, wanted):
        """The processor time of one run, whose output must be the one that is wanted."""
        before = processor_seconds()
        run = subprocess.run([str(self.path), *words], stdin=subprocess.DEVNULL, capture_output=True)
        took = processor_seconds() - before
        if run.returncode != 0 or run.stdout != wanted:
            sys.exit(f"{' '.join(words)}: status {run.returncode}, {run.stdout!r} and not {wanted!r}")
        return took

    def seconds_of_call(self, words_for, times, runs):
        """The processor seconds of one call, of a program that makes it as often as its words say and prints how often it
        answered as wanted: the mean of so many, less that of a run which makes none, each the least of some runs."""
        bare, full = (
            min(self.timed_run([*map(str, words_for(count))], f"{count}\n".encode()) for _ in range(runs)) for count in (0, times)
        )
        return max(full - bare, 1e-9) / times


def processor_seconds():
    """The processor time of the runs that have ended."""
    used = resource.getrusage(resource.RUSAGE_CHILDREN)
    return used.ru_utime + used.ru_stime
