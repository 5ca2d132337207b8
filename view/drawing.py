"""Drawings of heaps by Graphviz's `dot`, all in one run. An object stands at the same place before and after."""

import re
import subprocess
from concurrent.futures import ThreadPoolExecutor
from contextlib import suppress
from functools import lru_cache
from html import escape, unescape
from queue import SimpleQueue
from shutil import which

from .marks import ASIDE, BEYOND, CHANGED, LOST, OPEN, OVERWRITTEN, cell_mark
from .words_of_heap import argument_words, cell_words, first_marks, thing_words

MOST_OBJECTS = 40
CHARACTER, LINE = 7, 18
COLOURS = {CHANGED: "#fff3a0", OVERWRITTEN: "#ffc890", LOST: "#f4b0b0", ASIDE: "#c8dcff"}
STYLES = {OPEN: "dashed", BEYOND: "dotted"}
HEAD = (
    "digraph{graph[rankdir=LR nodesep=.15 ranksep=.35 bgcolor=transparent]"
    "node[shape=plain fontname=Courier fontsize=11]edge[arrowsize=.6]"
)
SIZE = re.compile(r'viewBox="0\.00 0\.00 ([0-9.]+) ([0-9.]+)".*?translate\(([-0-9.]+),? ([-0-9.]+)\)', re.DOTALL)
# A line with its place, and a text with its own; what stands around these is what it looks like.
DRAWN = re.compile(r'<(polygon|polyline|path) ([^>]*?)\b(?:points|d)="([^"]*)"([^>]*)/>')
WRITTEN = re.compile(r'<text ([^>]*?)\bx="([^"]*)" y="([^"]*)"([^>]*)>([^<]*)</text>')
WORD = re.compile(r'([a-z0-9-]+)="([^"]*)"')
BOX = re.compile(r"(\S+),(\S+) \1,(\S+) (\S+),\3 \4,\2 \1,\2")


class NotDrawn(Exception):
    """`dot` is not there, or does not draw."""


def can_draw():
    return which("dot") is not None


class Arrow:
    """An arrow of a drawing: where it starts, the object to which it leads, and in which of the two drawings it is seen."""

    def __init__(self, start, end, before, after, mark=None):
        self.start, self.end, self.seen, self.mark = start, end, (before, after), mark


def arrows(heap):
    """All arrows of both drawings, in one order."""
    found = []
    for number, cell in enumerate(heap.arguments):
        if cell.before in heap.by_key:
            found.append(Arrow(f"a{number}", cell.before, True, True))
    if heap.result in heap.by_key:
        found.append(Arrow("r", heap.result, False, True))
    for thing in heap.things:
        for place, cell in enumerate(thing.cells):
            start = f"{node(heap, thing.key)}:s{place}:e"
            for end in dict.fromkeys(each for each in (cell.before, cell.after) if each in heap.by_key):
                found.append(Arrow(start, end, cell.before == end, cell.after == end))
    return found


def node(heap, key):
    """What `dot` calls an object: names of the report stand in labels alone."""
    return f"n{heap.by_key[key].number}"


def sources(story, heap, marks):
    """The texts for `dot`: before, and after where the path has ended."""
    both = arrows(heap)
    sides = (0, 1) if story.path.has_ended else (0,)
    return [source(story, heap, marks, both, side) for side in sides]


def source(story, heap, marks, both, side):
    parts = [HEAD]
    for number, cell in enumerate(heap.arguments):
        parts.append(f'a{number}[label="{quoted(argument_words(story, heap, cell))}"]')
    if heap.result in heap.by_key:
        parts.append(f'r[label="{story.path.ending}"{"" if side else " style=invis"}]')
    for thing in heap.things:
        hidden = "" if side or thing.sort != "made" else " style=invis"
        parts.append(f"{node(heap, thing.key)}[label=<{table(story, thing, marks.get(thing.key, ()), side)}>{hidden}]")
    for arrow in both:
        parts.append(f"{arrow.start}->{node(heap, arrow.end)}{'' if arrow.seen[side] else '[style=invis]'}")
    return ";".join(parts) + "}\n"


def quoted(text):
    """A text in a quoted label of `dot`."""
    return escape(text).replace("\\", "&#92;")


def table(story, thing, marks, side):
    """An object as a table, of equal size before and after."""
    heads = [thing_words(story, thing, first_marks(thing)), thing_words(story, thing, marks)]
    rows = [(cell_words(story, cell, False), cell_words(story, cell, True), cell) for cell in thing.cells]
    widest = max(len(text) for text in [*heads, *(text for before, after, _ in rows for text in (before, after))])
    size = f'WIDTH="{CHARACTER * widest + 8}" HEIGHT="{LINE}" FIXEDSIZE="TRUE"'
    colour = next((COLOURS[mark] for mark in marks if mark in COLOURS), None) if side else None
    style = next((f' STYLE="{STYLES[mark]}"' for mark in [thing.sort] if mark in STYLES), "")
    parts = [f'<TR><TD {size}{coloured(colour)} ALIGN="LEFT"><B>{escape(heads[side])}</B></TD></TR>']
    for place, (before, after, cell) in enumerate(rows):
        fill = coloured(COLOURS.get(cell_mark(cell))) if side else ""
        parts.append(f'<TR><TD PORT="s{place}" {size}{fill} ALIGN="LEFT">{escape((before, after)[side]) or " "}</TD></TR>')
    return f'<TABLE BORDER="1" CELLBORDER="0" CELLSPACING="0" CELLPADDING="1" ROWS="*"{style}>{"".join(parts)}</TABLE>'


def coloured(colour):
    return f' BGCOLOR="{colour}"' if colour else ""


def draw(texts):
    """The picture of each text, by one run of `dot`, which draws each text once; they come as it draws."""
    if not can_draw():
        raise NotDrawn
    fed, ends = SimpleQueue(), {"stdin": subprocess.PIPE, "stdout": subprocess.PIPE, "stderr": subprocess.DEVNULL}
    with ThreadPoolExecutor(1) as pool, subprocess.Popen(["dot", "-Tsvg"], **ends) as dot:
        feeding = pool.submit(feed, texts, dot.stdin, fed)
        try:
            yield from in_order(fed, pictures_of(dot.stdout))
        finally:
            # where no more pictures are wanted `dot` ends, and so no text waits for it
            dot.stdout.close()
            feeding.result()


def feed(texts, sink, fed):
    """Hands each text on once. Of each text is told which of those that are handed on it is, and at the end None."""
    numbers = {}
    try:
        # of what is not taken no picture comes
        with suppress(BrokenPipeError), sink:
            for text in texts:
                is_new = text not in numbers
                fed.put(numbers.setdefault(text, len(numbers)))
                if is_new:
                    sink.write(text.encode("utf-8"))
    finally:
        fed.put(None)


def in_order(fed, coming):
    """The picture of each text that was fed."""
    pictures = []
    for number in iter(fed.get, None):
        if number == len(pictures):
            picture = next(coming, None)
            if picture is None:
                raise NotDrawn
            pictures.append(smaller(picture))
        yield pictures[number]


def pictures_of(output):
    """The pictures that `dot` writes, as they come."""
    lines = []
    for each in output:
        lines.append(each)
        if each.startswith(b"</svg>"):
            yield b"".join(lines).decode("utf-8")
            lines.clear()


def smaller(picture):
    """A picture with what readers see alone: no names of its own, and parts of one look as one path."""
    width, height, left, top = (short(each) for each in SIZE.search(picture).groups())
    looks = {}
    for sort, before, points, behind in DRAWN.findall(picture):
        looks.setdefault(look(before + behind), []).append(line(sort, points))
    paths = [f'<path{each} d="{"".join(lines)}"/>' for each, lines in sorted(looks.items(), reverse=True)]
    texts = [
        f'<text{weight(before + behind)} x="{x}" y="{y}">{escape(unescape(text))}</text>'
        for before, x, y, behind, text in WRITTEN.findall(picture)
    ]
    head = f'<svg class="d" role="img" width="{width}pt" height="{height}pt" viewBox="0 0 {width} {height}">'
    return f'{head}<g transform="translate({left} {top})">{"".join(paths + texts)}</g></svg>'


@lru_cache(maxsize=1024)
def weight(words):
    """What a text looks like, where that is not what the page's style says."""
    words = dict(WORD.findall(words))
    return BOLD if words.get("font-weight") == "bold" else MIDDLE if words.get("text-anchor") == "middle" else ""


@lru_cache(maxsize=1024)
def look(words):
    """What a line looks like, where that is not what the page's style says."""
    words = dict(WORD.findall(words))
    words = {name: "none" if words.get(name) == "transparent" else words.get(name, usual) for name, usual in LOOKS.items()}
    return "".join(f' {name}="{value}"' for name, value in words.items() if value != LOOKS[name])


def line(sort, points):
    """A line of a picture as a piece of a path."""
    if sort == "path":
        return points
    box = BOX.fullmatch(points)
    if box:
        left, top, bottom, right = box.groups()
        return f"M{left},{top}H{right}" if top == bottom else f"M{left},{top}V{bottom}H{right}V{top}z"
    return f"M{points}" + ("z" if sort == "polygon" else "")


def short(number):
    """A number without zeros at its end."""
    return f"{float(number):.10g}"


BOLD, MIDDLE = ' class="b"', ' class="m"'
# What most lines look like, which the page's style says.
LOOKS = {"fill": "none", "stroke": "black", "stroke-dasharray": ""}
