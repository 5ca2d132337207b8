"""A report as one page for a browser. Names of class files stand in it as text alone, each escaped."""

import base64
import hashlib
from contextlib import closing
from html import escape
from os.path import dirname, join
from urllib.parse import quote

from .drawing import MOST_OBJECTS, NotDrawn, draw, sources
from .marks import LEGEND, LOST, OVERWRITTEN, RING, SIGNS, UNREAD, cell_mark
from .text import NOTES
from .words_of_heap import argument_words, cell_words, marks_of, thing_words

HERE = dirname(__file__)
# Above that many paths pictures are drawn when their path is opened.
MOST_DRAWN = 200
# What the filters of signs are called.
SIGN_FILTERS = {RING: "ring", OVERWRITTEN: "written unread (!)", LOST: "lost"}


def own_file(name):
    with open(join(HERE, name), encoding="ascii") as file:
        return file.read()


def policy(style, script):
    """What the page may use: its own style and script, and nothing else."""
    style, script = (base64.b64encode(hashlib.sha256(each.encode()).digest()).decode() for each in (style, script))
    parts = ["default-src 'none'", f"style-src 'sha256-{style}'", f"script-src 'sha256-{script}'"]
    return "; ".join([*parts, "base-uri 'none'", "form-action 'none'"])


def write_page(model, stories, only=()):
    """The page on those paths, which `only` names; the counts are those of the report."""
    style, script = own_file("page.css"), own_file("page.js")
    title = escape(f"{model.names.types.of_class(model.report.owner)}.{model.names.write(model.report.method)}")
    parts = [
        '<!DOCTYPE html>\n<html lang="en"><head><meta charset="utf-8">',
        f'<meta http-equiv="Content-Security-Policy" content="{escape(policy(style, script))}">',
        '<meta name="viewport" content="width=device-width, initial-scale=1">',
        f"<title>{title}</title><style>{style}</style></head><body>",
        *head(model, stories, only),
        *paths(stories),
        f"<script>{script}</script></body></html>\n",
    ]
    return "\n".join(parts)


def head(model, stories, only):
    """What is said of all paths."""
    place = model.place()
    lines = [f"<h1>{escape(model.names.signature())}</h1>", f"<p>{escape(place)}</p>" if place else ""]
    lines += [f"<p>{escape(model.limits())}</p>", counts(model, stories)]
    lines += [f"<ul>{''.join(f'<li>{escape(each)}</li>' for each in model.uncovered())}</ul>"]
    lines += [f'<p class="warn">{escape(each)}</p>' for each in model.warnings]
    lines += [f"<p>{escape(each)}</p>" for each in NOTES]
    lines += [legend(), *(f'<p class="warn">{escape(each)}</p>' for each in model.shown(stories, only))]
    return [*filter(None, lines), f'<p class="none"{" hidden" if stories else ""}>No path is shown here.</p>']


def counts(model, stories):
    """How many paths end in each way and have each sign, each a filter where some of them are shown."""
    there = [ending_filter(story.path.ending, story.detail) for story in stories]
    there += [story.path.ending for story in stories] + [sign for story in stories for sign in story.signs]
    more = f", {len(stories)} shown" if len(stories) < len(model.stories) else ""
    links = [link("", f"all {len(model.stories)}{more}")]
    for how in ("throws", "cut"):
        details = [detail for ending, detail, _, _ in model.counts() if ending == how]
        if len(details) > 1:
            links.append(count_of(how, f"{how} {sum(story.path.ending == how for story in model.stories)}", there))
    for ending, detail, called, count in model.counts():
        links.append(count_of(ending_filter(ending, detail), f"{called} {count}", there))
    for sign, count in model.signs():
        links.append(count_of(sign, f"{SIGN_FILTERS[sign]} {count}", there, SIGNS[sign][1]))
    return f'<p class="counts">{"".join(links)}</p>'


def ending_filter(ending, detail):
    return f"{ending}={detail}" if detail else ending


def count_of(want, text, there, title=None):
    """How many paths are so: a filter, or a text alone where none of them is shown."""
    return link(want, text, title) if want in there else f"<span>{escape(text)}, not shown</span>"


def link(want, text, title=None):
    more = f' title="{escape(title)}"' if title else ""
    return f'<a href="#{escape(quote(want))}"{more}>{escape(text)}</a>'


def legend():
    rows = [f"<li>{sign(mark)}{escape(says)}</li>" for mark, (_, says) in LEGEND.items()]
    return f'<details class="legend"><summary>Signs of the drawings</summary><ul>{"".join(rows)}</ul></details>'


def paths(stories):
    """All paths, with the pictures of one run of `dot` where it draws."""
    heaps, waits = [Pictured(story) for story in stories], len(stories) > MOST_DRAWN
    try:
        with closing(draw(text for pictured in heaps for text in pictured.texts())) as pictures:
            return [path(pictured.taken(pictures), waits) for pictured in heaps]
    except NotDrawn:
        return [path(Pictured(story), waits) for story in stories]


class Pictured:
    """A path with its heap, before and where it has ended after, and their pictures where there are some."""

    def __init__(self, story):
        self.story, self.heap = story, story.heap()
        self.sides = ("before", "after") if story.path.has_ended else ("before",)
        self.pictures = []

    def texts(self):
        """The texts for `dot`; none where boxes of text are shown."""
        if len(self.heap.things) > MOST_OBJECTS:
            return []
        return sources(self.story, self.heap, marks_of(self.story, self.heap, True))

    def taken(self, pictures):
        """The same with its pictures, which are the next ones."""
        if len(self.heap.things) <= MOST_OBJECTS:
            self.pictures = [next(pictures) for _ in self.sides]
        return self

    def figures(self, waits):
        """The heaps; `waits` where pictures are drawn when the path is opened."""
        found = []
        for number, side in enumerate(self.sides):
            shown = self.pictures[number] if self.pictures else boxes(self.story, self.heap, side == "after")
            shown = f"<template>{shown}</template>" if waits and self.pictures else shown
            found.append(f'<figure class="heap {side}"><figcaption>{side}</figcaption>{shown}</figure>')
        return f'<div class="heaps">{"".join(found)}</div>'


def boxes(story, heap, after):
    """A heap as boxes of text."""
    arguments = "".join(f"<span>{escape(argument_box(story, heap, cell))}</span>" for cell in heap.arguments)
    result = f"<span>{escape(story.path.ending)} {escape(heap.result)}</span>" if after and heap.result in heap.by_key else ""
    items = [f'<li class="arguments">{arguments}{result}</li>']
    marks = marks_of(story, heap, after)
    for thing in heap.things:
        if after or thing.sort != "made":
            items.append(box(story, thing, marks.get(thing.key, ()), after))
    return f'<ul class="boxes">{"".join(items)}</ul>'


def argument_box(story, heap, cell):
    words = argument_words(story, heap, cell)
    return f"{words}={story.cell(cell.before)}" if words == cell.label else words


def box(story, thing, marks, after):
    """An object as a box of text."""
    cells = []
    for cell in thing.cells:
        mark = cell_mark(cell) if after else None
        cells.append(f"<span{marked([mark])}>{escape(cell_words(story, cell, after))}</span>")
    return f'<li{marked(marks)}><b>{escape(thing_words(story, thing, marks))}</b>{"".join(cells)}</li>'


def marked(marks):
    """The marks as classes of an element."""
    names = " ".join(mark for mark in marks if mark)
    return f' class="{names}"' if names else ""


def path(pictured, waits):
    """One path, closed at first."""
    story = pictured.story
    figures = pictured.figures(waits)
    parts = [f'<details class="path" id="path-{story.decisions}"{data(story)}>']
    parts.append(f"<summary><b>{story.decisions}</b>{escape(story.sentence)}{signs(story)}</summary>")
    parts += [f'<p class="warn">{escape(each)}</p>' for each in (story.cut, story.ring, story.warning) if each]
    parts += [f"<p>{escape(story.seen_at)}</p>"] if story.seen_at else []
    parts += section("Conditions", "".join(f"<li><code>{escape(each)}</code></li>" for each in story.conditions), "ul")
    named = [f"<li><code>{escape(name)} = {escape(text)}</code></li>" for name, text in story.definitions()]
    parts += section("Terms", "".join(named), "ul") + [figures, meanings(pictured)]
    parts += section("Input", escape("\n".join(story.path.input_lines)), "pre")
    parts += section("Test", escape("\n".join(story.test() or [])), "pre")
    return "".join([*parts, "</details>"])


def signs(story):
    """The signs of a path, behind its sentence."""
    return "".join(f' <i class="{sign}" title="{escape(SIGNS[sign][1])}">{escape(SIGNS[sign][0])}</i>' for sign in story.signs)


def meanings(pictured):
    """What the signs of a path's heaps mean, those that stand there."""
    heap, marks = pictured.heap, marks_of(pictured.story, pictured.heap, True)
    used = {mark for each in marks.values() for mark in each}
    used |= {cell_mark(cell) for thing in heap.things for cell in thing.cells}
    cells = [*heap.arguments, *(cell for thing in heap.things for cell in thing.cells)]
    used |= {UNREAD for cell in cells if cell.before == "?"}
    items = [f"<span>{sign(mark)} {escape(says)}</span>" for mark, (_, says) in LEGEND.items() if mark in used]
    return f'<p class="legend">{" ".join(items)}</p>' if items else ""


def sign(mark):
    return f'<i class="{mark}">{escape(LEGEND[mark][0])}</i>'


def section(title, content, element):
    return [f"<h3>{title}</h3><{element}>{content}</{element}>"] if content else []


def data(story):
    """The ending of a path, and its exception or bound, as data."""
    parts = f' data-ending="{story.path.ending}"'
    parts += f' data-signs="{" ".join(story.signs)}"' if story.signs else ""
    name = {"throws": "exception", "cut": "bound"}.get(story.path.ending)
    return parts + (f' data-{name}="{escape(story.detail)}"' if name and story.detail else "")
