"""The crates with arrows, foundations below, from crates.txt."""

from . import graph, order
from .draw import MUTED, WIDTH, Picture, wide

# What each crate is, in one or two short lines. A crate of crates.txt that is not here, or one here that is not there, is an error.
SAYS = {
    "words": ("64-bit words:", "xor, bytes"),
    "reorder": ("the same elements", "in another order"),
    "answers": ("the twelve", "refusals"),
    "capacity": ("the table of", "capacities"),
    "arith": ("hash, seeds,", "fingerprint, slots"),
    "stuck": ("sticking, removing", "and filling"),
    "flush": ("the flush", "key"),
    "layout": ("segment", "lengths"),
    "machine": ("an attempt is", "a complete run"),
    "descriptor": ("the twenty", "bytes"),
    "repeats": ("are two keys", "equal?"),
    "scratch": ("the six lent", "buffers"),
    "peel": ("one attempt, to", "the keys taken"),
    "fill": ("fingerprints", "filled in"),
    "fuse": ("checks 1 to 4, the search;", "what build and query answer"),
    "plan": ("a build up to its", "fingerprints"),
    "packing": ("builds at", "any width"),
    "query": ("asks at", "any width"),
    "bfuse8": ("builds at", "8 bits"),
    "bfuse16": ("builds, asks", "at 16 bits"),
    "contains8": ("asks at", "8 bits"),
    "c_api": ("the entries", "for C"),
    "due_text": ("the clerk's", "text, read"),
    "printing": ("runs of", "numbers printed"),
    "samples": ("key lists and", "widths of tests"),
    "names": ("what a name", "leads to"),
    "files": ("a whole", "file read"),
    "saving": ("a whole file", "written"),
    "marked": ("a build on", "marked buffers"),
    "vectors": ("published", "vectors"),
    "cases": ("the calls at", "their borders"),
    "build_cases": ("builds at", "their borders"),
    "replay": ("the Rust's", "answers"),
    "flushlist": ("the clerk's", "tool"),
}

EDGE, BOX, GAP = 12, 58, 10
THREAD = 8  # the width of the place that passing arrows take on a row
FIRST = 104

# Arrows to the same crate have one of these; neighbours on a row have different ones.
THREADS = ["#5b7186", "#a8632f", "#2f8579", "#7d5a99", "#3c6fb0", "#7a7f2a"]


def described(names):
    missing, unknown = sorted(set(names) - set(SAYS)), sorted(set(SAYS) - set(names))
    if missing or unknown:
        raise ValueError(f"tools/picture/crates.py: no words for: {' '.join(missing) or 'none'}; no such crate: {' '.join(unknown) or 'none'}")


def box_width(name):
    return max(wide(name, 14, bold=True), *(wide(line) for line in SAYS[name])) + 14


def crate(picture, name, middle, y, width):
    picture.box(middle - width / 2, y, width, BOX, graph.kind(name))
    picture.text(middle, y + 18, name, size=14, bold=True, anchor="middle", room=width)
    for at, line in enumerate(SAYS[name]):
        picture.text(middle, y + 34 + 16 * at, line, anchor="middle", fill=MUTED, room=width)


def link(picture, begin, end, top, foot, ends, stroke):
    """A bend from one row to the next; with a head where it ends at a crate, and straight on through the row otherwise."""
    half = (top + foot) / 2
    reach = foot - 5 if ends else foot
    shape = f"M{begin:.1f},{top:.1f} C{begin:.1f},{half:.1f} {end:.1f},{half:.1f} {end:.1f},{reach:.1f}"
    picture.add("path", d=shape, fill="none", stroke=stroke, stroke_width=1.5)
    if ends:
        picture.head(end, foot, 0, 1, stroke)


def legend(picture, y):
    x = EDGE + 4
    for kind, words in (("program", "programs and tests"), ("library", "libraries"), ("theory", "theory: proofs, no code")):
        picture.box(x, y - 12, 16, 15, kind, round=3)
        picture.text(x + 23, y, words)
        x += wide(words) + 50


def tops(layers, links, at, gap=34):
    """The upper edge of each row, the topmost first drawn: more room where more arrows cross over."""
    y, where = FIRST, {}
    for row in range(len(layers) - 1, -1, -1):
        where[row] = y
        leaning = sum(abs(at[upper] - at[lower]) > 60 for upper, lower in links if upper[1] == row)
        y += BOX + gap + min(3 * leaning, 36)
    return where, y - gap


def colours(layers, real):
    """For each crate the colour of the arrows to it."""
    return {name: THREADS[n % len(THREADS)] for layer in layers for n, (name, _) in enumerate(node for node in layer if node in real)}


def arrows(picture, links, at, where, real, colour):
    for upper, lower in links:
        link(picture, at[upper], at[lower], where[upper[1]] + BOX, where[lower[1]], lower in real, colour[lower[0]])
    for name, row in sorted(set(at) - real):
        picture.line(at[name, row], where[row], at[name, row], where[row] + BOX, colour[name], stroke_width=1.5)


def draw():
    needs = graph.read()
    described(needs)
    row = graph.rows(needs)
    start, links = order.layers(graph.reduced(needs), row)
    layers = order.ordered(start, links)
    real = set(row.items())
    width = {node: box_width(node[0]) if node in real else THREAD for layer in layers for node in layer}
    at = order.across(layers, links, width, real, GAP, EDGE, WIDTH - EDGE)
    where, foot = tops(layers, links, at)
    told = f"The {len(needs)} crates of Gillpocketry, programs at the top and foundations below; an arrow leads to a crate that is used."
    picture = Picture("The crates", told, foot + 16)
    picture.heading("The crates", "An arrow leads to a crate that is used. Arrows that others imply are left out; those to one crate join.")
    legend(picture, 82)
    arrows(picture, links, at, where, real, colours(layers, real))
    for node in sorted(real):
        crate(picture, node[0], at[node], where[node[1]], width[node])
    return picture.svg()
