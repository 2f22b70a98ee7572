"""Our times over the Rust's as bars, from the first table of times in docs/SPEED.md: the one that tools/bench prints."""

import re

from .draw import INK, MUTED, WIDTH, Picture, wrapped

SOURCE = "docs/SPEED.md"
COLUMNS = ["what", "Rust, ns", "ours, ns", "ours / Rust"]
EDGE, LEFT, RIGHT = 16, 84, 520  # the longest bar ends at RIGHT
BAR, GROUP = 18, 30  # the height of a bar with its gap, and of a group's name with its gap
LABEL = 32  # the width of a ratio in words
FASTER, SLOWER = "#8cc095", "#e6a583"


def cells(line):
    return [cell.strip() for cell in line.strip().strip("|").split("|")]


def first_table(lines):
    """Where the first table begins that has the columns of tools/bench, those of instructions apart."""
    for at, line in enumerate(lines):
        if line.startswith("|") and cells(line)[: len(COLUMNS)] == COLUMNS:
            return at
    raise ValueError(f"{SOURCE} has no table with the columns {' | '.join(COLUMNS)}")


def read_rows(lines):
    """What, the two times and the ratio of each row after the header and its rule."""
    rows = []
    for line in lines:
        if not line.startswith("|"):
            break
        what, rust, ours, ratio = cells(line)[: len(COLUMNS)]
        rows.append((what, rust, ours, float(ratio)))
    if not rows:
        raise ValueError(f"{SOURCE}: the table of times has no rows")
    return rows


def about(lines):
    """The heading over the table, and the sentence under it that has a date, in plain words, where there is one."""
    begin = max((at for at, line in enumerate(lines) if line.startswith("#")), default=-1)
    heading = lines[begin].lstrip("# ") if begin >= 0 else ""
    plain = re.sub(r"\[([^]]*)\]\([^)]*\)|[`*]", r"\1", " ".join(lines[begin + 1 :]))
    sentences = re.split(r"(?<=[.:])\s+(?=[A-Z])|\s{2,}", plain)
    dated = next((words.strip() for words in sentences if re.search(r"\d{4}-\d{2}-\d{2}", words)), "")
    return thousands(heading), dated


def grouped(rows):
    """Rows that differ only in the width at their beginning, together under one name."""
    groups = {}
    for what, rust, ours, ratio in rows:
        match = re.match(r"(\d+ bits): (.*)", what)
        width, name = match.groups() if match else ("", what)
        groups.setdefault(name, []).append((width, rust, ours, ratio))
    return groups


def thousands(words):
    return re.sub(r"\b\d{4,}\b", lambda found: f"{int(found.group()):,}", words)


def time_in_words(nanoseconds):
    value = float(nanoseconds)
    return f"{value:.1f} ns" if value < 100 else f"{value / 1000:.1f} µs"


def bar(picture, y, scale, row):
    width, rust, ours, ratio = row
    picture.text(LEFT - 8, y + 13, width, anchor="end", room=LEFT - EDGE)
    picture.add("rect", x=LEFT, y=y + 1, width=scale * ratio, height=BAR - 3, rx=2, fill=shade(ratio))
    picture.text(label_at(scale, ratio), y + 13, f"{ratio:.2f}", bold=True)
    picture.text(WIDTH - EDGE, y + 13, f"{time_in_words(ours)} / {time_in_words(rust)}", anchor="end", fill=MUTED)


def label_at(scale, ratio):
    """Behind the bar; where the line of equal times would go through it, behind that line."""
    x = LEFT + scale * ratio + 8
    line = LEFT + scale
    return line + 8 if ratio <= 1 and x + LABEL > line else x


def shade(ratio):
    return FASTER if ratio <= 1 else SLOWER


def equal(picture, x, top, foot):
    """A part of the line of equal times."""
    picture.line(x, top, x, foot, INK, stroke_dasharray="4 3")


def legend(picture, y):
    x = EDGE
    for fill, words in ((FASTER, "ours is faster"), (SLOWER, "ours is slower")):
        picture.add("rect", x=x, y=y - 11, width=16, height=14, rx=2, fill=fill)
        picture.text(x + 23, y, words)
        x += 140
    equal(picture, x + 8, y - 14, y + 5)
    picture.text(x + 19, y, "1.0: as fast")
    picture.text(WIDTH - EDGE, y, "time, ours / Rust's", anchor="end", fill=MUTED)


def group(picture, y, scale, name, rows):
    """The bars of one name, and across them the line of equal times."""
    picture.text(LEFT, y + 13, thousands(name), bold=True, room=WIDTH - LEFT - EDGE)
    for at, row in enumerate(rows):
        bar(picture, y + 20 + BAR * at, scale, row)
    equal(picture, LEFT + scale, y + 18, y + 20 + BAR * len(rows))


def draw():
    with open(SOURCE, encoding="utf-8") as file:
        lines = file.read().splitlines()
    at = first_table(lines)
    heading, dated = about(lines[:at])
    groups = grouped(read_rows(lines[at + 2 :]))
    most = max(1.0, *(row[3] for rows in groups.values() for row in rows))
    scale = (RIGHT - LEFT) / most
    notes = wrapped(dated, WIDTH - 2 * EDGE)
    y = 84 + 18 * len(notes)
    height = y + 20 + sum(GROUP + BAR * len(rows) for rows in groups.values()) + 14
    told = f"Our time divided by the Rust's, as bars; below 1 ours is faster. {heading}."
    picture = Picture("Times beside the Rust's", told, height)
    picture.heading("Our time divided by the Rust's", heading)
    for n, words in enumerate(notes):
        picture.text(EDGE, 71 + 18 * n, words, fill=MUTED)
    legend(picture, y)
    y += 20
    for name, rows in groups.items():
        group(picture, y, scale, name, rows)
        y += GROUP + BAR * len(rows)
    return picture.svg()
