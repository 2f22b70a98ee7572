"""What the pictures share: sizes, colours, and the parts that an SVG is made of."""

WIDTH = 720
LEAST = 13  # the smallest letters, in pixels at the picture's own width

INK = "#1d2b3a"
MUTED = "#4a5b6c"
ARROW = "#6d7f91"

# (inside, border) of a box, by what it stands for.
KINDS = {
    "library": ("#e6eff8", "#4a6785"),
    "theory": ("#fbf1d3", "#a07a2c"),
    "program": ("#e3f2e5", "#4b8a4b"),
    "proved": ("#e3f2e5", "#3a7a40"),
    "open": ("#fdece3", "#b4552d"),
    "plain": ("#f4f6f8", "#8595a5"),
    "paper": ("#ffffff", "#b5c0cb"),
}

# Widths of letters in thousandths of the size, as in DejaVu Sans, the widest of the usual fonts: what fits there fits elsewhere.
LETTERS = {
    280: "ijl'I|",
    340: " .,:;/-!()[]",
    400: "ftr",
    530: "szc?*_\"",
    600: "vxykTFLYP",
    690: "ABCERSVXKZ",
    780: "DGHNOQU&",
    840: "w+=<>#~→←×≤",
    1000: "mMW@%…—",
}
WIDTHS = {letter: width for width, letters in LETTERS.items() for letter in letters}


def wide(words, size=LEAST, bold=False, mono=False):
    """How many pixels the words take, at most."""
    if mono:
        return 0.61 * size * len(words)
    return sum(WIDTHS.get(letter, 640) for letter in words) * size * (1.1 if bold else 1) / 1000


def wrapped(words, room, size=LEAST):
    """The words in lines that fit into the room."""
    lines = []
    for word in words.split():
        longer = f"{lines[-1]} {word}" if lines else word
        if lines and wide(longer, size) <= room:
            lines[-1] = longer
        else:
            lines.append(word)
    return lines


def escaped(words):
    for letter, name in (("&", "amp"), ("<", "lt"), (">", "gt"), ('"', "quot")):
        words = words.replace(letter, f"&{name};")
    return words


def number(value):
    return f"{value:.1f}".removesuffix(".0")


def tag(name, words=None, **attributes):
    """One element; an underscore in an attribute's name stands for a hyphen."""
    parts = [name]
    for key, value in attributes.items():
        shown = number(value) if isinstance(value, (int, float)) else str(value)
        parts.append(f'{key.replace("_", "-")}="{escaped(shown)}"')
    inside = " ".join(parts)
    return f"<{inside}/>" if words is None else f"<{inside}>{escaped(words)}</{name}>"


class Picture:
    """Parts in the order in which they are drawn, on a light ground of their own, so that a dark page does no harm."""

    def __init__(self, title, told, height):
        self.title, self.told, self.height = title, told, height
        self.parts = []

    def add(self, name, words=None, **attributes):
        self.parts.append(tag(name, words, **attributes))

    def box(self, x, y, width, height, kind, round=6, **more):
        inside, border = KINDS[kind]
        self.add("rect", x=x, y=y, width=width, height=height, rx=round, fill=inside, stroke=border, **more)

    def text(self, x, y, words, size=LEAST, bold=False, mono=False, anchor="start", fill=INK, room=WIDTH):
        """Words whose foot is at y. Too small letters, or too many for their room, are an error and not a bad picture."""
        taken = wide(words, size, bold, mono)
        if size < LEAST or taken > room:
            raise ValueError(f"{self.title}: {words!r} takes {taken:.0f} of {room:.0f} pixels, at size {size}")
        more = {"font_weight": "bold"} if bold else {}
        if mono:
            more["font_family"] = "DejaVu Sans Mono, Menlo, Consolas, monospace"
        if anchor != "start":
            more["text_anchor"] = anchor
        self.add("text", words, x=x, y=y, font_size=size, fill=fill, **more)

    def line(self, x1, y1, x2, y2, stroke=ARROW, **more):
        self.add("line", x1=x1, y1=y1, x2=x2, y2=y2, stroke=stroke, **more)

    def head(self, x, y, across, down, fill=ARROW):
        """The head of an arrow that ends at x, y and came in the direction (across, down), one of them 0, the other 1 or -1."""
        back_x, back_y = x - 8 * across, y - 8 * down
        corners = [(x, y), (back_x + 4 * down, back_y + 4 * across), (back_x - 4 * down, back_y - 4 * across)]
        self.add("polygon", points=" ".join(f"{number(a)},{number(b)}" for a, b in corners), fill=fill)

    def arrow(self, x1, y1, x2, y2, stroke=ARROW, **more):
        across, down = (x2 > x1) - (x2 < x1), (y2 > y1) - (y2 < y1)
        self.line(x1, y1, x2 - 6 * across, y2 - 6 * down, stroke, stroke_width=2, **more)
        self.head(x2, y2, across, down, stroke)

    def heading(self, words, under=None):
        self.text(16, 32, words, size=18, bold=True, room=WIDTH - 32)
        if under:
            self.text(16, 53, under, fill=MUTED, room=WIDTH - 32)

    def svg(self):
        head = (
            f'<svg xmlns="http://www.w3.org/2000/svg" viewBox="0 0 {WIDTH} {number(self.height)}" width="{WIDTH}"'
            f' height="{number(self.height)}" font-family="Helvetica, Arial, DejaVu Sans, sans-serif" role="img"'
            f' aria-label="{escaped(self.told)}">'
        )
        ground = tag("rect", x=0.5, y=0.5, width=WIDTH - 1, height=self.height - 1, rx=8, fill="#fdfdfe", stroke="#d3dbe3")
        return "\n".join([head, tag("title", self.title), ground, *self.parts, "</svg>"]) + "\n"
