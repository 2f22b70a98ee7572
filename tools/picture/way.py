"""The way of a list: from the clerk's text to the controller's answer, and what is proved of it."""

from .draw import INK, KINDS, MUTED, WIDTH, Picture, wide

EDGE, GAP, BOX, TALL = 16, 28, 210.67, 200
COLUMNS = [EDGE + at * (BOX + GAP) for at in range(3)]
TOP, BOTTOM = 72, 72 + TALL + 40
STEP = 18  # from one line of a text to the next


def stage(picture, column, y, name, kind, lines, mark=None, **more):
    """A box with its name, lines of text, of which those that begin with ` are code and those with * bold, and a mark at its foot."""
    x = COLUMNS[column]
    picture.box(x, y, BOX, TALL, kind, round=8, **more)
    picture.text(x + 12, y + 24, name, size=15, bold=True, room=BOX - 24)
    for at, words in enumerate(lines):
        plain = words.lstrip("`*")
        picture.text(x + 12, y + 47 + STEP * at, plain, bold=words[:1] == "*", mono=words[:1] == "`", room=BOX - 18)
    if mark:
        badge(picture, x + 12, y + TALL - 31, *mark)


def badge(picture, x, y, kind, words):
    border = KINDS[kind][1]
    width = wide(words, bold=True) + 16
    picture.add("rect", x=x, y=y, width=width, height=21, rx=10, fill=border)
    picture.text(x + 8, y + 15, words, bold=True, fill="#ffffff")
    return width


def text_stage(picture):
    stage(picture, 0, TOP, "1  The clerk's text", "plain", [])
    x, y = COLUMNS[0] + 12, TOP + 38
    picture.box(x, y, BOX - 24, 88, "paper", round=3)
    for at, words in enumerate(["# unit valve seconds", "1 2 1773032400", "2 1 1773075600", "1 1 -36000"]):
        picture.text(x + 10, y + 21 + 20 * at, words, mono=True, room=BOX - 34, fill=MUTED if at == 0 else INK)
    picture.text(x, y + 110, "One due flush to a line.", room=BOX - 24)
    picture.text(x, y + 128, "Each becomes a 64-bit key.", room=BOX - 20)


def list_stage(picture):
    stage(picture, 2, TOP, "3  The list", "plain", [])
    x, y = COLUMNS[2] + 12, TOP + 40
    picture.box(x, y, 66, 34, "theory", round=3)
    picture.text(x + 33, y + 22, "20 bytes", anchor="middle", room=64)
    picture.box(x + 66, y, BOX - 90, 34, "library", round=3)
    picture.text(x + 66 + (BOX - 90) / 2, y + 22, "fingerprints", anchor="middle", room=BOX - 90)
    lines = ["8,192 keys: 10,772 bytes", "100 keys: 212 bytes", "The keys are not in it, only", "a fingerprint for each slot:", "one byte, or two at 16 bits."]
    for at, words in enumerate(lines):
        picture.text(x, y + 57 + STEP * at, words, bold=at == 0, room=BOX - 16)


def answer_stage(picture):
    stage(picture, 0, BOTTOM, "6  The answer", "plain", [])
    x, y = COLUMNS[0] + 12, BOTTOM + 38
    rows = [
        ("proved", "yes", "flush"),
        ("library", "no", "not due"),
        ("open", "refused", "alarm, and flush"),
    ]
    for at, (kind, word, then) in enumerate(rows):
        badge(picture, x, y + 26 * at, kind, word)
        picture.text(x + 82, y + 15 + 26 * at, then, room=BOX - 100)
    notes = ["A refusal is not a no:", "flush to be safe.", "Of the keys not listed, about", "1 in 256 say yes too (8 bits)."]
    for at, words in enumerate(notes):
        picture.text(x, y + 95 + STEP * at, words, fill=MUTED, room=BOX - 16)


def packer_stage(picture):
    lines = [
        "`flushlist pack",
        "or, from C,",
        "`gp_fuse8_build",
        "packs all keys, or refuses",
        "with a number. flushlist asks",
        "its list for every key, then",
        "says done.",
    ]
    stage(picture, 1, TOP, "2  The packer", "proved", lines, ("proved", "build proved"))


def radio_stage(picture):
    lines = [
        "Bytes may change here.",
        "The filter does not see it:",
        "a changed list may deny",
        "keys that are due.",
        "*Send a checksum of your",
        "*own with the list.",
    ]
    dashes = {"stroke_dasharray": "6 4", "stroke_width": 1.5}
    stage(picture, 2, BOTTOM, "4  Radio or card", "open", lines, ("open", "not proved"), **dashes)


def controller_stage(picture):
    lines = [
        "tests your checksum. Then",
        "`gp_flush_key",
        "makes the key of this hour,",
        "and it asks the list with",
        "`gp_fuse8_contains",
    ]
    stage(picture, 1, BOTTOM, "5  The controller", "proved", lines, ("proved", "key and query proved"))


def arrows(picture):
    for at in (0, 1):
        end, begin = COLUMNS[at] + BOX, COLUMNS[at + 1]
        picture.arrow(end + 3, TOP + TALL / 2, begin - 3, TOP + TALL / 2)
        picture.arrow(begin - 3, BOTTOM + TALL / 2, end + 3, BOTTOM + TALL / 2)
    x = COLUMNS[2] + BOX / 2
    picture.arrow(x, TOP + TALL + 4, x, BOTTOM - 4)


def legend(picture, y):
    said = [
        ("proved", "proved", "A listed key is never denied, asked of the list that was built."),
        ("open", "not proved", "That the list which came is the list that was built: your checksum must tell."),
    ]
    for at, (kind, word, words) in enumerate(said):
        badge(picture, EDGE, y + 27 * at, kind, word)
        picture.text(EDGE + 104, y + 15 + 27 * at, words, room=WIDTH - 130)


TOLD = (
    "The way of a list. The clerk writes a text of due flushes. The packer packs it or refuses with a number. The list is 20 bytes"
    " and its fingerprints. Radio or card carry it, with a checksum of your own. The controller asks it: yes, no, or refused."
    " Build, key and query are proved; the radio is not."
)


def draw():
    picture = Picture("The way of a list", TOLD, BOTTOM + TALL + 76)
    picture.heading("The way of a list", "From the clerk's text to the flush. Follow the numbers.")
    for part in (text_stage, packer_stage, list_stage, radio_stage, controller_stage, answer_stage, arrows):
        part(picture)
    legend(picture, BOTTOM + TALL + 16)
    return picture.svg()
