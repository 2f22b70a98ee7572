"""The twenty bytes of the descriptor, and the three slots that a key touches in the fingerprints after them."""

from .draw import KINDS, MUTED, WIDTH, Picture

EDGE = 30
CELL = 33

# Document 01's example: seed 1, segment length 4, segment count length 4.
FIELDS = [
    ("seed", 8, 1, "theory"),
    ("segment length L", 4, 4, "library"),
    ("mask, L - 1", 4, 3, "plain"),
    ("count length", 4, 4, "program"),
]

# The slots below: those of 5 keys at attempt 2, and a hash that shows all three shifts.
LENGTH, SPAN = 4, 16
SLOTS = SPAN + 2 * LENGTH
HASH = 0xA800_0000_000C_0001
NARROW = 27.5
STRIP = EDGE - 0.5


def slots_of(hash_value):
    """Document 01's three slots of a hash, here with the segment length and the count length of this picture."""
    mask = LENGTH - 1
    first = (hash_value * SPAN) >> 64
    return [first, (first + LENGTH) ^ ((hash_value >> 18) & mask), (first + 2 * LENGTH) ^ (hash_value & mask)]


def bracket(picture, x, y, width, down, stroke):
    """A bracket over (down = 1) or under (down = -1) what lies between x and x + width."""
    picture.add("path", d=f"M{x:g},{y + 6 * down:g} V{y:g} H{x + width:g} V{y + 6 * down:g}", fill="none", stroke=stroke, stroke_width=1.5)


def byte_cells(picture, y):
    at = 0
    for name, size, value, kind in FIELDS:
        x, width = EDGE + CELL * at, CELL * size
        for place, byte in enumerate(value.to_bytes(size, "little")):
            left = x + CELL * place
            picture.text(left + CELL / 2, y - 7, str(at + place), anchor="middle", fill=MUTED)
            picture.box(left, y, CELL, 36, kind, round=0)
            picture.text(left + CELL / 2, y + 23, f"{byte:02x}", size=15, mono=True, anchor="middle", room=CELL)
        bracket(picture, x + 3, y + 49, width - 6, -1, KINDS[kind][1])
        picture.text(x + width / 2, y + 68, name, bold=True, anchor="middle", room=width + 4)
        picture.text(x + width / 2, y + 86, f"{size} bytes: {value}", anchor="middle", room=width)
        at += size


def segments(picture, y):
    touched = slots_of(HASH)
    for slot in range(SLOTS):
        kind = "open" if slot in touched else "library" if slot // LENGTH % 2 else "paper"
        picture.box(STRIP + NARROW * slot, y, NARROW, 36, kind, round=0)
        picture.text(STRIP + NARROW * (slot + 0.5), y + 23, str(slot), anchor="middle", room=NARROW, bold=slot in touched)
    for segment in range(SLOTS // LENGTH):
        x = STRIP + NARROW * LENGTH * segment
        shift = segment - touched[0] // LENGTH
        name = {0: "segment s", 1: "s + 1", 2: "s + 2"}.get(shift, "")
        picture.text(x + NARROW * LENGTH / 2, y + 55, name, anchor="middle", bold=True, room=NARROW * LENGTH)
    bracket(picture, STRIP + 2, y + 69, NARROW * SPAN - 4, -1, KINDS["program"][1])
    picture.text(STRIP + NARROW * SPAN / 2, y + 88, "count length: h0 lies in these, and h1 or h2 may", anchor="middle", room=NARROW * SPAN)
    bracket(picture, STRIP + NARROW * SPAN + 2, y + 69, NARROW * 2 * LENGTH - 4, -1, KINDS["library"][1])
    picture.text(STRIP + NARROW * (SPAN + LENGTH), y + 88, "2L more: h1 or h2 may", anchor="middle", room=NARROW * 2 * LENGTH)


def key_arrows(picture, y):
    """The key's box, and an arrow from it to each of its slots, whose cells begin at y + 66."""
    touched = slots_of(HASH)
    middle = STRIP + NARROW * (touched[1] + 0.5)
    stroke = KINDS["open"][1]
    picture.box(middle - 118, y, 236, 30, "open")
    picture.text(middle, y + 20, "a key, hashed with the seed", bold=True, anchor="middle", room=232)
    for name, slot in zip(("h0", "h1", "h2"), touched):
        x = STRIP + NARROW * (slot + 0.5)
        begin = min(max(x, middle - 90), middle + 90)
        bent(picture, begin, x, y + 31, y + 64, stroke)
        picture.text(x + 8, y + 52, name, bold=True, fill=stroke)


def bent(picture, begin, end, top, foot, stroke):
    half = (top + foot) / 2
    picture.add("path", d=f"M{begin:g},{top:g} C{begin:g},{half:g} {end:g},{half - 6:g} {end:g},{foot - 6:g}", fill="none", stroke=stroke, stroke_width=2)
    picture.head(end, foot, 0, 1, stroke)


def rules(picture, y):
    lines = [
        ("h0", "hash × count length / 2^64, rounded down"),
        ("h1", "h0 + L, xor (hash >> 18, masked)"),
        ("h2", "h0 + 2L, xor (hash, masked)"),
        ("yes", "exactly if the key's own fingerprint xor the three stored ones is 0"),
    ]
    for at, (name, words) in enumerate(lines):
        picture.text(EDGE, y + 20 * at, name, bold=True, fill=KINDS["open"][1])
        picture.text(EDGE + 40, y + 20 * at, words, room=WIDTH - 100)


TOLD = (
    "The twenty bytes of a descriptor, little-endian: seed, 8 bytes; segment length L, 4; mask, L - 1, 4; segment count length, 4. Then come"
    " the fingerprints, count length + 2L of them. A key touches three: h0 in a segment s, h1 in s + 1, h2 in s + 2."
)


def draw():
    picture = Picture("The twenty bytes, and the fingerprints", TOLD, 546)
    picture.heading("The twenty bytes", "The descriptor of a list, the lowest byte of each number first. Here: seed 1, L 4, count length 4.")
    byte_cells(picture, 92)
    picture.text(16, 222, "Then the fingerprints", size=18, bold=True)
    picture.text(16, 243, "count length + 2L of them, of 1 byte each (8 bits) or 2 bytes each (16 bits): 12 after the bytes above.", fill=MUTED, room=WIDTH - 20)
    picture.text(16, 263, f"Below, L is {LENGTH} and the count length {SPAN}, as for 5 keys at attempt 2: {SLOTS} fingerprints.", fill=MUTED, room=WIDTH - 20)
    key_arrows(picture, 282)
    segments(picture, 348)
    rules(picture, 466)
    return picture.svg()
