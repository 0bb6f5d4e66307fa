"""The house sheet's cases: the scope document's example read and written, damaged sheets, tables and choices that are no sheet, and the largest
table there and back."""

from entry_points import Call
from sheet_lines import BOXES, EXAMPLE, PAIR, TOP, numbers, read_as
from tables import EXAMPLE as WORDS

DAMAGED = [
    ("no line", b""),
    ("no line feed", b"hard=standard"),
    ("unknown hard part", b"hard=plain\nside=first\n"),
    ("a space", b"hard=standard \nside=first\n"),
    ("no side", b"hard=regular\n"),
    ("unknown side", b"hard=regular\nside=last\n"),
    ("no boxes line", TOP + b"values=2\n"),
    ("no box", TOP + b"boxes=0\n"),
    ("65 boxes", TOP + b"boxes=65\n"),
    ("a leading zero", TOP + b"boxes=02\n"),
    ("a carriage return", TOP + b"boxes=2\r\n"),
    ("domain 0", TOP + b"boxes=2\nvalues=0\n"),
    ("domain 17", TOP + b"boxes=2\nvalues=2\nvalues=17\n"),
    ("a box without values", TOP + b"boxes=2\nvalues=2\npairs=0\n"),
    ("257 pairs", TOP + b"boxes=1\nvalues=1\npairs=257\n"),
    ("no pair", b"hard=regular\nside=score\nboxes=1\nvalues=1\npairs=0\n"),
    ("first box 3 of 2", BOXES + b"pairs=1\nfirst=3\n"),
    ("a box with itself", BOXES + b"pairs=1\nfirst=2\nsecond=2\n"),
    ("weight 0", PAIR + b"weight=0\n"),
    ("weight 1000001", PAIR + b"weight=1000001\n"),
    ("a row too narrow", PAIR + b"weight=7\nallow=01\nallow=000\n"),
    ("a row too wide", PAIR + b"weight=7\nallow=011\nallow=0000\n"),
    ("a 2 in a row", PAIR + b"weight=7\nallow=012\nallow=000\n"),
    ("a row missing", PAIR + b"weight=7\nallow=011\n"),
    ("no last line feed", EXAMPLE[:-1]),
    ("a byte after the last line", EXAMPLE + b"\n"),
    (
        "two faults, the upper one counts",
        TOP + b"boxes=2\nvalues=2\nvalues=17\npairs=1\nfirst=9\nsecond=2\nweight=7\nallow=011\nallow=000\n",
    ),
]
NO_SHEETS = [
    ("hard part 2", WORDS, 2, 3),
    ("side 0, and a bad table", [0], 0, 0),
    ("no word", [], 1, 5),
    ("a mask past its domain", [2, 1, 2, 3, 1, 2, 7, 8, 0], 1, 5),
]


def read_line(name, answer):
    """What reading a sheet answers, with the words that it leaves."""
    return f"{name}: " + answer.told(lambda hard, side, count, *_: read_as(hard, side, answer.left["table"][:count]))


def read_lines(answers, cases):
    found = answers([Call("read_sheet", given=text, table=24) for _, text in cases])
    return [read_line(name, answer) for (name, _), answer in zip(cases, found)]


def written(answer):
    """The sheet, or the refusal."""
    return answer.told(lambda count, *_: bytes(answer.left["text"][:count]).decode("latin-1"))


def marked(answer, buffer, mark):
    """The entries of a buffer, each that stands as it was lent as this mark."""
    return [mark if same else entry for same, entry in zip(answer.untouched(buffer), answer.left[buffer])]


def example_lines(answers):
    """The example there and back, and into buffers that are one entry too short."""
    short, sheet, room = answers(
        [
            Call("read_sheet", given=EXAMPLE, table=8),
            Call("write_sheet", WORDS, 0, 3, text=128),
            Call("write_sheet", WORDS, 0, 3, text=104),
        ]
    )
    yield from read_lines(answers, [("the example", EXAMPLE)])
    yield read_line("the example into 8 words", short)
    yield f"the table is left as it was: {numbers(marked(short, 'table', 5))}"
    yield "its sheet:"
    yield from written(sheet).splitlines()
    yield f"its sheet into 104 bytes: {written(room)}"
    yield bytes(marked(room, "text", ord("."))).decode("latin-1")


def no_sheet_lines(answers):
    found = answers([Call("write_sheet", words, hard, side, text=128) for _, words, hard, side in NO_SHEETS])
    return [f"{name}: {written(answer)}" for (name, *_), answer in zip(NO_SHEETS, found)]


def largest_table():
    """64 boxes and 256 pairs, each of a box and the next one; all other words are 16."""
    words = [64, 256] + 64 * [16]
    for k in range(256):
        words += [k % 64 + 1, (k + 1) % 64 + 1, 1000000] + 16 * [16]
    return words


def largest_lines(answers):
    words = largest_table()
    sheet = answers([Call("write_sheet", words, 1, 5, text=110000)])[0]
    text = written(sheet).encode("latin-1")
    yield f"the largest table's sheet has bytes: {len(text)}"
    back = answers([Call("read_sheet", given=text, table=4930)])[0]
    same = " words, the same" if back.left["table"] == words else ""
    yield f"read back: {numbers(back.values[:3])}{same}"


def lines(answers):
    yield from example_lines(answers)
    yield from read_lines(answers, DAMAGED)
    yield from no_sheet_lines(answers)
    yield from largest_lines(answers)
