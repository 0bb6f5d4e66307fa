"""Damaged sheets: the scope document's example cut at every byte and changed at every byte, a line for each run of positions that have one outcome;
the sheets that docs/SHEET.md shows, and the slips that it speaks of."""

import itertools
import re

from entry_points import Call
from sheet_lines import EXAMPLE, TOP, told

ONE = TOP + b"boxes=1\nvalues=1\n"
TWO = TOP + b"boxes=2\nvalues=1\nvalues=1\n"
SLIPS = [
    ("an empty file", b""),
    ("one line feed", b"\n"),
    ("Windows line ends", b"hard=standard\r\nside=first\r\nboxes=1\r\nvalues=1\r\npairs=0\r\n"),
    ("a byte order mark", b"\xef\xbb\xbf" + ONE + b"pairs=0\n"),
    ("a capital letter", b"Hard=standard\nside=first\nboxes=1\nvalues=1\npairs=0\n"),
    ("side before hard", b"side=first\nhard=standard\nboxes=1\nvalues=1\npairs=0\n"),
    ("a space around the sign", TOP + b"boxes = 1\nvalues=1\npairs=0\n"),
    ("a blank line", TOP + b"\nboxes=1\nvalues=1\npairs=0\n"),
    ("a leading zero", TOP + b"boxes=01\nvalues=1\npairs=0\n"),
    ("a plus sign", TOP + b"boxes=+1\nvalues=1\npairs=0\n"),
    ("no number", TOP + b"boxes=\nvalues=1\npairs=0\n"),
    ("a values line too many", TOP + b"boxes=1\nvalues=1\nvalues=1\npairs=0\n"),
    ("a values line too few", TOP + b"boxes=2\nvalues=1\npairs=0\n"),
    ("a pair that is not there", ONE + b"pairs=1\n"),
    ("second before first", TWO + b"pairs=1\nsecond=2\nfirst=1\nweight=7\nallow=0\n"),
    ("a box with itself", TWO + b"pairs=1\nfirst=1\nsecond=1\nweight=7\nallow=0\n"),
    ("weight 0", TWO + b"pairs=1\nfirst=1\nsecond=2\nweight=0\nallow=0\n"),
    ("a weight with a point", TWO + b"pairs=1\nfirst=1\nsecond=2\nweight=1.5\nallow=0\n"),
    ("an allow line too wide", TWO + b"pairs=1\nfirst=1\nsecond=2\nweight=7\nallow=00\n"),
    ("an allow line too narrow", TOP + b"boxes=2\nvalues=1\nvalues=2\npairs=1\nfirst=1\nsecond=2\nweight=7\nallow=0\n"),
    ("the boxes of a pair exchanged", TOP + b"boxes=2\nvalues=1\nvalues=2\npairs=1\nfirst=2\nsecond=1\nweight=7\nallow=01\n"),
    ("no line feed at the end", ONE + b"pairs=0"),
    ("a blank line at the end", ONE + b"pairs=0\n\n"),
    ("a pair too many", TWO + b"pairs=0\nfirst=1\nsecond=2\nweight=7\nallow=0\n"),
    ("a list line", ONE + b"pairs=0\nlist=1\n"),
]
SPOILT = {ord("0"): ord("9"), ord("\n"): ord(" ")}  # any other byte becomes a #


def shown_sheets():
    """The sheets of docs/SHEET.md, by their names here."""
    with open("docs/SHEET.md", encoding="utf-8") as page:
        sheets = [text.encode() for text in re.findall(r"^```sheet\n(.*?)^```", page.read(), re.S | re.M)]
    return list(zip(["the sheet of two boxes", "the sheet of six boxes"], sheets, strict=True))


def with_byte(at, byte):
    return EXAMPLE[:at] + bytes([byte]) + EXAMPLE[at + 1 :]


def damages():
    """The example damaged at each position, by the kind of damage. The next byte in place of a digit is often one that is allowed there."""
    yield "cut", [EXAMPLE[:count] for count in range(len(EXAMPLE) + 1)]
    yield "spoilt", [with_byte(at, SPOILT.get(byte, ord("#"))) for at, byte in enumerate(EXAMPLE)]
    yield "raised", [with_byte(at, byte + 1) for at, byte in enumerate(EXAMPLE)]


def outcomes(answers, texts):
    for answer in answers([Call("read_sheet", given=text, table=128) for text in texts]):
        yield told(answer, lambda hard, side, words, *_: f"words={words}")


def runs(name, found):
    first = 0
    for outcome, run in itertools.groupby(found):
        last = first + len(list(run)) - 1
        yield f"{name} {first}..{last}: {outcome}"
        first = last + 1


def lines(answers):
    damaged, cases = list(damages()), shown_sheets() + SLIPS
    found = outcomes(answers, [text for _, texts in damaged for text in texts] + [text for _, text in cases])
    for name, texts in damaged:
        yield from runs(name, itertools.islice(found, len(texts)))
    for (name, _), outcome in zip(cases, found):
        yield f"{name}: {outcome}"
