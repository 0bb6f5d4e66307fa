"""The sheet of document 01 once more, written from its text alone and apart from the proved code: what the entry points of sheets must answer.

It answers the calls of the groups sheets, damaged and lists of tests/cases, and holds the lines that come of it to the stored ones. Nothing here is
proved; it is there to disagree.
"""
import pathlib
import re
import sys

sys.path.insert(0, str(pathlib.Path(__file__).resolve().parent.parent / "cases"))
import apart
import held
from apart import Refused

HARDS = ["standard", "regular"]
SIDES = ["direct", "support", "first", "literals", "score"]


class Lines:
    def __init__(self, text):
        self.rest, self.number = text, 0

    def fault(self):
        raise Refused(13, self.number)

    def take(self, key):
        """What follows the key in the next line; a line has to end in a line feed."""
        self.number += 1
        line, feed, rest = self.rest.partition(b"\n")
        if not feed or not line.startswith(key + b"="):
            self.fault()
        self.rest = rest
        return line[len(key) + 1 :]

    def word(self, key, words):
        value = self.take(key)
        if value not in [w.encode() for w in words]:
            self.fault()
        return words.index(value.decode())

    def decimal(self, key, low, high):
        value = self.take(key)
        if not re.fullmatch(rb"0|[1-9][0-9]*", value) or not low <= int(value) <= high:
            self.fault()
        return int(value)

    def bits(self, key, width):
        value = self.take(key)
        if not re.fullmatch(rb"[01]" + width, value):
            self.fault()
        return [c - ord("0") for c in value]

    def row(self, key, width):
        return sum(bit << j for j, bit in enumerate(self.bits(key, b"{%d}" % width)))

    def end(self):
        self.number += 1
        if self.rest:
            self.fault()


def sheet_of(lines):
    """Hard part, side and words of the sheet that the lines begin with."""
    hard = lines.word(b"hard", HARDS)
    side = lines.word(b"side", SIDES) + 1
    n = lines.decimal(b"boxes", 1, 64)
    sizes = [lines.decimal(b"values", 1, 16) for _ in range(n)]
    p = lines.decimal(b"pairs", 0, 256)
    words = [n, p] + sizes
    for _ in range(p):
        first = lines.decimal(b"first", 1, n)
        second = lines.decimal(b"second", 1, n)
        if second == first:
            lines.fault()
        weight = lines.decimal(b"weight", 1, 1000000)
        words += [first, second, weight]
        words += [lines.row(b"allow", sizes[second - 1]) for _ in range(sizes[first - 1])]
    return hard, side, words


class Table:
    """A table's words, taken from the left."""

    def __init__(self, words):
        self.words, self.at = words, 0

    def take(self, number, low, high, but=None):
        """The next word, refused with this number where it is out of range."""
        at, self.at = self.at, self.at + 1
        if at >= len(self.words):
            raise Refused(1, at)
        if not low <= self.words[at] <= high or self.words[at] == but:
            raise Refused(number, at)
        return self.words[at]

    def end(self):
        if self.at < len(self.words):
            raise Refused(2, self.at)


def sheet_text(hard, side, words):
    """The sheet of a table, a line for each word."""
    if not 0 <= hard <= 1 or not 1 <= side <= 5:
        raise Refused(8, 0)
    table = Table(words)
    n, p = table.take(3, 1, 64), table.take(3, 0, 256)
    sizes = [table.take(4, 1, 16) for _ in range(n)]
    lines = [f"hard={HARDS[hard]}", f"side={SIDES[side - 1]}", f"boxes={n}"] + [f"values={size}" for size in sizes] + [f"pairs={p}"]
    for _ in range(p):
        first = table.take(5, 1, n)
        second = table.take(5, 1, n, first)
        lines += [f"first={first}", f"second={second}", f"weight={table.take(6, 1, 1000000)}"]
        width = sizes[second - 1]
        masks = [table.take(7, 0, 2**width - 1) for _ in range(sizes[first - 1])]
        lines += ["allow=" + "".join(str(mask >> j & 1) for j in range(width)) for mask in masks]
    table.end()
    return "".join(line + "\n" for line in lines).encode()


def read_sheet(call, left):
    lines = Lines(call.given)
    hard, side, words = sheet_of(lines)
    lines.end()
    apart.store(left, table=words)
    return hard, side, len(words)


def read_list(call, left):
    lines = Lines(call.given)
    hard, side, words = sheet_of(lines)
    entries = lines.bits(b"list", b"*")
    lines.end()
    sizes = words[2 : 2 + words[0]]
    wanted = sum(sizes) + (sum(m - 1 for m in sizes) if hard == 1 else 0) + (words[1] if side == 2 else 0)
    if len(entries) != wanted:
        raise Refused(10, wanted)
    apart.store(left, text=entries, table=words)
    return hard, side, len(words), len(entries)


def write_sheet(call, left):
    text = sheet_text(call.hard, call.side, call.words)
    apart.store(left, text=text)
    return (len(text),)


ENTRY_POINTS = {"read_sheet": read_sheet, "read_list": read_list, "write_sheet": write_sheet}


def answers(calls):
    return [apart.answer(call, ENTRY_POINTS[call.name]) for call in calls]


if __name__ == "__main__":
    sys.exit(held.report(held.hold(name, answers) for name in ("sheets", "damaged", "lists")))
