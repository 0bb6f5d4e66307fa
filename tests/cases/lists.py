"""Sheets with their list line, as the program decode is given them: what reading one answers, and what it leaves in the two lent buffers."""

from entry_points import Call
from sheet_lines import EXAMPLE, PAIR, numbers, read_as, told

THRESHOLDS = b"hard=regular\nside=support\nboxes=1\nvalues=3\n"
CASES = [
    # the list line itself
    ("the example with its list", EXAMPLE + b"list=01100\n"),
    ("no list line", EXAMPLE),
    ("another key", EXAMPLE + b"plan=01100\n"),
    ("a capital letter", EXAMPLE + b"List=01100\n"),
    ("another character", EXAMPLE + b"list=01200\n"),
    ("a space in the list", EXAMPLE + b"list=0 1 1 0 0\n"),
    ("no line feed", EXAMPLE + b"list=01100"),
    ("a Windows line end", EXAMPLE + b"list=01100\r\n"),
    # what follows it, and how long it is
    ("a blank line after the list", EXAMPLE + b"list=01100\n\n"),
    ("two list lines", EXAMPLE + b"list=01100\nlist=01100\n"),
    ("too long and more after it", EXAMPLE + b"list=011001\nmore\n"),
    ("an entry too few", EXAMPLE + b"list=0110\n"),
    ("an entry too many", EXAMPLE + b"list=011000\n"),
    ("no entry", EXAMPLE + b"list=\n"),
    ("a list that no buffer holds", EXAMPLE + b"list=0101010101010101010101010101010101010101\n"),
    # the sheet above it
    ("a fault in the sheet", PAIR + b"weight=0\nallow=011\nallow=000\nlist=01100\n"),
    ("a list line for an unfinished sheet", PAIR + b"weight=7\nallow=011\nlist=01100\n"),
    ("a list line before the pairs", THRESHOLDS + b"list=01100\n"),
    ("nothing but a list", b"list=1\n"),
    ("thresholds and no pair", THRESHOLDS + b"pairs=0\nlist=01011\n"),
    ("thresholds left out", THRESHOLDS + b"pairs=0\nlist=010\n"),
]
# the example into a table of 8 words: where the list is too short as well, the list counts
SHORT = [("both buffers too short", 4), ("the table too short", 5)]


def shown(answer):
    def read(hard, side, words, entries, _):
        return read_as(hard, side, answer.left["table"][:words]) + f", list {numbers(answer.left['text'][:entries])}"

    return told(answer, read)


def lines(answers):
    calls = [Call("read_list", given=text, table=16, text=16) for _, text in CASES]
    calls += [Call("read_list", given=EXAMPLE + b"list=01100\n", table=8, text=room) for _, room in SHORT]
    return [f"{name}: {shown(answer)}" for (name, _), answer in zip(CASES + SHORT, answers(calls))]
