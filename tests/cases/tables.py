"""The check of a table and the cost of a plan, at their edges."""

from entry_points import Call, laid_out

EXAMPLE = [2, 1, 2, 3, 1, 2, 7, 6, 0]  # document 01's: 2 and 3 values, weight 7
CHECKED = [
    ("no box", [0]),
    ("65 boxes", [65]),
    ("257 pairs", [2, 257]),
    ("domain 0", [1, 0, 0]),
    ("domain 16", [1, 0, 16]),
    ("domain 17", [1, 0, 17]),
    ("weight 0", [2, 1, 2, 3, 1, 2, 0, 6, 0]),
    ("weight 1000000", [2, 1, 2, 3, 1, 2, 1000000, 6, 0]),
    ("weight 1000001", [2, 1, 2, 3, 1, 2, 1000001, 6, 0]),
    ("two faults, the left one counts", [2, 1, 2, 17, 1, 1, 0, 8, 8]),
    ("first box 0", [2, 1, 2, 3, 0, 2, 7, 6, 0]),
    ("first box 3 of 2", [2, 1, 2, 3, 3, 2, 7, 6, 0]),
    ("second box 0", [2, 1, 2, 3, 1, 0, 7, 6, 0]),
    ("second box 3 of 2", [2, 1, 2, 3, 1, 3, 7, 6, 0]),
    ("box 1 with itself", [2, 1, 2, 3, 1, 1, 7, 1, 0]),
    ("first greater than second", [2, 1, 2, 3, 2, 1, 7, 3, 0, 1]),
    ("mask just inside 3 values", [2, 1, 2, 3, 1, 2, 7, 7, 0]),
    ("mask just past 3 values", [2, 1, 2, 3, 1, 2, 7, 8, 0]),
    ("second mask just past", [2, 1, 2, 3, 1, 2, 7, 6, 8]),
    ("mask just inside 16 values", [2, 1, 1, 16, 1, 2, 7, 65535]),
    ("mask just past 16 values", [2, 1, 1, 16, 1, 2, 7, 65536]),
]
EITHER_WAY_ROUND = [2, 2, 2, 3, 1, 2, 7, 6, 0, 2, 1, 5, 0, 0, 1]
COSTED = [
    ("plan 2 1", EXAMPLE, [2, 1]),
    ("plan 1 2", EXAMPLE, [1, 2]),
    ("plan 1 3", EXAMPLE, [1, 3]),
    ("plan 1 1", EXAMPLE, [1, 1]),
    ("no value", EXAMPLE, []),
    ("one value", EXAMPLE, [1]),
    ("three values", EXAMPLE, [1, 2, 1]),
    ("value 0", EXAMPLE, [1, 0]),
    ("value 4 of 3", EXAMPLE, [1, 4]),
    ("value 3 of 2 and 4 of 3", EXAMPLE, [3, 4]),
    ("a bad table before a bad plan", EXAMPLE[:8], [3]),
    ("two equal pairs, each charged by itself", [2, 2, 2, 3, 1, 2, 7, 6, 0, 1, 2, 7, 6, 0], [2, 1]),
    ("the same two boxes either way round", EITHER_WAY_ROUND, [2, 1]),
    ("the same, the second alone broken", EITHER_WAY_ROUND, [1, 2]),
]


def most():
    """64 boxes and 256 pairs, the most there can be: one value a box, every other pair broken."""
    pairs = [[k % 64 + 1, (k + 1) % 64 + 1, 1000000, k % 2] for k in range(256)]
    return [64, 256] + [1] * 64 + sum(pairs, [])


def checked(name, words):
    return Call("check", words), lambda answer: [f"{name}: " + answer.told(lambda boxes, pairs, *_: f"boxes={boxes} pairs={pairs}")]


def costed(name, words, plan):
    return Call("cost", words, plan=plan), lambda answer: [f"{name}: " + answer.told(lambda cost, *_: f"cost={cost}")]


def cases():
    for count in range(12):  # cut at each length, a word too few each time; then with some too many
        yield checked(f"first {count} words", (EXAMPLE + [0, 0])[:count])
    for case in CHECKED:
        yield checked(*case)
    for case in COSTED:
        yield costed(*case)
    words = most()
    yield checked("64 boxes and 256 pairs", words)
    yield costed("half of them broken", words, [1] * 64)
    yield checked("first 1089 words", words[:1089])
    yield checked("257 pairs of that", [64, 257] + words[2:])
    yield checked("65 boxes of that", [65, 256] + words[2:])


def lines(answers):
    return laid_out(cases(), answers)
