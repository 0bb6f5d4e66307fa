"""Table 1 of paper 000, the number of clauses of its five encodings, beside our own averages over instances drawn as the paper says: 25 boxes of 5
values, 150 of the 300 pairs of boxes, and in each so many of the 25 value pairs forbidden. All draws follow from one seed."""

import itertools

from entry_points import Call

BOXES, VALUES, PAIRS = 25, 5, 150
FORBIDDEN = range(2, 21, 2)
INSTANCES, SEED = 100, 1
# the paper's columns as sides of document 01: supc goes by score, supl by literals
SIDES = {"dir": 1, "supxy": 2, "supx": 3, "supc": 5, "supl": 4}
TABLE_1 = {
    "dir": [575, 875, 1175, 1475, 1775, 2075, 2375, 2675, 2975, 3275],
    "supxy": [824, 1201, 1445, 1602, 1690, 1739, 1762, 1771, 1774, 1775],
    "supx": [551, 738, 861, 939, 983, 1007, 1019, 1023, 1025, 1025],
    "supc": [549, 720, 826, 905, 959, 993, 1012, 1021, 1024, 1025],
    "supl": [524, 685, 804, 890, 950, 991, 1012, 1021, 1024, 1025],
}
SLACK = 3.0  # clauses between two averages of a hundred, the paper's and ours; the direct encoding has no spread


class Draws:
    """The generator of Park and Miller with the multiplier 48271."""

    def __init__(self, seed):
        self.state = seed

    def taken(self, count, things):
        """So many of these things, each choice as likely as any other. What is drawn for one of them comes before the next one is looked at."""
        for left, thing in zip(range(len(things), 0, -1), things):
            self.state = self.state * 48271 % 2147483647
            if self.state % left < count:
                count -= 1
                yield thing


def instance(draws, forbidden):
    """The words of a table. Its weights are all 1: no count depends on them."""
    words = [BOXES, PAIRS] + BOXES * [VALUES]
    for first, second in draws.taken(PAIRS, list(itertools.combinations(range(1, BOXES + 1), 2))):
        masks = VALUES * [2**VALUES - 1]
        for i, j in draws.taken(forbidden, list(itertools.product(range(VALUES), repeat=2))):
            masks[i] ^= 1 << j
        words += [first, second, 1] + masks
    return words


def rows():
    """The instances of each row of the paper's table."""
    draws = Draws(SEED)
    for forbidden in FORBIDDEN:
        yield [instance(draws, forbidden) for _ in range(INSTANCES)]


def near(total, paper, column):
    """Whether the average of a row's instances is the paper's figure, within the slack."""
    return abs(total - INSTANCES * paper) <= INSTANCES * (0 if column == "dir" else SLACK)


def figure(total, paper, column):
    """Our average of a hundred instances, rounded to tenths; the paper's figure; the difference."""
    tenths = (total + 5) // 10
    return f"{tenths / 10:.1f} {paper} {tenths / 10 - paper:+.1f}" + ("" if near(total, paper, column) else " outside")


def printed(totals):
    """The lines for the sums of each row, by their columns."""
    yield "Clauses with the standard hard part, hard ones counted: our average, the figure of Table 1, the difference"
    yield " | ".join(["boxes, values, pairs, forbidden", *SIDES])
    outside = 0
    for row, (forbidden, sums) in enumerate(zip(FORBIDDEN, totals, strict=True)):
        figures = [figure(total, TABLE_1[column][row], column) for column, total in zip(SIDES, sums, strict=True)]
        outside += sum(one.endswith("outside") for one in figures)
        yield " | ".join([f"<{BOXES}, {VALUES}, {PAIRS}, {forbidden}>", *figures])
    yield f"instances={INSTANCES} a row, seed={SEED}"
    yield f"tolerance: dir exactly, the others {SLACK} clauses"
    yield f"within={len(FORBIDDEN) * len(SIDES) - outside} outside={outside}"


def clause_sums(answers, tables):
    """How many clauses the tables have together, by column."""
    found = answers([Call("exact_lengths", words, 0, side) for side in SIDES.values() for words in tables])
    if any(answer.refused for answer in found):
        raise ValueError("exact_lengths refuses a drawn table")
    counts = [answer.values[1] for answer in found]
    return [sum(counts[at : at + len(tables)]) for at in range(0, len(counts), len(tables))]


def lines(answers):
    return printed(clause_sums(answers, tables) for tables in rows())
