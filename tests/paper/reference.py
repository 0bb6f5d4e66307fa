"""Table 1 of paper 000 once more: the clauses of the instances of tests/cases/paper.py, counted by the rules of document 01.

The draws and the printing are those of tests/cases/paper.py; the counts are this file's own, apart from the proved code. It holds
tests/cases/paper.lines to them, a check a line, and the tolerance to the spread of the instances. Nothing here is proved.
"""

import itertools
import statistics
import sys

sys.path.insert(0, "tests/cases")

from paper import BOXES, FORBIDDEN, INSTANCES, PAIRS, SIDES, SLACK, TABLE_1, VALUES, near, printed, rows


def forbidden_cells(words):
    """The value pairs that each pair forbids. Which boxes are paired does not touch a count."""
    for at in range(2 + BOXES, len(words), 3 + VALUES):
        masks = words[at + 3 : at + 3 + VALUES]
        yield {VALUES * i + j for i, mask in enumerate(masks) for j in range(VALUES) if not mask >> j & 1}


def score(lengths, one):
    return sum({1: one, 2: 4, 3: 1}.get(n, 0) for n in lengths)


def soft_counts(cells):
    """The soft clauses of a pair, by column, and of supc if clauses of one literal scored nothing.

    An end holds the lengths of the support clauses of one box's values."""
    seen = range(VALUES)
    ends = [
        [1 + sum(bad not in cells for bad in row) for row in rows_of_cells if any(bad in cells for bad in row)]
        for rows_of_cells in ([[VALUES * i + j for j in seen] for i in seen], [[VALUES * i + j for i in seen] for j in seen])
    ]
    first, second = ends
    by_score = second if score(second, 16) > score(first, 16) else first
    by_literals = second if sum(second) < sum(first) else first
    no_ones = second if score(second, 0) > score(first, 0) else first
    return [len(cells), len(first) + len(second), len(first), len(by_score), len(by_literals), len(no_ones)]


def counts(words):
    hard = BOXES * (1 + VALUES * (VALUES - 1) // 2)
    return [hard + sum(column) for column in zip(*map(soft_counts, forbidden_cells(words)))]


def held_lines(stored, wanted):
    """Each stored line beside the one that our own counts give."""
    for number, (line, own) in enumerate(itertools.zip_longest(stored, wanted), 1):
        yield line == own, f"line {number} differs\n  wanted {own}\n  stored {line}"


def held_sums(sums):
    """What can be said of the direct encoding without counting: it has a clause for each forbidden value pair."""
    for forbidden, total in zip(FORBIDDEN, sums, strict=True):
        yield total == INSTANCES * (275 + PAIRS * forbidden), f"{forbidden} forbidden, dir: {total} clauses"


def main(stored):
    columns = [list(zip(*map(counts, tables))) for tables in rows()]  # of each row, with a count for each instance
    sums = [[sum(column) for column in row] for row in columns]
    widest = max(statistics.pstdev(column) for row in columns for column in row)
    unlike = sum(not near(row[5], paper, "supc") for row, paper in zip(sums, TABLE_1["supc"]))
    results = [
        *held_lines(stored, printed([row[: len(SIDES)] for row in sums])),
        *held_sums([row[0] for row in sums]),
        # twice the deviation of a difference of two averages of a hundred, and half a clause for the paper's rounding
        (SLACK <= 2 * 2**0.5 * widest / 10 + 0.5, f"the tolerance is wide, an instance deviates by {widest:.1f}"),
        (unlike > 0, "supc cannot be told from a score that leaves out clauses of one literal"),
    ]
    for good, what in results:
        if not good:
            print(what)
    failed = sum(not good for good, _ in results)
    print(f"an instance deviates by {widest:.1f} clauses at most; without clauses of one literal supc is outside in {unlike} rows")
    print(f"{len(results) - failed} passed, {failed} failed")
    return failed > 0


if __name__ == "__main__":
    sys.exit(main(open("tests/cases/paper.lines", encoding="ascii").read().splitlines()))
