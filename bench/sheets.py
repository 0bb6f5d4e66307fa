"""The sheets that bench/run measures, each with a list line: the worked example, a realistic one, the largest, and rows of growing ones."""
import random

HARDS = ["standard", "regular"]
SIDES = ["direct", "support", "first", "literals", "score"]
CHOICES = [(hard, side) for hard in HARDS for side in SIDES]
LONGEST = 65536  # bytes that the programs take; the library takes any number


class Sheet:
    """Domain sizes, and pairs of first box, second box, weight and rows of 0 and 1 characters; boxes count from 0."""

    def __init__(self, sizes, pairs):
        self.sizes, self.pairs = sizes, pairs

    def text(self, hard, side):
        lines = ["hard=" + hard, "side=" + side, "boxes=%d" % len(self.sizes)]
        lines += ["values=%d" % m for m in self.sizes] + ["pairs=%d" % len(self.pairs)]
        for first, second, weight, rows in self.pairs:
            lines += ["first=%d" % (first + 1), "second=%d" % (second + 1), "weight=%d" % weight] + ["allow=" + row for row in rows]
        return ("\n".join(lines) + "\n").encode()

    def with_list(self, hard, side):
        """The sheet, and the list of a plan with values from all over the domains."""
        plan = [b * 5 % m for b, m in enumerate(self.sizes)]
        bits = "".join("01"[j == value] for m, value in zip(self.sizes, plan) for j in range(m))
        if hard == "regular":
            bits += "".join("01"[j <= value] for m, value in zip(self.sizes, plan) for j in range(1, m))
        if side == "support":
            bits += "0" * len(self.pairs)
        return self.text(hard, side) + ("list=%s\n" % bits).encode()


def drawn(seed, sizes, pairs):
    """Seeded pairs anywhere between the boxes; half of what could go together does."""
    rng = random.Random(seed)

    def pair():
        first, second = rng.sample(range(len(sizes)), 2)
        rows = ["".join(rng.choice("01") for _ in range(sizes[second])) for _ in range(sizes[first])]
        return first, second, rng.randint(1, 1000000), rows

    return Sheet(sizes, [pair() for _ in range(pairs)])


def fitting(most):
    """64 boxes of 16 values and as many pairs as a program takes; in each row one value differs from the others, which are `most`."""
    other = "1" if most == "0" else "0"
    rows = [most * i + other + most * (15 - i) for i in range(16)]
    pairs = [(9 + k * 7 % 55, 9 + (k * 7 + 1) % 55, 999983 + k % 18, rows) for k in range(256)]
    fits = lambda n: len(Sheet([16] * 64, pairs[:n]).with_list("regular", "support")) <= LONGEST
    return Sheet([16] * 64, pairs[:max(filter(fits, range(257)))])


SMALLEST = Sheet([1], [])
SMALL = Sheet([2, 3], [(0, 1, 7, ["011", "000"])])
REALISTIC = drawn(1, [4 + b * 3 % 5 for b in range(24)], 60)
LARGEST = drawn(2, [16] * 64, 256)
FORBIDDEN, ALLOWED = fitting("0"), fitting("1")
PAIRS = {n: drawn(3, [8] * 64, n) for n in (16, 32, 64, 128, 256)}
BOXES = {n: drawn(5, [8] * n, 64) for n in (8, 16, 32, 64)}
VALUES = {m: drawn(4, [m] * 64, 128) for m in (2, 4, 8, 16)}
