"""The programs of document 01 once more, written from its text alone and apart from the proved code: what `encode` and `decode` must print.

encode(input) and decode(input) take the bytes of standard input and give those of standard output. Nothing here is proved; it is
there to disagree.
"""
import re

HARDS = [b"standard", b"regular"]
SIDES = [b"direct", b"support", b"first", b"literals", b"score"]
LONGEST = 65536  # bytes of input


class Refused(Exception):
    """A number of document 01's table of refusals, and its place."""


class Pair:
    def __init__(self, first, second, weight, allow):
        self.first, self.second, self.weight = first, second, weight
        self.allow = allow  # allow[i - 1][j - 1]: value i of the first box goes with value j of the second


class Input:
    """The lines of an input, taken from the top."""

    def __init__(self, text):
        self.rest, self.line = text, 0

    def fault(self):
        raise Refused(13, self.line)

    def take(self, key):
        """The value of the next line, which must have this key."""
        self.line += 1
        end = self.rest.find(b"\n")
        line = self.rest[:end] if end >= 0 else b""  # a line without its line feed is no line
        if not line.startswith(key + b"="):
            self.fault()
        self.rest = self.rest[end + 1 :]
        return line[len(key) + 1 :]

    def word(self, key, known):
        value = self.take(key)
        if value not in known:
            self.fault()
        return value

    def number(self, key, low, high):
        value = self.take(key)
        if not re.fullmatch(rb"0|[1-9][0-9]*", value) or not low <= int(value) <= high:
            self.fault()
        return int(value)

    def bits(self, key):
        value = self.take(key)
        if not re.fullmatch(rb"[01]*", value):
            self.fault()
        return [character == ord("1") for character in value]

    def row(self, key, width):
        bits = self.bits(key)
        if len(bits) != width:
            self.fault()
        return bits

    def end(self):
        if self.rest:
            raise Refused(13, self.line + 1)


class Sheet:
    def __init__(self, lines):
        self.hard = lines.word(b"hard", HARDS)
        self.side = lines.word(b"side", SIDES)
        boxes = lines.number(b"boxes", 1, 64)
        self.sizes = [lines.number(b"values", 1, 16) for _ in range(boxes)]
        self.pairs = [self.pair(lines, boxes) for _ in range(lines.number(b"pairs", 0, 256))]
        self.number_variables()

    def pair(self, lines, boxes):
        first = lines.number(b"first", 1, boxes)
        second = lines.number(b"second", 1, boxes)
        if second == first:
            lines.fault()
        weight = lines.number(b"weight", 1, 1000000)
        allow = [lines.row(b"allow", self.sizes[second - 1]) for _ in range(self.sizes[first - 1])]
        return Pair(first, second, weight, allow)

    def number_variables(self):
        """x[box, value], r[box, value] and c[pair], by position and by nothing else."""
        names = [("x", b, j) for b, m in enumerate(self.sizes, 1) for j in range(1, m + 1)]
        if self.hard == b"regular":
            names += [("r", b, j) for b, m in enumerate(self.sizes, 1) for j in range(2, m + 1)]
        if self.side == b"support":
            names += [("c", k) for k in range(len(self.pairs))]
        self.variable = {name: number for number, name in enumerate(names, 1)}

    def x(self, box, value):
        return self.variable["x", box, value]

    def r(self, box, value):
        return self.variable["r", box, value]


def standard(sheet, b):
    m = sheet.sizes[b - 1]
    x = lambda j: sheet.x(b, j)
    clauses = [[x(j) for j in range(1, m + 1)]]
    clauses += [[-x(j), -x(k)] for j in range(1, m + 1) for k in range(j + 1, m + 1)]
    assert len(clauses) == 1 + m * (m - 1) // 2
    return clauses


def regular(sheet, b):
    m = sheet.sizes[b - 1]
    x = lambda j: sheet.x(b, j)
    r = lambda j: sheet.r(b, j)
    if m == 1:
        return [[x(1)]]
    clauses = [[-r(j), r(j - 1)] for j in range(3, m + 1)]
    clauses += [[-x(1), -r(2)], [x(1), r(2)]]
    for j in range(2, m):
        clauses += [[-x(j), r(j)], [-x(j), -r(j + 1)], [x(j), -r(j), r(j + 1)]]
    clauses += [[-x(m), r(m)], [x(m), -r(m)]]
    assert len(clauses) == 4 * m - 4
    return clauses


def hard_clauses(sheet, b):
    return standard(sheet, b) if sheet.hard == b"standard" else regular(sheet, b)


def support(sheet, own, other, rows, tail):
    """For each value of box `own` its negation and the values of box `other` that support it: none if all do."""
    clauses = []
    for i, row in enumerate(rows, 1):
        if not all(row):
            clauses.append([-sheet.x(own, i)] + [sheet.x(other, j) for j, allowed in enumerate(row, 1) if allowed] + tail)
    return clauses


def literal_count(clauses):
    return sum(len(clause) for clause in clauses)


def score(clauses):
    return sum({1: 16, 2: 4, 3: 1}.get(len(clause), 0) for clause in clauses)


def soft_clauses(sheet, k):
    pair = sheet.pairs[k]
    columns = [list(column) for column in zip(*pair.allow)]
    from_first = lambda tail: support(sheet, pair.first, pair.second, pair.allow, tail)
    from_second = lambda tail: support(sheet, pair.second, pair.first, columns, tail)
    if sheet.side == b"direct":
        values = [(i, j) for i, row in enumerate(pair.allow, 1) for j, allowed in enumerate(row, 1) if not allowed]
        return [[-sheet.x(pair.first, i), -sheet.x(pair.second, j)] for i, j in values]
    if sheet.side == b"support":
        c = sheet.variable["c", k]
        return from_first([c]) + from_second([-c])
    one, two = from_first([]), from_second([])
    if sheet.side == b"literals" and literal_count(two) < literal_count(one):
        return two
    if sheet.side == b"score" and score(two) > score(one):
        return two
    return one


def wcnf(sheet):
    top = 1 + sum(pair.weight for pair in sheet.pairs)
    clauses = [(top, clause) for b in range(1, len(sheet.sizes) + 1) for clause in hard_clauses(sheet, b)]
    clauses += [(pair.weight, clause) for k, pair in enumerate(sheet.pairs) for clause in soft_clauses(sheet, k)]
    lines = ["p wcnf %d %d %d" % (len(sheet.variable), len(clauses), top)]
    lines += [" ".join(map(str, [weight] + clause + [0])) for weight, clause in clauses]
    return "".join(line + "\n" for line in lines)


def true(clause, bits):
    return any(bits[abs(literal) - 1] == (literal > 0) for literal in clause)


def plan_of(sheet, bits):
    """The value of each box, of a list that keeps every hard clause."""
    for b in range(1, len(sheet.sizes) + 1):
        if not all(true(clause, bits) for clause in hard_clauses(sheet, b)):
            raise Refused(12, b)
    plan = []
    for b, m in enumerate(sheet.sizes, 1):
        [value] = [j for j in range(1, m + 1) if bits[sheet.x(b, j) - 1]]
        plan.append(value)
    return plan


def cost(sheet, plan):
    broken = lambda pair: not pair.allow[plan[pair.first - 1] - 1][plan[pair.second - 1] - 1]
    return sum(pair.weight for pair in sheet.pairs if broken(pair))


def judged(text, judge):
    try:
        if len(text) > LONGEST:
            raise Refused(9, 0)
        return judge(Input(text)).encode()
    except Refused as refusal:
        return b"refused=%d place=%d\n" % refusal.args


def encoded(lines):
    sheet = Sheet(lines)
    lines.end()
    return wcnf(sheet)


def decoded(lines):
    sheet = Sheet(lines)
    bits = lines.bits(b"list")
    lines.end()
    if len(bits) != len(sheet.variable):
        raise Refused(10, len(sheet.variable))
    plan = plan_of(sheet, bits)
    return "".join("value=%d\n" % value for value in plan) + "cost=%d\n" % cost(sheet, plan)


def encode(text):
    return judged(text, encoded)


def decode(text):
    return judged(text, decoded)
