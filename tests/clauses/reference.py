"""Document 01 once more, written from its text alone and apart from the proved code: the entry points over clauses, lists and plans.

It answers the calls of tests/cases/clauses.py, and holds the lines that come of it to the stored ones. Nothing here is proved; it is there to disagree.
"""

import pathlib
import sys

sys.path.insert(0, str(pathlib.Path(__file__).resolve().parent.parent / "cases"))
import apart
import held
from apart import Refused


def table(words):
    """The sizes and the pairs. The tables here have no fault but that words are missing, row 1."""
    if len(words) < 2 or len(words) < 2 + words[0]:
        raise Refused(1, len(words))
    n, p = words[0], words[1]
    sizes, at, pairs = words[2 : 2 + n], 2 + n, []
    for _ in range(p):
        if len(words) < at + 3 or len(words) < at + 3 + sizes[words[at] - 1]:
            raise Refused(1, len(words))
        first, second, weight = words[at : at + 3]
        masks = words[at + 3 : at + 3 + sizes[first - 1]]
        at += 3 + len(masks)
        pairs.append((first, second, weight, masks))
    return sizes, pairs


def variables(sizes, pairs, hard, side):
    """x[b, j], r[b, j] and c[k], by position."""
    count, x, r, c = 0, {}, {}, {}
    for b, m in enumerate(sizes, 1):
        for j in range(1, m + 1):
            count += 1
            x[b, j] = count
    for b, m in enumerate(sizes, 1):
        for j in range(2, m + 1) if hard == 1 else ():
            count += 1
            r[b, j] = count
    for k in range(len(pairs)) if side == 2 else ():
        count += 1
        c[k] = count
    return count, x, r, c


def standard(x, b, m):
    yield [x[b, j] for j in range(1, m + 1)]
    for j in range(1, m + 1):
        for k in range(j + 1, m + 1):
            yield [-x[b, j], -x[b, k]]


def regular(x, r, b, m):
    if m == 1:
        yield [x[b, 1]]
        return
    for j in range(3, m + 1):
        yield [-r[b, j], r[b, j - 1]]
    yield [-x[b, 1], -r[b, 2]]
    yield [x[b, 1], r[b, 2]]
    for j in range(2, m):
        yield [-x[b, j], r[b, j]]
        yield [-x[b, j], -r[b, j + 1]]
        yield [x[b, j], -r[b, j], r[b, j + 1]]
    yield [-x[b, m], r[b, m]]
    yield [x[b, m], -r[b, m]]


def support(x, own, other, m, n, allowed, tail):
    """The support clauses of the values of box `own`; a value that all values support has none."""
    for i in range(1, m + 1):
        values = [x[other, j] for j in range(1, n + 1) if allowed(i, j)]
        if len(values) < n:
            yield [-x[own, i]] + values + tail


def score(clauses):
    return sum({1: 16, 2: 4, 3: 1}.get(len(clause), 0) for clause in clauses)


def literals(clauses):
    return sum(len(clause) for clause in clauses)


def ends(x, sizes, pair, tails):
    first, second, _, masks = pair
    m, n = sizes[first - 1], sizes[second - 1]
    allowed = lambda i, j: masks[i - 1] >> (j - 1) & 1
    return (
        list(support(x, first, second, m, n, allowed, tails[0])),
        list(support(x, second, first, n, m, lambda j, i: allowed(i, j), tails[1])),
    )


def soft(x, c, sizes, pair, k, side):
    first, second, _, masks = pair
    a, b = ends(x, sizes, pair, ([], []))
    if side == 1:
        m, n = sizes[first - 1], sizes[second - 1]
        forbidden = [(i, j) for i in range(1, m + 1) for j in range(1, n + 1) if not masks[i - 1] >> (j - 1) & 1]
        return [[-x[first, i], -x[second, j]] for i, j in forbidden]
    if side == 2:
        return sum(ends(x, sizes, pair, ([c[k]], [-c[k]])), [])
    if side == 4:
        return b if literals(b) < literals(a) else a
    if side == 5:
        return b if score(b) > score(a) else a
    return a


def encode(words, hard, side):
    """The number of variables, the weighted clauses and the top."""
    sizes, pairs = table(words)
    count, x, r, c = variables(sizes, pairs, hard, side)
    clauses = []
    for b, m in enumerate(sizes, 1):
        clauses += [(0, clause) for clause in (regular(x, r, b, m) if hard else standard(x, b, m))]
    for k, pair in enumerate(pairs):
        clauses += [(pair[2], clause) for clause in soft(x, c, sizes, pair, k, side)]
    return count, clauses, 1 + sum(pair[2] for pair in pairs)


def entries(clauses):
    return [number for clause in clauses for number in clause + [0]]


def scratch(words, side):
    """What the two scratch buffers must hold: each end's longest list, on the sides that choose."""
    sizes, pairs = table(words)
    x = variables(sizes, pairs, 0, side)[1]
    lists = [ends(x, sizes, pair, ([], [])) for pair in pairs] if side > 3 else []
    return [max([len(entries(pair[end])) for pair in lists], default=0) for end in (0, 1)]


def true(clause, given):
    return any((given[abs(number) - 1] == 1) == (number > 0) for number in clause)


def decode(words, hard, side, given):
    """The plan and its cost. The cost is what the list falsifies: that it is the plan's is asserted."""
    sizes, pairs = table(words)
    count, x, r, _ = variables(sizes, pairs, hard, side)
    if len(given) != count:
        raise Refused(10, count)
    for index, entry in enumerate(given):
        if entry not in (0, 1):
            raise Refused(11, index)
    for b, m in enumerate(sizes, 1):
        if not all(true(clause, given) for clause in (regular(x, r, b, m) if hard else standard(x, b, m))):
            raise Refused(12, b)
    plan = [j for b, m in enumerate(sizes, 1) for j in range(1, m + 1) if given[x[b, j] - 1] == 1]
    cost = sum(weight for weight, clause in encode(words, hard, side)[1] if not true(clause, given))
    broken = [pair for pair in pairs if not pair[3][plan[pair[0] - 1] - 1] >> (plan[pair[1] - 1] - 1) & 1]
    assert len(plan) == len(sizes) and cost == sum(pair[2] for pair in broken)
    return plan, cost


def make(words, hard, side, plan):
    """The list of a plan, every c_k 0."""
    sizes, pairs = table(words)
    count, x, r, _ = variables(sizes, pairs, hard, side)
    if len(plan) != len(sizes):
        raise Refused(10, len(sizes))
    for index, value in enumerate(plan):
        if value not in range(1, sizes[index] + 1):
            raise Refused(11, index)
    ones = {x[b, value] for b, value in enumerate(plan, 1)}
    ones |= {r[b, j] for b, j in r if j <= plan[b - 1]}
    made = [int(v in ones) for v in range(1, count + 1)]
    assert decode(words, hard, side, made)[0] == plan
    return made


def store(call, left, **entries):
    """What is stored after the scratch is judged, which is then left zero on the sides that choose, and as it was lent on the others."""
    for buffer, length in zip(["first", "second"], scratch(call.words, call.side)):
        if call.lent[buffer] < length:
            raise Refused(9, length)
    apart.store(left, **entries)
    for buffer in ("first", "second") if call.side > 3 else ():
        left[buffer] = [0] * call.lent[buffer]


def answer_encode(call, left):
    _, clauses, _ = encode(call.words, call.hard, call.side)
    numbers, weights = entries([clause for _, clause in clauses]), [weight for weight, _ in clauses]
    store(call, left, literals=numbers, weights=weights)
    return len(numbers), len(weights)


def answer_lengths(call, _):
    count, clauses, top = encode(call.words, call.hard, call.side)
    total = literals([clause for _, clause in clauses])
    return count, len(clauses), total, total + len(clauses), top


def answer_decode(call, left):
    plan, cost = decode(call.words, call.hard, call.side, list(call.given))
    apart.store(left, table=plan)
    return (cost,)


def answer_make(call, left):
    made = make(call.words, call.hard, call.side, call.plan)
    apart.store(left, text=made)
    return (len(made),)


ENTRY_POINTS = {
    "encode": answer_encode,
    "exact_lengths": answer_lengths,
    "scratch_lengths": lambda call, _: scratch(call.words, call.side),
    "decode": answer_decode,
    "make_list": answer_make,
}


def judged(call, left):
    if call.hard not in (0, 1) or call.side not in range(1, 6):  # row 8, before the table
        raise Refused(8, 0)
    return ENTRY_POINTS[call.name](call, left)


def answers(calls):
    return [apart.answer(call, judged) for call in calls]


if __name__ == "__main__":
    sys.exit(held.report([held.hold("clauses", answers)]))
