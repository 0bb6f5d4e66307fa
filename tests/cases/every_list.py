"""Every list of small tables, under all ten encodings. The clauses that encode wrote are read as a solver would read them, and decode is held to
them: it must accept exactly the lists that leave no hard clause false, at the weight of the false soft ones. Then every plan goes into a list and
back, and must keep its cost."""

import collections
import itertools

from entry_points import Call

TABLES = [
    ("one box of four values", [1, 0, 4]),
    ("X <= Y over three values", [2, 1, 3, 3, 1, 2, 1, 7, 6, 4]),
    ("2 and 3 values, weight 7", [2, 1, 2, 3, 1, 2, 7, 6, 0]),
    ("1 and 5 values, box 2 named first", [2, 1, 1, 5, 2, 1, 9, 1, 0, 1, 1, 0]),
    ("full support at both ends, so clauses dropped", [2, 1, 3, 2, 1, 2, 4, 3, 2, 2]),
    ("nothing allowed in one pair, everything in another", [2, 2, 2, 2, 1, 2, 5, 0, 0, 1, 2, 6, 3, 3]),
    ("the same two boxes twice, either way round, and one pair must break", [2, 2, 2, 3, 1, 2, 7, 6, 0, 2, 1, 5, 3, 2, 2]),
    ("three boxes in a ring, and one pair must break", [3, 3, 2, 2, 3, 1, 2, 2, 2, 1, 2, 3, 3, 6, 1, 1, 3, 4, 6, 1]),
]
HARDS = ["standard", "regular"]
SIDES = ["direct", "support", "first", "literals", "score"]
CHOICES = [(hard, side) for hard in range(2) for side in range(1, 6)]
ROOM = {"first": 32, "second": 32, "literals": 256, "weights": 64}
MOST = 14  # variables of which every list is tried
NO_COST = 1000000000  # more than any cost

Encoding = collections.namedtuple("Encoding", "hard side variables clauses")


def clauses_of(encoded):
    """Each clause's literals and weight, 0 for a hard one."""
    entries, weights = encoded.values[:2]
    literals, clauses = [], []
    for entry in encoded.left["literals"][:entries]:
        if entry == 0:
            clauses.append(literals)
            literals = []
        else:
            literals.append(entry)
    return list(zip(clauses, encoded.left["weights"][:weights], strict=True))


def batches(answers, batches_of_calls):
    """The answers of several batches of calls, batch by batch, in one run of the program."""
    found = iter(answers([call for batch in batches_of_calls for call in batch]))
    return [list(itertools.islice(found, len(batch))) for batch in batches_of_calls]


def encodings(answers, words):
    """The table's ten encodings; without variables and clauses, so that it disagrees, where one is refused or has more lists than are tried."""
    lengths = [Call("exact_lengths", words, hard, side) for hard, side in CHOICES]
    encodes = [Call("encode", words, hard, side, **ROOM) for hard, side in CHOICES]
    for (hard, side), measured, encoded in zip(CHOICES, *batches(answers, [lengths, encodes])):
        tried = not measured.refused and not encoded.refused and measured.values[0] <= MOST
        yield Encoding(hard, side, measured.values[0] if tried else 0, clauses_of(encoded) if tried else [])


def every_bits(variables):
    """Every list of this length: the lowest bit of its number is its first entry."""
    return [bytes(number >> i & 1 for i in range(variables)) for number in range(2**variables)]


def falsified(clauses, bits):
    """Whether the list leaves a hard clause false, and the weight of the soft ones that it does."""
    true = {i + 1 if bit else -i - 1 for i, bit in enumerate(bits)}
    false = [weight for literals, weight in clauses if true.isdisjoint(literals)]
    return 0 in false, sum(false)


def is_plan_of(plan, sizes, bits):
    """Whether the plan has, for each box, the value whose variable is one."""
    starts = itertools.accumulate(sizes, initial=0)
    return all(1 <= value <= size and bits[start + value - 1] == 1 for value, size, start in zip(plan, sizes, starts))


def hold_lists(encoding, sizes, decoded):
    """The costs of the lists that are accepted, and how often an answer disagrees with the clauses."""
    costs, wrong = [], 0
    for bits, answer in zip(every_bits(encoding.variables), decoded, strict=True):
        broken, weight = falsified(encoding.clauses, bits)
        if answer.refused:
            wrong += answer.refused[0] != 12 or not broken
            continue
        costs.append(answer.values[0])
        wrong += broken or weight != answer.values[0]
        wrong += not is_plan_of(answer.left["table"], sizes, bits)
    return costs, wrong


def hold_plans(plans, priced, made, decoded):
    """The costs of the plans whose lists are decoded to them, at their costs, and how many are not."""
    costs = []
    for plan, price, maker, back in zip(plans, priced, made, decoded, strict=True):
        if not (price.refused or maker.refused or back.refused):
            if price.values[0] == back.values[0] and back.left["table"][: len(plan)] == list(plan):
                costs.append(price.values[0])
    return costs, len(plans) - len(costs)


def make_lists(words, encoding, plans):
    return [Call("make_list", words, encoding.hard, encoding.side, plan=plan, text=encoding.variables) for plan in plans]


def decodes(words, encoding, lists):
    return [Call("decode", words, encoding.hard, encoding.side, given=bits, table=4) for bits in lists]


def try_table(answers, words):
    """For each encoding of a table: the costs of the lists that are accepted, those of the plans, and how often answers disagree."""
    sizes = words[2 : 2 + words[0]]
    plans = list(itertools.product(*(range(1, size + 1) for size in sizes)))
    tried = list(encodings(answers, words))
    prices = [Call("cost", words, plan=plan) for plan in plans]
    priced, *made = batches(answers, [prices] + [make_lists(words, one, plans) for one in tried])
    every = [decodes(words, one, every_bits(one.variables)) for one in tried]
    back = [decodes(words, one, [bytes(maker.left["text"]) for maker in makers]) for one, makers in zip(tried, made)]
    decoded = batches(answers, every + back)
    for one, makers, of_lists, of_plans in zip(tried, made, decoded[: len(tried)], decoded[len(tried) :]):
        lists, wrong = hold_lists(one, sizes, of_lists)
        kept, lost = hold_plans(plans, priced, makers, of_plans)
        yield one, lists, kept, wrong + lost


def lines(answers):
    tried, wrong = 0, 0
    for name, words in TABLES:
        yield name
        for one, lists, plans, disagreements in try_table(answers, words):
            least = min(lists, default=NO_COST)
            disagreements += least != min(plans, default=NO_COST)
            tried, wrong = tried + 2**one.variables, wrong + disagreements
            counts = f"lists={2**one.variables} accepted={len(lists)} plans={len(plans)}"
            yield f"{HARDS[one.hard]} {SIDES[one.side - 1]}: {counts} least={least} disagreements={disagreements}"
    yield f"in all: lists={tried} disagreements={wrong}"
