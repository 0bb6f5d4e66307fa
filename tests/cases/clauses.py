"""The examples of document 01 and of the papers: clauses, lengths, lists, plans and buffers that are too short."""

from entry_points import Call, laid_out
from tables import EXAMPLE

SIDES = ["direct", "support", "first", "literals", "score"]
FOUR = [2, 1, 4, 4, 1, 2, 1, 14, 0, 0, 0]
TABLES = [
    ("2 and 3 values, weight 7", EXAMPLE),
    ("one box, one value", [1, 0, 1]),
    ("X <= Y over three values", [2, 1, 3, 3, 1, 2, 1, 7, 6, 4]),
    ("X = Y over three values", [2, 1, 3, 3, 1, 2, 1, 1, 2, 4]),
    ("X other than Y, weight 2", [2, 1, 3, 3, 1, 2, 2, 6, 5, 3]),
    ("4 and 4 values, three allowed", FOUR),
]
LENGTHS = [("standard first", 0, 3), ("standard support", 0, 2), ("regular score", 1, 5), ("no such hard part", 2, 1), ("no such side", 0, 6)]
LISTS = [
    ("list 0 1 1 0 0", 0, 3, [0, 1, 1, 0, 0]),
    ("list 1 0 0 1 0", 0, 3, [1, 0, 0, 1, 0]),
    ("two values of box 2", 0, 3, [0, 1, 0, 1, 1]),
    ("all zeros", 0, 3, [0, 0, 0, 0, 0]),
    ("thresholds 1 1 1", 1, 3, [0, 1, 0, 0, 1, 1, 1, 1]),
    ("thresholds 1 0 1", 1, 3, [0, 1, 0, 0, 1, 1, 0, 1]),
    ("four entries", 0, 3, [0, 1, 1, 0]),
    ("an entry 2", 0, 3, [0, 1, 2, 0, 0]),
]
PLANS = [
    ("plan 2 1", 0, 3, [2, 1]),
    ("plan 2 3, thresholds", 1, 3, [2, 3]),
    ("plan 2 1, c_1 is 0", 0, 2, [2, 1]),
    ("plan 3 1", 0, 3, [3, 1]),
    ("plan of one", 0, 3, [2]),
]
SCRATCH = [("direct", 0, 1), ("literals", 0, 4), ("score", 1, 5), ("no such side", 0, 0)]
ROOM = {"first": 16, "second": 16, "literals": 96, "weights": 32}  # two of the lists are longer
ENOUGH = {"first": 6, "second": 8, "literals": 27, "weights": 9}  # for the example by score


def spaced(numbers):
    return "".join(f"{number} " for number in numbers)


def first_entries(answer, buffers):
    """How the buffers begin: 9 for one that is as it was lent."""
    return spaced(9 if all(answer.untouched(buffer)) else answer.left[buffer][0] for buffer in buffers)


def clause_line(answer):
    """The clauses, each closed by its 0, their weights, and how the scratch begins."""

    def written(entries, count, *_):
        numbers, weights = answer.left["literals"][:entries], answer.left["weights"][:count]
        return f"{spaced(numbers)}weights {spaced(weights)}scratch {first_entries(answer, ['first', 'second'])}"

    return answer.told(written)


def length_line(answer):
    return answer.told("{} variables {} clauses {} literals {} entries, top {}".format)


def plan_line(answer):
    return answer.told(lambda cost, *_: f"{spaced(answer.left['table'])}cost={cost}")


def list_line(answer):
    return answer.told(lambda count, *_: spaced(answer.left["text"][:count]))


def scratch_line(answer):
    return answer.told(lambda first, second, *_: f"{first} {second}")


def room_line(answer):
    return answer.told(lambda entries, count, *_: f"{entries} entries {count} weights") + "\nleft: " + first_entries(answer, ENOUGH)


def rooms():
    """Buffers that just hold the example by score; then one of them shorter by an entry, and all."""
    yield "just enough", ENOUGH
    for buffer, length in ENOUGH.items():
        yield f"{buffer} short", ENOUGH | {buffer: length - 1}
    yield "all short", {buffer: length - 1 for buffer, length in ENOUGH.items()}


def named(name, shown, call):
    return call, lambda answer: f"{name}: {shown(answer)}".split("\n")


def cases():
    for name, words in TABLES:
        yield name
        for hard, part in enumerate(["standard", "regular"]):
            yield part
            for side, side_name in enumerate(SIDES, 1):
                yield named(side_name, clause_line, Call("encode", words, hard, side, **ROOM))
    for name, hard, side in LENGTHS:
        yield named(name, length_line, Call("exact_lengths", EXAMPLE, hard, side))
    for name, hard, side, given in LISTS:
        yield named(name, plan_line, Call("decode", EXAMPLE, hard, side, given=given, table=2))
    for name, hard, side, plan in PLANS:
        yield named(name, list_line, Call("make_list", EXAMPLE, hard, side, plan=plan, text=16))
    for name, hard, side in SCRATCH:
        yield named(f"scratch for {name}", scratch_line, Call("scratch_lengths", FOUR, hard, side))
    for name, lent in rooms():
        yield named(name, room_line, Call("encode", EXAMPLE, 0, 5, **lent))


def lines(answers):
    return laid_out(cases(), answers)
