"""The WCNF text of small tables, whole, and what is answered where a buffer is too short."""

from entry_points import Call, laid_out
from tables import EXAMPLE

# side, and the lengths lent: what side 3 needs, and its text one short; what side 5 needs, and then all, the last two or the text one short
SHORT = [(3, 1, 1, 89), (3, 1, 1, 88), (5, 6, 8, 96), (5, 5, 7, 95), (5, 6, 7, 95), (5, 6, 8, 95)]


def scratch_line(answer, buffer):
    if all(answer.untouched(buffer)):
        return f"{buffer} as it was"
    return f"{buffer} dirty" if any(answer.left[buffer]) else f"{buffer} zero"


def shown(answer):
    """The text, or the refusal; what stands past it, 9 where nothing was stored; and what the scratch holds then."""
    text, count = answer.left["text"], 0 if answer.refused else answer.values[0]
    yield from answer.told(lambda *_: bytes(text[:count]).decode("ascii").removesuffix("\n")).split("\n")
    if count < len(text):
        yield "then 9" if all(answer.untouched("text")[count:]) else "then something else"
    yield scratch_line(answer, "first")
    yield scratch_line(answer, "second")


def written(words, hard, side):
    """With room for all of it."""
    yield f"hard {hard} side {side}"
    yield Call("write_wcnf", words, hard, side, first=32, second=32, text=512), shown


def cases():
    for hard, name in enumerate(["standard", "regular"]):
        yield name
        for side in range(1, 6):
            yield from written(EXAMPLE, hard, side)
    yield "room: just enough, then each buffer one short"
    for side, first, second, text in SHORT:
        yield Call("write_wcnf", EXAMPLE, 0, side, first=first, second=second, text=text), shown
    yield "refused"
    yield from written(EXAMPLE, 2, 3)
    yield from written(EXAMPLE[:8], 0, 3)
    yield "one box, one value"
    yield from written([1, 0, 1], 0, 1)


def lines(answers):
    return laid_out(cases(), answers)
