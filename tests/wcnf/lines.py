"""WCNF text written from document 01's sentence, over the clauses of tests/clauses/reference.py: it answers the calls of tests/cases/wcnf.py."""

import pathlib
import sys

sys.path.insert(0, str(pathlib.Path(__file__).resolve().parent.parent / "clauses"))
import reference as ref


def text(words, hard, side):
    count, clauses, top = ref.encode(words, hard, side)
    lines = [f"p wcnf {count} {len(clauses)} {top}"]
    for weight, literals in clauses:
        lines.append(" ".join(str(n) for n in [weight or top, *literals, 0]))
    return "".join(line + "\n" for line in lines).encode("ascii")


def answer_wcnf(call, left):
    written = text(call.words, call.hard, call.side)
    ref.store(call, left, text=written)
    return (len(written),)


if __name__ == "__main__":
    ref.ENTRY_POINTS["write_wcnf"] = answer_wcnf
    sys.exit(ref.held.report([ref.held.hold("wcnf", ref.answers)]))
