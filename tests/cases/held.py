"""Holds the lines of the examples to the stored ones: this script those of all groups, over the program that its words are."""

import functools
import importlib
import itertools
import pathlib
import sys
import traceback

import entry_points

HERE = pathlib.Path(__file__).resolve().parent


def hold(name, answers):
    """A group's lines over these answers: how many are the stored ones, and a complaint for each that is another, is missing or is too many."""
    stored = (HERE / f"{name}.lines").read_text(encoding="ascii").split("\n")[:-1]
    try:
        made = list(importlib.import_module(name).lines(answers))
    except Exception:
        return 0, [f"the script of {name} died: {traceback.format_exc()}"]
    pairs = list(itertools.zip_longest(stored, made))
    told = "line {} of {}.lines\n  stored {}\n  made   {}"
    complaints = [told.format(at, name, *pair) for at, pair in enumerate(pairs, 1) if pair[0] != pair[1]]
    return len(pairs) - len(complaints), complaints


def report(parts):
    """Prints the complaints of parts, (how many checks passed, complaints), and the tally; gives the status to end with."""
    passed = failed = 0
    for good, complaints in parts:
        passed, failed = passed + good, failed + len(complaints)
        print(*complaints, sep="\n", end="\n" if complaints else "")
    print(f"{passed} passed, {failed} failed")
    return 1 if failed else 0


def groups():
    """The names that have a script, and those that have stored lines."""
    scripts = {path.stem for path in HERE.glob("*.py") if "\ndef lines(" in path.read_text(encoding="ascii")}
    return scripts, {path.stem for path in HERE.glob("*.lines") if path.stat().st_size}


def hold_names(scripts, stored):
    return len(scripts & stored), [f"{name}: its script, or its stored lines, are missing" for name in sorted(scripts ^ stored)]


def hold_itself(answers):
    """One number of one answer changed has to be seen, in its own line and in no other."""

    def slipped(calls):
        given = answers(calls)
        number, place = given[-1].refused
        given[-1].refused = number, place + 1
        return given

    passed, complaints = hold("tables", slipped)
    seen = passed and len(complaints) == 1
    return (1, []) if seen else (0, ["\n".join(["one answer changed is not seen as one line:", *complaints])])


def main(words):
    answers = functools.partial(entry_points.answers, program=words) if words else entry_points.answers
    scripts, stored = groups()
    held = [hold(name, answers) for name in sorted(scripts & stored)]
    return report([hold_names(scripts, stored), hold_itself(answers), *held])


if __name__ == "__main__":
    sys.exit(main(sys.argv[1:]))
