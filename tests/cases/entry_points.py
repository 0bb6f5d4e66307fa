"""The library's entry points for a script: each call is run by the proved program `calls`, whose crate says what its bytes are."""

import struct
import subprocess

# the buffers in the order in which their lengths and their entries are told, and the bytes of an entry
BUFFERS = {"first": 5, "second": 5, "literals": 5, "weights": 8, "table": 4, "text": 1}
# the entry points in the order of their numbers, from 1, and the buffers that each is lent
LENT = {
    "check": (),
    "cost": (),
    "exact_lengths": (),
    "scratch_lengths": (),
    "decode": ("table",),
    "make_list": ("text",),
    "read_sheet": ("table",),
    "write_sheet": ("text",),
    "read_list": ("table", "text"),
    "encode": ("first", "second", "literals", "weights"),
    "write_wcnf": ("first", "second", "text"),
}
MARGIN = 8  # entries past each buffer that are shown too
SEED = 9  # what the first entry of a buffer is lent as follows from it, and so do the others


class Call:
    """An entry point, what it is given, and the lengths of the buffers that it is lent, by their names."""

    def __init__(self, name, words=(), hard=0, side=0, plan=(), given=b"", **lent):
        self.name, self.hard, self.side = name, hard, side
        self.words, self.plan, self.given = list(words), list(plan), bytes(given)
        self.lent = {buffer: lent.pop(buffer, 0) for buffer in LENT[name]}
        if lent:
            raise TypeError(f"{name} is not lent: {lent}")

    def input(self):
        numbers = [list(LENT).index(self.name) + 1, self.hard, self.side, SEED]
        numbers += [len(self.words), len(self.plan), len(self.given)]
        numbers += [self.lent.get(buffer, 0) for buffer in BUFFERS]
        numbers += self.words + self.plan
        return struct.pack(f"<{len(numbers)}I", *numbers) + self.given


def entry_as_lent(buffer, at):
    """What stands at an index of a buffer before a call."""
    pattern = (SEED + at * 40503) % 2000000011
    return {"weights": pattern * 1000003, "text": pattern % 251}.get(buffer, pattern)


class Answer:
    """The refusal's number and place, or the values of a success; each lent buffer, without its margin, as the call left it."""

    def __init__(self, refused, values, left):
        self.refused, self.values, self.left = refused, values, left

    def untouched(self, buffer):
        """For each entry of the buffer, whether it is what it was before the call."""
        return [entry == entry_as_lent(buffer, at) for at, entry in enumerate(self.left[buffer])]

    def told(self, success):
        """The refusal as the programs print it, or what `success` makes of the values."""
        return "refused={} place={}".format(*self.refused) if self.refused else success(*self.values)


def read_answer(call, read):
    number, *values = struct.unpack("<6Q", read(48))
    if number == 255:
        raise ValueError(f"no room for the case, or no such entry point: {call.name}")
    left = {}
    for buffer, count in call.lent.items():
        width = BUFFERS[buffer]
        entries = read(width * (count + MARGIN))
        parts = [entries[width * at : width * (at + 1)] for at in range(count)]
        if width == 5:
            left[buffer] = [int.from_bytes(one[:4], "little") * (-1 if one[4] else 1) for one in parts]
        else:
            left[buffer] = [int.from_bytes(one, "little") for one in parts]
    return Answer((number, values[0]) if number else None, values, left)


def answers(calls, program=("tools/run", "calls")):
    """The answers of a list of calls, in one run of a program: the proved one, or one that takes and writes the same bytes."""
    given = b"".join(call.input() for call in calls)
    ran = subprocess.run(program, input=given, stdout=subprocess.PIPE, check=True)
    output, at = ran.stdout, 0

    def read(count):
        nonlocal at
        at += count
        if at > len(output):
            raise ValueError("the program ended before its last case")
        return output[at - count : at]

    found = [read_answer(call, read) for call in calls]
    if at != len(output):
        raise ValueError("the program wrote more than its cases ask for")
    return found


def laid_out(items, answers):
    """The lines of a list in which each item is a line, or a call with what makes lines of its answer: one run of the program for all of them."""
    items = list(items)
    given = iter(answers([item[0] for item in items if not isinstance(item, str)]))
    for item in items:
        yield from [item] if isinstance(item, str) else item[1](next(given))
