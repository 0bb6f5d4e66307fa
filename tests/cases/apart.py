"""Answers to calls by a reading of the scope document apart from the library: what such a reading stands on."""

from entry_points import Answer, entry_as_lent


class Refused(Exception):
    """A number of document 01's table of refusals, and its place."""


def store(left, **entries):
    """Into the buffers of these names, in the order in which they are judged; where one is too short nothing is stored."""
    for buffer, stored in entries.items():
        if len(stored) > len(left[buffer]):
            raise Refused(9, len(stored))
    for buffer, stored in entries.items():
        left[buffer][: len(stored)] = stored


def answer(call, entry_point):
    """What comes of a function of the call and its buffers, which gives the values of a success, or raises a refusal and has then stored nothing."""
    left = {buffer: [entry_as_lent(buffer, at) for at in range(count)] for buffer, count in call.lent.items()}
    try:
        values = entry_point(call, left)
    except Refused as no:
        return Answer(no.args, [0] * 5, left)
    return Answer(None, [*values, 0, 0, 0, 0, 0][:5], left)
