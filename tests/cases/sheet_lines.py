"""What the groups of sheets share: the scope document's example, and how an answer is told."""

TOP = b"hard=standard\nside=first\n"
BOXES = TOP + b"boxes=2\nvalues=2\nvalues=3\n"
PAIR = BOXES + b"pairs=1\nfirst=1\nsecond=2\n"
EXAMPLE = PAIR + b"weight=7\nallow=011\nallow=000\n"


def numbers(entries):
    return " ".join(map(str, entries))


def read_as(hard, side, words):
    """What a sheet says that was read."""
    return f"hard part {hard}, side {side}, words {numbers(words)}"


def told(answer, success):
    """What `success` makes of the values; or the refusal, with how many entries of the lent buffers are no longer what they were."""
    changed = sum(not same for buffer in answer.left for same in answer.untouched(buffer))
    return answer.told(success) + (f" changed={changed}" if answer.refused else "")
