"""Shows that a check of a repository's files can fail: a tiny repository passes it, and each slip in one of its files is complained of as it has to be."""
import tempfile
from pathlib import Path


def found(check, files):
    with tempfile.TemporaryDirectory() as root:
        for name, text in files.items():
            Path(root, name).parent.mkdir(parents=True, exist_ok=True)
            Path(root, name).write_text(text)
        return check(root)[1]


def try_slips(check, good, slips):
    """How many slips, (file, what stands there, what instead, complaints), are found as they have to be, and a line for each other one."""
    unchanged = [(next(iter(good)), '', '', [])]
    faults = []
    for file, here, instead, wanted in unchanged + slips:
        got = found(check, good | {file: good[file].replace(here, instead)})
        if here not in good[file] or got != wanted:
            faults.append(f'the check, where {file} has {instead!r} for {here!r}: wanted {wanted}, found {got}')
    return 1 + len(slips) - len(faults), faults


def report(check, good, slips):
    """Runs the check on this repository and on each slip; prints what is wrong and the tally, and is true where something was."""
    (passed, faults), (found_slips, missed) = check('.'), try_slips(check, good, slips)
    print(*faults, *missed, f'{passed + found_slips} passed, {len(faults) + len(missed)} failed', sep='\n')
    return len(faults) + len(missed) > 0
