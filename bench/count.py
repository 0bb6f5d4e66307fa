"""How many instructions of its own code a program runs, which no other load of the machine moves.

They are counted from the emulator's log: how often each block ran, times its instructions as objdump shows them.
"""
import bisect
import collections
import os
import re
import subprocess
import tempfile

from build import answer, stop


def logged(command, words, text):
    """The emulator's log of one run, as lines counted by what they say, or in order where only blocks are shown."""
    with tempfile.TemporaryDirectory() as folder, tempfile.TemporaryFile() as sheet:
        log = os.path.join(folder, "log")
        os.mkfifo(log)
        sheet.write(text)
        sheet.seek(0)
        ran = subprocess.Popen([command[0], "-d", words, "-D", log] + command[1:], stdin=sheet, stdout=subprocess.DEVNULL)
        with open(log, "rb") as lines:
            lines = list(lines) if words == "in_asm" else collections.Counter(lines)
        if ran.wait() != 0:
            stop("%s failed under the emulator's log" % " ".join(command))
        return lines


class Program:
    """The program in a command, as objdump shows it, and the lengths of the blocks that were seen of it."""

    def __init__(self, path):
        shown = answer("x86_64-linux-gnu-objdump", "-d", "--no-show-raw-insn", path)
        if not shown:
            stop("x86_64-linux-gnu-objdump is missing; it comes with binutils")
        self.known = [int(at, 16) for at in re.findall(r"^ +([0-9a-f]+):\t", shown, re.M)]
        self.main = int(re.search(r"^([0-9a-f]+) <main>:", shown, re.M)[1], 16)
        self.long = {}

    def see_blocks(self, command, text):
        at = None
        for line in logged(command, "in_asm", text):
            found = re.match(rb"0x([0-9a-f]+): *((?:[0-9a-f]{2} )*)", line)
            if not found:
                at = None  # a line between two blocks
                continue
            if at is None:
                at = int(found[1], 16)
                self.long[at] = 0
            self.long[at] += len(found[2]) // 3

    def count(self, command, text):
        """The instructions of one run."""
        ran = collections.Counter()
        for line, times in logged(command, "exec,nochain", text).items():
            if line.startswith(b"Trace"):
                ran[int(line.split(b"/", 2)[1], 16)] += times
        if any(at not in self.long for at in ran):
            self.see_blocks(command, text)
        own = set(self.known)
        # The program lies where most blocks begin at an instruction of its own.
        bases = {at - self.main for at in ran if (at - self.main) % 4096 == 0}
        base = max(bases, key=lambda base: sum(at - base in own for at in ran))
        place = lambda at: bisect.bisect_left(self.known, at)
        return sum(times * (place(at - base + self.long[at]) - place(at - base)) for at, times in ran.items() if at - base in own)
