#!/usr/bin/env python3
"""Brings the names of definitions and lemmas to the spelling of the newer Rattle: words in snake case.

usage: python3 tools/respell.py        once, at the top of a checkout that the toolchain's own script has turned

tools/names.tsv has a row for each name: old, a tab, new. Whole words turn: in .antt files and in the clauses, ghost items and comments of .rt files,
in the must-fail edits, and in the code spans of README.md and docs/. In a comment a name with a dash is left, since it may be plain words. In the proof of one
function a name behind a dot stays where it is a function of src/: there Rattle names a call so. Strings are left as they are.
"""

import os
import re
import sys

HERE = os.path.dirname(os.path.realpath(__file__))
ROOT = os.path.dirname(HERE)
WORD = re.compile(r"""[^\s(){}.;,@"«»`]+""")
STRING = re.compile(r'"(?:[^"\\\n]|\\.)*"')
SPAN = re.compile(r"(`+)(?:[^`\n]|\n(?!\n))+?\1")


def files(top, suffix):
    for folder, folders, names in os.walk(os.path.join(ROOT, top)):
        folders[:] = sorted(f for f in folders if f != "out")
        for name in sorted(names):
            if name.endswith(suffix):
                yield os.path.join(folder, name)


def read(path):
    with open(path, encoding="utf-8") as file:
        return file.read()


class Speller:
    def __init__(self):
        with open(os.path.join(HERE, "names.tsv"), encoding="utf-8") as file:
            self.table = dict(line.rstrip("\n").split("\t") for line in file)
        self.functions = set()
        for path in files("crates", ".rt"):
            self.functions.update(re.findall(r"\bfn (\w+)", read(path)))

    def words(self, text, may=lambda word, dotted: True):
        def one(m):
            word, dotted = m[0], text[m.start() - 1 : m.start()] == "."
            return self.table[word] if word in self.table and may(word, dotted) else word

        return WORD.sub(one, text)

    def outside_strings(self, text, turn):
        out, at = [], 0
        for m in STRING.finditer(text):
            out += [turn(text[at : m.start()]), m[0]]
            at = m.end()
        return "".join(out + [turn(text[at:])])

    def antt(self, text, walk=False):
        def may(word, dotted):
            return not (walk and dotted and word.replace("-", "_") in self.functions)

        return self.lines(text, "--", lambda part: self.words(part, may))

    def lines(self, text, mark, turn):
        out = []
        for line in text.split("\n"):
            at = line.find(mark) if line.lstrip().startswith(mark) or " " + mark in line else -1
            code, comment = (line, "") if at < 0 else (line[:at], line[at:])
            out.append(self.outside_strings(code, turn) + self.words(comment, lambda word, dotted: "-" not in word and "_" not in word))
        return "\n".join(out)

    def rt(self, text):
        return self.lines(text, "//", lambda part: self.words(part, lambda word, dotted: "_" not in word))

    def edit(self, text):
        out, of_rust = [], True
        for line in text.split("\n"):
            key, colon, rest = line.partition(":")
            if key == "file":
                of_rust = rest.strip().startswith("src/")
            if key in ("old", "new"):
                line = key + colon + (self.rt(rest) if of_rust else self.antt(rest))
            out.append(line)
        return "\n".join(out)

    def page(self, text):
        return SPAN.sub(lambda m: self.words(m[0], lambda word, dotted: "_" not in word), text)


def main():
    speller = Speller()
    turns = [(path, lambda text, walk="/proofs/" in path and path.count("/", path.index("/proofs/") + 8) > 0: speller.antt(text, walk)) for path in files("crates", ".antt")]
    turns += [(path, speller.rt) for path in files("crates", ".rt")]
    turns += [(path, speller.edit) for path in files("crates", ".edit")]
    turns += [(path, speller.page) for path in [os.path.join(ROOT, "README.md"), *files("docs", ".md")]]
    turned = 0
    for path, turn in turns:
        old = read(path)
        new = turn(old)
        if new != old:
            turned += 1
            with open(path, "w", encoding="utf-8") as file:
                file.write(new)
    print(f"{len(speller.table)} names, {turned} files turned")
    return 0


if __name__ == "__main__":
    sys.exit(main())
