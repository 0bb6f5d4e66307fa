"""Holds the map of README.md to crates.txt: each crate is drawn once, and above all that it builds on, or in the two blocks at the end."""
import re
import sys
from pathlib import Path

needs = {name: set(below.split()) for name, below in re.findall(r'^(\w+)(?: staticlib)?:(.*)$', Path('crates.txt').read_text(), re.M)}
picture = re.search(r'^```text\n(.*?)^```$', Path('README.md').read_text(), re.M | re.S).group(1).split('\n')
last = max(at for at, line in enumerate(picture) if line.startswith(' ==='))
# beside the rows stand their names, on the left, and what they are, on the right
rows = [line[13:70] if at < last else line[27:] for at, line in enumerate(picture)]
drawn = [(name, at) for at, row in enumerate(rows) for name in re.findall(r'\w+', row) if name in needs]
row = dict(drawn)
faults = [f'{name} is drawn {sum(name == one for one, _ in drawn)} times' for name in needs if sum(name == one for one, _ in drawn) != 1]
faults += [f'{name} builds on {below}, which is not drawn below it' for name, at in drawn if at < last
           for below in needs[name] & set(row) if not at < row[below] < last]
print(*faults, sep='\n', end='\n' if faults else '')
sys.exit(len(faults) > 0)
