"""Seeded sheets for by_hand. A sheet is its domain sizes and its pairs (first, second, weight, rows), all counted from 0."""
HARD = ['standard', 'regular']
SIDES = ['direct', 'support', 'first', 'literals', 'score']
# boxes, most values, pairs, chance that two values go together, highest weight: the more of each, the longer solvers take
LARGER = [(8, 8, 20, 0.4, 9), (10, 16, 24, 0.25, 100), (12, 8, 30, 0.35, 1000), (14, 6, 40, 0.4, 1_000_000), (20, 4, 60, 0.45, 9),
          (20, 8, 60, 0.5, 1000)]


def cost(pairs, plan):
    return sum(weight for first, second, weight, rows in pairs if not rows[plan[first]][plan[second]])


def text(hard, side, sizes, pairs):
    lines = [f'hard={hard}', f'side={side}', f'boxes={len(sizes)}', *(f'values={m}' for m in sizes), f'pairs={len(pairs)}']
    for first, second, weight, rows in pairs:
        lines += [f'first={first + 1}', f'second={second + 1}', f'weight={weight}']
        lines += ['allow=' + ''.join('01'[allowed] for allowed in row) for row in rows]
    return '\n'.join(lines) + '\n'


def read(sheet):
    """The sizes and pairs of a sheet that encode accepts."""
    lines = [line.partition('=')[2] for line in sheet.splitlines()]
    boxes = int(lines[2])
    sizes = [int(m) for m in lines[3:3 + boxes]]
    pairs, at = [], 4 + boxes
    for _ in range(int(lines[3 + boxes])):
        first, second, weight = int(lines[at]) - 1, int(lines[at + 1]) - 1, int(lines[at + 2])
        at += 3 + sizes[first]
        pairs.append((first, second, weight, [[character == '1' for character in line] for line in lines[at - sizes[first]:at]]))
    return sizes, pairs


def drawn(rng, sizes, first, second, share):
    return [[rng.random() < share for _ in range(sizes[second])] for _ in range(sizes[first])]


def small(rng):
    """Few enough plans to try them all. Some rows are full or empty, some pairs name the same boxes."""
    sizes = [rng.randint(1, 4) for _ in range(rng.randint(2, 6))]
    pairs = []
    for _ in range(rng.randint(1, 10)):
        first, second = rng.sample(range(len(sizes)), 2)
        weight = rng.choice([rng.randint(1, 9), rng.randint(1, 9), rng.randint(1, 1_000_000), 1_000_000])
        share = rng.choice([0, 0.2, 0.4, 0.6, 1])
        rows = [[rng.random() < rng.choice([0, share, share, 1]) for _ in range(sizes[second])] for _ in range(sizes[first])]
        pairs.append((first, second, weight, rows))
    return sizes, pairs


def scattered(rng, boxes, values, count, share, heaviest):
    """Pairs anywhere between boxes of about the same number of values."""
    sizes = [rng.randint((values + 1) // 2, values) for _ in range(boxes)]
    pairs = []
    for _ in range(count):
        first, second = rng.sample(range(boxes), 2)
        pairs.append((first, second, rng.randint(1, heaviest), drawn(rng, sizes, first, second, share)))
    return sizes, pairs


def batch(rng):
    """A batch as a station has it: 24 boxes at 4 masts, 6 slots, of which some boxes miss the last. The six boxes of a mast
    would rather have a slot each, the more data the dearer; of the busy boxes each keeps away in time from the next; some
    boxes would go before another one, some with it."""
    masts = 4
    sizes = [rng.choice([6, 6, 5, 4]) for _ in range(24)]
    data = [rng.choice([5, 10, 20, 80]) for _ in sizes]

    def pair(first, second, weight, goes):
        return first, second, weight, [[goes(i, j) for j in range(sizes[second])] for i in range(sizes[first])]

    pairs = [pair(first, second, data[first] + data[second], lambda i, j: i != j)
             for second in range(len(sizes)) for first in range(second % masts, second, masts)]
    busy = [box for box, amount in enumerate(data) if amount == 80]
    pairs += [pair(first, second, 30, lambda i, j: abs(i - j) > 1) for first, second in zip(busy, busy[1:])]
    for weight, goes in [(12, lambda i, j: i < j), (7, lambda i, j: i == j)] * 6:
        pairs.append(pair(*rng.sample(range(len(sizes)), 2), weight, goes))
    return sizes, pairs


def full(rng):
    """64 boxes of 16 values, and nearly as many pairs as decode's input holds with a list line; one in 30 allows nothing."""
    sizes = [16] * 64
    pairs = []
    for count in range(150):
        first, second = rng.sample(range(64), 2)
        share = 0 if count % 30 == 29 else 0.5
        pairs.append((first, second, rng.randint(1, 1_000_000), drawn(rng, sizes, first, second, share)))
    return sizes, pairs


def larger(rng):
    return [scattered(rng, *numbers) for numbers in LARGER] + [batch(rng), full(rng)]
