"""Holds what the program `figures` prints to what second/rational.py says, line for line, and the rounding of both to Python's own."""
import random
from fractions import Fraction
from math import ceil, floor

from requests import signed, word
from second import rational

SMALLEST, LARGEST, LARGEST_DEN = -2**63, 2**63 - 1, 2**64 - 1
EDGES = [0, 1, 2, 3, 5, 99999, 100000, 100001, 200000, 184467440737095, 184467440737096, 2**32, LARGEST, 2**63, LARGEST_DEN]


def cases(seed=18459):
    """Numerators and denominators: every pair of edges, then random ones of every size, then values of which many end in a half, then the halves of C-12 and what is next to them."""
    for n in EDGES:
        for sign in (1, -1):
            for d in EDGES:
                if SMALLEST <= sign * n <= LARGEST:
                    yield sign * n, d
    yield SMALLEST, 2**63
    make = random.Random(seed)
    for _ in range(3000):
        n = make.randrange(2 ** make.randrange(1, 64)) * make.choice((1, 1, -1))
        d = make.randrange(2 ** make.randrange(1, 65))
        common = make.randrange(1, 2 ** make.randrange(1, 20))
        if n * common <= LARGEST and n * common >= SMALLEST and d * common <= LARGEST_DEN:
            n, d = n * common, d * common
        yield n, d
    for _ in range(1000):
        # a third of them are halves of a thousandth, the others whole numbers, thirds, sixths, sevenths and fourteenths
        yield 2 * make.randrange(2**20) + 1, 200000 * make.choice((1, 1, 3, 7)) // make.choice((1, 1, 2, 4, 5))
    # the three halves that C-12 names, and what is next to them
    for n in (1, 3, 5):
        for d in (199999, 200000, 200001):
            yield n, d


def encode(num, den):
    return signed([num]) + word(den)


# The halves that C-12 names, in thousandths of one percent.
NAMED_HALVES = {(1, 200000): 0, (3, 200000): 2, (5, 200000): 2}
HALF = Fraction(1, 2)

# Roundings that another reader might take. A negative fraction is never told, so that downwards and towards zero are one here; each is tried by its own text all the same.
WRONG_WAYS = {
    'down': floor,
    'up': ceil,
    'a half upwards': lambda value: floor(value + HALF),
    'a half downwards': lambda value: ceil(value - HALF),
    'a half towards zero': lambda value: floor(value) + (value % 1 > HALF),
    'a half to the odd': lambda value: floor(value) | 1 if value % 1 == HALF else round(value),
}


def compare(run):
    """Returns how many lines agreed, what disagreed, and sentences on what was met."""
    made = list(cases())
    printed = run('figures', b''.join(encode(n, d) for n, d in made)).decode('ascii').split('\n')
    wrong = []
    if printed[-1] != '' or len(printed) != len(made) + 1:
        return 0, ['figures printed %d lines for %d records' % (len(printed) - 1, len(made))], []
    met = dict.fromkeys(['over zero', 'zero', 'negative', 'reduced', 'untold for size', 'a half below an even', 'a half below an odd'], 0)
    differs = {}
    for (n, d), got in zip(made, printed):
        due = rational.line(n, d)
        if got != due:
            wrong.append('figures of %d/%d: printed %r, due %r' % (n, d, got, due))
        low = rational.lowest(n, d)
        t = rational.thousandths(*low)
        met['over zero'] += d == 0
        met['zero'] += n == 0
        met['negative'] += n < 0
        met['reduced'] += low != (n, d)
        met['untold for size'] += t is None and n > 0
        if t is not None:
            value = Fraction(low[0] * 100000, low[1])
            if t != round(value) or t != NAMED_HALVES.get((n, d), t):
                wrong.append('the second program rounds %d/%d to %d' % (n, d, t))
            if value % 1 == HALF:
                met['a half below an %s' % ('odd' if floor(value) % 2 == 0 else 'even')] += 1
            for name, way in WRONG_WAYS.items():
                if way(value) != t:
                    differs.setdefault(name, '%d/%d' % (n, d))
    wrong += ['no fraction %s was tried' % name for name, count in met.items() if count == 0]
    wrong += ['no fraction tells rounding %s from the rule' % name for name in WRONG_WAYS if name not in differs]
    told = ['fractions met: ' + ', '.join('%s %d' % item for item in met.items())]
    told += ['rounding %s would differ at %s' % item for item in differs.items()]
    return len(made), wrong, told
