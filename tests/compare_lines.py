"""Holds what the program `lines` prints of bands of points to what second/lines.py says, byte for byte."""
import random
from fractions import Fraction

from make_sheets import balanced
from requests import signed, word
from second import lines
from second.lines import Band

MOST_X, MOST_V = lines.MOST_X, lines.MOST_V

# Tables A4 and A1 of the Standard, in hundredths, and the indices of them: from the paper, those of zero and front from request C-11 and worked by hand in runs/.
A4 = ([1, 2, 3, 4, 5, 6], [202, 400, 598, 790, 1010, 1205])
A1 = ([0, 1, 2, 3, 4, 5], [3, 1005, 2020, 2960, 3990, 5000])
FIGURES = [(A4, lines.terminal, '69/5015'), (A4, lines.shifted, '97/10030'), (A4, lines.best, '9/1010'), (A4, lines.zero, '1/100'), (A4, lines.front, '18/1745'), (A1, lines.terminal, '206/24985'), (A1, lines.best, '4/745'), (A1, lines.zero, '7/1245'), (A1, lines.front, '137/24870')]

# What is printed of a band, in this order.
DRAWN = ('terminal', 'shifted', 'best', 'zero', 'front')

# What is to be met among the bands, and what cannot be.
DUE_KINDS = ('best line', 'best line of one value', 'best several', 'best improper', 'zero line', 'zero line of slope zero', 'zero several', 'zero improper', 'zero improper for a negative input alone', 'front line', 'front line of slope zero', 'front improper')
NO_KINDS = ('best several of one value', 'front several')


def padded(values):
    return (list(values) + [0] * 11)[:11]


def points(x, values, d=1):
    return Band(len(x), d, padded(x), padded(values), padded(values))


def with_gaps(x, low, high, d=1):
    return Band(len(x), d, padded(x), padded(low), padded(high))


def named():
    """Bands that are worked or degenerate."""
    yield points(*A4)
    yield points(*A1)
    yield with_gaps([0, 10, 20], [0, 100, 200], [0, 112, 200])
    yield with_gaps([0, 10, 20], [0, 96, 200], [0, 108, 200])
    yield points([0, 10, 20], [0, 0, 0])
    yield points([0, 10, 20], [2000, 1000, 0], 7)
    yield points([0, 10, 20], [0, -1000, -2000], 7)
    yield points([0, 10, 20], [10, 90, 210], 3)
    yield points([0, 10, 20], [11, 90, 210], 3)
    yield points([-1, 10, 20], [0, 90, 210], 3)
    yield points([1, 2, 3, 4], [5, -10, 10, 5])
    yield points(range(11), [5] * 11, 20)
    yield points(range(11), [0, 1] * 5 + [0])
    yield points([0, 1, 2, 3], [0, 1, 1, 0])
    yield with_gaps([0, 1, 2], [0, 0, 0], [4, 0, 4])
    yield with_gaps([0, 1, 2], [0, 0, 0], [0, 4, 0])
    yield with_gaps([0, 1, 2], [0, 0, 0], [4, 4, 4])
    yield with_gaps([0, 5, 9], [-3, -3, -3], [3, 1, 0])
    yield points([-MOST_X, 0, MOST_X], [-MOST_V, MOST_V, -MOST_V], 1)
    yield points([-MOST_X, MOST_X - 1, MOST_X], [-MOST_V, MOST_V, -MOST_V], 200)
    yield with_gaps([-MOST_X, 0, MOST_X], [-MOST_V, -MOST_V, -MOST_V], [MOST_V, MOST_V, MOST_V], 200)
    yield with_gaps([-MOST_X, 1 - MOST_X, MOST_X], [-MOST_V, -MOST_V, MOST_V], [MOST_V, -MOST_V, MOST_V], 1)


def improper(make):
    """Bands that are not admitted, each for one reason."""
    good = points([0, 3, 7, 9], [1, 2, 3, 5], 4)
    for m in (0, 1, 2, 12, 2**64 - 1):
        yield Band(m, 4, good.x, good.low, good.high)
    for d in (0, 201, 2**63):
        yield Band(4, d, good.x, good.low, good.high)
    for at in range(4):
        for v in (MOST_X + 1, -MOST_X - 1, 2**63 - 1, -2**63):
            yield Band(4, 4, good.x[:at] + [v] + good.x[at + 1:], good.low, good.high)
        for v in (MOST_V + 1, 2**63 - 1):
            yield Band(4, 4, good.x, good.low, good.high[:at] + [v] + good.high[at + 1:])
            yield Band(4, 4, good.x, good.low[:at] + [-v] + good.low[at + 1:], good.high)
        yield Band(4, 4, good.x, good.low[:at] + [good.high[at] + 1] + good.low[at + 1:], good.high)
    for at in range(1, 4):
        yield Band(4, 4, good.x[:at] + [good.x[at - 1]] + good.x[at + 1:], good.low, good.high)


def plain(make):
    """Bands of which nothing is known beforehand."""
    yield from named()
    yield from improper(make)
    for _ in range(2500):
        m = make.randint(3, 11)
        span = make.choice((m, m + 3, 50, MOST_X))
        x = sorted(make.sample(range(-span, span + 1), m))
        size = make.choice((1, 2, 3, 20, 10**4, MOST_V))
        low = [make.randint(-size, size) for _ in range(m)]
        gap = make.choice((0, 0, 1, 2, size))
        high = [min(MOST_V, v + make.randint(0, gap)) for v in low]
        if make.random() < 0.2:
            high = [min(MOST_V, v + gap) for v in low]
        if make.random() < 0.2:
            # one input whose gap is wider than every bend: several lines, or one where a second gap is as wide
            wide = make.sample(range(m), make.choice((1, 1, 2)))
            slope, gap = make.randint(-3, 3), make.randint(1, 9) * 4 * span
            low = [slope * v + make.randint(-1, 1) for v in x]
            high = [v + (gap if i in wide else 0) for i, v in enumerate(low)]
        yield with_gaps(x, low, high, make.choice((1, 2, 3, 20, 200)))


def from_origin(make):
    """(band, name, drawn): bands of one value at each input for the lines through the origin and through the first point, and what is due of the line named. Two points beyond the point deviate oppositely by the width and no other one by more, so that width and slope are known beforehand. Some have a value at input zero that is less than this width by one, equal to it, and more by one, some are moved as a whole, and some, of which nothing is known beforehand, have their first input on either side of zero."""
    for _ in range(150):
        m, slope, width = make.randint(3, 11), make.choice((0, 0, 1, -3, 50)), make.choice((1, 2, 30, 5000))
        x = [0] + sorted(make.sample(range(2, make.choice((m + 3, 60, MOST_X))), m - 1))
        values = balanced(make, x, slope, width)
        d = make.choice((1, 2, 20, 200))
        for at_zero in (0, width - 1, width, width + 1):
            drawn = ('line', Fraction(width, d), Fraction(slope, d), Fraction(0)) if at_zero <= width else ('several', Fraction(at_zero, d))
            yield points(x, [make.choice((1, -1)) * at_zero] + values[1:], d), 'zero', drawn
        first = make.choice((-1, 1, -MOST_X // 2))
        yield points([first] + x[1:], values, d), None, None
        by, up = make.randint(-MOST_X, 0), make.randint(-1000, 1000)
        yield points([v + by for v in x], [up] + [v + up for v in values[1:]], d), 'front', ('line', Fraction(width, d), Fraction(slope, d), Fraction(up - slope * by, d))


def bands(seed=2001):
    """(band, name, drawn): every band, and where it is known beforehand what is due of a line, that line's name and what is due."""
    make = random.Random(seed)
    for band in plain(make):
        yield band, None, None
    yield from from_origin(make)


def encode(band):
    return word(band.m) + word(band.d) + signed(band.x + band.low + band.high)


def text(drawn):
    fraction = lambda f: '%d/%d' % (f.numerator, f.denominator)
    return ' '.join(([] if drawn[0] == 'line' else [drawn[0]]) + [fraction(f) for f in drawn[1:]])


def drawn_of(band):
    return {name: getattr(lines, name)(band) for name in DRAWN}


def due(drawn):
    return ['%s %s' % (name, text(drawn[name])) for name in DRAWN]


def figures():
    """What the second program makes of the paper's figures, where it is not what the paper has."""
    for table, draw, right in FIGURES:
        _, width, slope, _ = draw(points(*table))
        index = width / (abs(slope) * (table[0][-1] - table[0][0]))
        if str(index) != right:
            yield 'the second program gives %s where %s is due' % (index, right)


def kinds(band, drawn):
    """What a band is an instance of."""
    one_value = lines.admitted(band) and lines.level(band)
    yield 'best ' + drawn['best'][0] + (' of one value' if one_value else '')
    for name in ('zero', 'front'):
        kind = drawn[name][0]
        yield '%s %s%s' % (name, kind, ' of slope zero' if kind == 'line' and drawn[name][2] == 0 else '')
    if one_value and drawn['zero'][0] == 'improper':
        yield 'zero improper for a negative input alone'


def told_apart(made):
    """The first band at which least squares, and the shifted line, are not the best line."""
    wrong, told = [], []
    for name, other in (('the least-squares line', lines.least_squares), ('the shifted terminal line', lambda band: lines.shifted(band)[2:])):
        for which, band in enumerate(made):
            drawn = lines.best(band)
            if drawn[0] == 'line' and lines.level(band) and tuple(other(band)) != drawn[2:]:
                told.append('%s is not the best one at band %d, inputs %s, values %s' % (name, which, band.x[:band.m], band.low[:band.m]))
                break
        else:
            wrong.append('no band tells %s from the best one' % name)
    return wrong, told


def told_beforehand(made):
    """Where the second program draws otherwise than is known beforehand; the bench is held to the second program."""
    for which, (band, name, drawn) in enumerate(made):
        got = getattr(lines, name)(band) if name else drawn
        if got != drawn:
            yield 'the second program draws %s of band %d as %s, where %s is due' % (name, which, text(got), text(drawn))


def compare(run):
    made = list(bands())
    held, step = [band for band, _, _ in made], len(DRAWN)
    printed = run('lines', b''.join(map(encode, held))).decode('ascii').split('\n')
    wrong, met = [], {}
    if len(printed) != step * len(held) + 1 or printed[-1] != '':
        return 0, ['lines printed %d lines for %d bands' % (len(printed) - 1, len(held))], []
    for which, band in enumerate(held):
        drawn = drawn_of(band)
        got, right = printed[step * which:step * (which + 1)], due(drawn)
        if got != right:
            wrong.append('lines of band %d, x %s, low %s, high %s, d %d: printed %r, due %r' % (which, band.x[:11], band.low, band.high, band.d, got, right))
        for kind in kinds(band, drawn):
            met[kind] = met.get(kind, 0) + 1
    wrong += ['no band was met of the kind %s' % kind for kind in DUE_KINDS if not met.get(kind)]
    wrong += ['a band was met of the kind %s' % kind for kind in NO_KINDS if met.get(kind)]
    wrong += figures()
    wrong += told_beforehand(made)
    more, told = told_apart(held)
    counts = ['bands met: ' + ', '.join('%s %d' % item for item in sorted(met.items())), 'bands whose line is known beforehand: %d' % sum(1 for _, name, _ in made if name)]
    return step * len(held), wrong + more, counts + told
