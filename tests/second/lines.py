"""Lines through points by another method than the bench's. The largest deviation, least over all offsets, is a convex function of the slope that turns only at the slopes of chords over highest values and over lowest values: it is tried at each of them. Of the lines through one point the largest deviation is a convex function of the slope as well, and turns only where two deviations are equally large: it is tried at each of these slopes."""
from fractions import Fraction

MOST_X, MOST_V, MOST_D = 30000, 103000000, 200


class Band:
    """m inputs x, with a lowest and a highest value at each, in units of 1/d."""

    def __init__(self, m, d, x, low, high):
        self.m, self.d, self.x, self.low, self.high = m, d, list(x), list(low), list(high)


def admitted(band):
    if not (3 <= band.m <= 11 and 1 <= band.d <= MOST_D):
        return False
    x, low, high = band.x[:band.m], band.low[:band.m], band.high[:band.m]
    return all(abs(v) <= MOST_X for v in x) and all(abs(v) <= MOST_V for v in low + high) and all(a < b for a, b in zip(x, x[1:])) and all(a <= b for a, b in zip(low, high))


def level(band):
    return band.low[:band.m] == band.high[:band.m]


def at_slope(band, slope):
    """(width, offset) of the best line of a slope; counted in whole numbers of 1/(d*q), q being the slope's denominator, for speed alone."""
    p, q = slope.numerator, slope.denominator
    above = max(v * q - band.d * p * x for x, v in zip(band.x[:band.m], band.high))
    below = min(v * q - band.d * p * x for x, v in zip(band.x[:band.m], band.low))
    return Fraction(above - below, 2 * band.d * q), Fraction(above + below, 2 * band.d * q)


def chords(band):
    for values in (band.low, band.high):
        for i in range(band.m):
            for j in range(i):
                yield Fraction(values[i] - values[j], band.d * (band.x[i] - band.x[j]))


def best(band):
    """('line', width, slope, offset), ('several', width) or ('improper',)."""
    if not admitted(band):
        return ('improper',)
    tried = {slope: at_slope(band, slope) for slope in set(chords(band))}
    width = min(w for w, _ in tried.values())
    slopes = [slope for slope, (w, _) in tried.items() if w == width]
    if len(slopes) > 1:
        return 'several', width
    return 'line', width, slopes[0], tried[slopes[0]][1]


def terminal(band):
    if not (admitted(band) and level(band)):
        return ('improper',)
    last = band.m - 1
    slope = Fraction(band.low[last] - band.low[0], band.d * (band.x[last] - band.x[0]))
    offset = Fraction(band.low[0], band.d) - slope * band.x[0]
    return 'line', max(abs(Fraction(v, band.d) - slope * x - offset) for x, v in zip(band.x[:band.m], band.low)), slope, offset


def shifted(band):
    drawn = terminal(band)
    if drawn[0] == 'improper':
        return drawn
    _, _, slope, offset = drawn
    off = [Fraction(v, band.d) - slope * x - offset for x, v in zip(band.x[:band.m], band.low)]
    return 'line', (max(off) - min(off)) / 2, slope, offset + (max(off) + min(off)) / 2


def crossings(points):
    """The slopes of the lines through the origin at which two points deviate equally, or a point and another one oppositely, or one not at all."""
    for which, (x, v) in enumerate(points):
        for x_before, v_before in points[:which + 1]:
            for rise, run in ((v - v_before, x - x_before), (v + v_before, x + x_before)):
                if run:
                    yield Fraction(rise, run)


def largest_off(points, slope):
    """The largest deviation from the line of a slope through the origin; counted in whole numbers of 1/q, as in at_slope."""
    p, q = slope.numerator, slope.denominator
    return Fraction(max(abs(v * q - p * x) for x, v in points), q)


def through_origin(points):
    """(width, lowest slope, highest slope): the least largest deviation of the lines through the origin, and the slopes that keep every point within it. A point at input zero deviates alike from all of them."""
    width = min(largest_off(points, slope) for slope in set(crossings(points)))
    kept = [sorted(((v - width) / x, (v + width) / x)) for x, v in points if x]
    return width, max(low for low, _ in kept), min(high for _, high in kept)


def through(band, x, v):
    """The line through the point (x, v) whose largest deviation is least: the point is moved to the origin, and back."""
    width, lowest, highest = through_origin([(at - x, value - v) for at, value in zip(band.x[:band.m], band.low)])
    if lowest < highest:
        return 'several', width / band.d
    slope = lowest / band.d
    return 'line', width / band.d, slope, Fraction(v, band.d) - slope * x


def zero(band):
    if not (admitted(band) and level(band)) or min(band.x[:band.m]) < 0:
        return ('improper',)
    return through(band, 0, 0)


def front(band):
    if not (admitted(band) and level(band)):
        return ('improper',)
    return through(band, band.x[0], band.low[0])


def least_squares(band):
    """A wrong method: the line of least squares through the middles, with its width."""
    n = band.m
    middle = [Fraction(a + b, 2 * band.d) for a, b in zip(band.low, band.high)][:n]
    x = band.x[:n]
    slope = (n * sum(a * b for a, b in zip(x, middle)) - sum(x) * sum(middle)) / Fraction(n * sum(a * a for a in x) - sum(x) ** 2)
    offset = (sum(middle) - slope * sum(x)) / n
    return slope, offset
