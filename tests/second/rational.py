"""Fractions, by another method than the bench's: a divisor by halving and subtracting, and rounding by how far the two whole numbers beside a value lie from it."""
from fractions import Fraction
from math import ceil, floor

LARGEST_U64 = 2**64 - 1


def divisor(a, b):
    """The greatest common divisor of a and b, with no remainder taken."""
    if a == 0 or b == 0:
        return a + b
    twos = 0
    while a % 2 == 0 and b % 2 == 0:
        a, b, twos = a // 2, b // 2, twos + 1
    while a != b:
        if a % 2 == 0:
            a //= 2
        elif b % 2 == 0:
            b //= 2
        elif a > b:
            a -= b
        else:
            b -= a
    return a << twos


def lowest(num, den):
    """(numerator, denominator) in lowest terms; 0/1 over zero."""
    if den == 0:
        return 0, 1
    g = divisor(abs(num), den)
    return num // g, den // g


def nearest(value):
    """The whole number nearest to a value; of two that are equally near, the even one (GB/T 8170). No other function rounds a percent."""
    return min(floor(value), ceil(value), key=lambda whole: (abs(value - whole), whole % 2))


def thousandths(num, den):
    """Thousandths of one percent, or None where the bench tells none."""
    if num < 0 or den == 0 or num * 100000 > LARGEST_U64:
        return None
    return nearest(Fraction(num * 100000, den))


def line(num, den):
    n, d = lowest(num, den)
    t = thousandths(n, d)
    return '%d/%d %s' % (n, d, 'untold' if t is None else t)
