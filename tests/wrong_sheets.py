"""The readings of the paper and the Standard that go wrong, and idle programs, each as a method that differs from the right one in that alone, and the files that tell them apart."""
from fractions import Fraction
from math import ceil, floor

import compare_files
import make_files
from second import lines, rational, runfile
from second.sheet import DOWN, NEED_CYCLES, UP, Bench, filled, refused, sheet

HALF = Fraction(1, 2)


class PairedByPlace(Bench):
    def hysteresis_width(self):
        paired = Bench(compare_files.paired_by_place(self.data)[2])
        return Bench.hysteresis_width(paired)


class LargestLessSmallestSlope(Bench):
    def terminal_line(self):
        """Formula 17 with the smallest output at the first input and the largest at the last."""
        x, y = self.inputs(), [Fraction(t, 2 * self.run.n) for t in self.totals()]
        slope = (max(y) - min(y)) / (x[-1] - x[0])
        offset = min(y) - slope * x[0]
        return 'line', max(abs(v - slope * at - offset) for at, v in zip(x, y)), slope, offset


class LargestLessSmallestSpan(Bench):
    def full_span(self, slope):
        return Fraction(max(self.totals()) - min(self.totals()), 2 * self.run.n)


class HalvedHysteresis(Bench):
    def hysteresis_width(self):
        return Bench.hysteresis_width(self) / 2


class RoundedTwice(Bench):
    def thousandths(self, index):
        """First to four decimals of a percent, then to three."""
        return rational.nearest(Fraction(rational.nearest(index * 1000000), 10))


class RoundedTwiceUpwards(Bench):
    def thousandths(self, index):
        """The same with a half upwards, as 0.825 of A1 came about."""
        return (floor(index * 1000000 + HALF) + 5) // 10


class Cut(Bench):
    def thousandths(self, index):
        return floor(index * 100000)


class RoundedUp(Bench):
    def thousandths(self, index):
        return ceil(index * 100000)


class HalfUpwards(Bench):
    def thousandths(self, index):
        return floor(index * 100000 + HALF)


class HalfDownwards(Bench):
    def thousandths(self, index):
        return ceil(index * 100000 - HALF)


class HalfTowardsZero(Bench):
    def thousandths(self, index):
        """One more than the whole part only where the rest is more than a half. No index is negative, so that this is a half downwards by another text."""
        value = index * 100000
        return floor(value) + (value % 1 > HALF)


class HalfToOdd(Bench):
    def thousandths(self, index):
        value = index * 100000
        return floor(value) | 1 if value % 1 == HALF else rational.nearest(value)


class LeastSquares(Bench):
    def best_line(self, band):
        slope, offset = lines.least_squares(band)
        values = [(x, Fraction(v, band.d)) for side in (band.low, band.high) for x, v in zip(band.x, side)]
        return 'line', max(abs(v - slope * x - offset) for x, v in values), slope, offset


class ShiftedTerminal(Bench):
    def best_line(self, band):
        """The slope from the middle of the first input's values to the middle of the last one's, moved to the least width."""
        rise = band.low[-1] + band.high[-1] - band.low[0] - band.high[0]
        slope = Fraction(rise, 2 * band.d * (band.x[-1] - band.x[0]))
        width, offset = lines.at_slope(band, slope)
        return 'line', width, slope, offset


class IndependentMovedToOrigin(Bench):
    def zero_line(self):
        band, slope = self.totals_band(), self.independent_line[2]
        return 'line', lines.largest_off(list(zip(band.x, band.low)), slope * band.d) / band.d, slope, Fraction(0)


class RestOfZero(Bench):
    def rest(self):
        """The best line through the origin for the points at every other input than zero."""
        unit = 2 * self.run.n
        points = [(x, t) for x, t in zip(self.inputs(), self.totals()) if x]
        width, slope, _ = lines.through_origin(points)
        return 'line', width / unit, slope / unit, Fraction(0)

    def zero_line(self):
        return self.rest()


class LineOfTheRest(RestOfZero):
    def zero_line(self):
        """The right width, and the line of the rest where the value at input zero decides that width."""
        return ('line', Bench.zero_line(self)[1]) + self.rest()[2:]


class FrontAsTerminal(Bench):
    def front_line(self):
        return self.terminal_line()


class FrontOfUpMeans(Bench):
    def front_line(self):
        # U/n in the unit of T/(2n)
        return lines.through(self.totals_band(), self.inputs()[0], 2 * self.sums(UP)[0])


def over_independent(bench, own):
    """The width of an index over the full-span output of the independent line."""
    return own if own.number else bench.measured(bench.independent_line, own.width)


class ZeroOverIndependent(Bench):
    def zero(self):
        return over_independent(self, Bench.zero(self))


class FrontOverIndependent(Bench):
    def front(self):
        return over_independent(self, Bench.front(self))


class NegativeAllowed(Bench):
    def barred(self, name):
        return 0 if name == 'zero' else Bench.barred(self, name)

    def zero_line(self):
        return lines.through(self.totals_band(), 0, 0)


class NegativeAfterTwelve(NegativeAllowed):
    before = (12,)

    def zero(self):
        answer = NegativeAllowed.zero(self)
        return refused(15) if self.negative_input() and answer.number not in self.before else answer


class NegativeLast(NegativeAfterTwelve):
    before = (12, 11)


class NegativeBySize(NegativeAllowed):
    def zero_line(self):
        band = self.totals_band()
        band.x = [abs(x) for x in band.x]
        return lines.through(band, 0, 0)


class NegativeBarsAll(Bench):
    def barred(self, name):
        return Bench.barred(self, 'zero') or Bench.barred(self, name)


class ZeroTakenForNegative(Bench):
    def negative_input(self):
        return any(x <= 0 for x in self.inputs())


class DividedByN(Bench):
    def bessel_divisor(self):
        return self.run.n


class ShiftedApart(Bench):
    """Q over differences, as C-14 works it, with a reading of its own for each of the two sums. As it stands here, with the first one for both, it is right; those made of it take another one in one sum."""

    def of_sum(self, stroke, i):
        return self.group(stroke, i)[0]

    def of_squares(self, stroke, i):
        return self.group(stroke, i)[0]

    def squares(self, stroke, i):
        group = self.group(stroke, i)
        return self.run.n * sum((y - self.of_squares(stroke, i)) ** 2 for y in group) - sum(y - self.of_sum(stroke, i) for y in group) ** 2


class LastForFirst(ShiftedApart):
    def of_squares(self, stroke, i):
        return self.group(stroke, i)[-1]


class FirstOfTheOtherStroke(ShiftedApart):
    def of_sum(self, stroke, i):
        return self.group(DOWN if stroke == UP else UP, i)[0]


class LargestLimitEverywhere(Bench):
    def limits(self, stroke):
        return [max(self.limit(s, i) for s in (UP, DOWN) for i in range(self.run.m))] * self.run.m


class FirstCycleAlone(Bench):
    def group(self, stroke, i):
        return [self.run.y.get((stroke, 0, i), 0)] * self.run.n


class RefusesEveryRun(Bench):
    def answer(self, name):
        return refused(3)


class SameSheetAlways(Bench):
    def __init__(self, run, data=b''):
        Bench.__init__(self, make_files.paper_run(), data)


# Readings of C-13, of runs with an up stroke only

class SixteenAfterThirteen(Bench):
    def barred(self, name):
        return 13 if name in NEED_CYCLES and self.run.n == 1 else Bench.barred(self, name)


class ThirteenForSixteen(Bench):
    def barred(self, name):
        """A missing stroke is taken for a missing cycle."""
        return {16: 13}.get(Bench.barred(self, name), Bench.barred(self, name))


class SixteenAfterEleven(Bench):
    def barred(self, name):
        """A number that the line itself is refused with comes first."""
        told = Bench.barred(self, name)
        return self.measured(self.independent_line).number or 16 if told == 16 else told


class SixteenForEveryIndex(Bench):
    def barred(self, name):
        return Bench.barred(self, name) or Bench.barred(self, 'lh')


class SixteenForFewerIndices(Bench):
    """One of the four indices is answered of an up stroke only, from the stroke that is there; this one tells hysteresis, with the up stroke for the down stroke."""

    answered = 'hysteresis'

    def barred(self, name):
        """What is left behind 16, if anything."""
        if name == self.answered and self.single():
            return 13 if name in NEED_CYCLES and self.run.n == 1 else 0
        return Bench.barred(self, name)

    def hysteresis_width(self):
        return Fraction(0) if self.single() else Bench.hysteresis_width(self)

    def repeatability_width(self):
        return Fraction(max(self.limits(UP)), self.run.n) if self.single() else Bench.repeatability_width(self)

    def upper(self):
        """U in the place of D where there is none."""
        return self.sums(UP if self.single() else DOWN)

    def lh(self):
        return self.measured(self.best_line(self.band(self.run.n, self.sums(UP), self.upper())))

    def lhr(self):
        low = [u - k for u, k in zip(self.sums(UP), self.limits(UP))]
        high = [d + k for d, k in zip(self.upper(), self.limits(UP if self.single() else DOWN))]
        return self.measured(self.best_line(self.band(self.run.n, low, high)))


class HysteresisOfNothing(SixteenForFewerIndices):
    def hysteresis_width(self):
        """The unused stroke is taken to read zero."""
        return Bench.hysteresis_width(self)


class RepeatabilityAnswered(SixteenForFewerIndices):
    answered = 'repeatability'


class LhAnswered(SixteenForFewerIndices):
    answered = 'lh'


class LhrAnswered(SixteenForFewerIndices):
    answered = 'lhr'


# An index is a quotient, so that a factor which all means have in common does not show on any sheet, and the unused stroke of a run that was read is zeros: these are told apart by what is answered of runs built by hand.

class UNotTwice(Bench):
    def walked(self):
        """T is U where there is one stroke, in units of 1/(2n) all the same."""
        return (UP,) if self.single() else Bench.walked(self)


class TwiceByN(Bench):
    def totals(self):
        """T is twice U, and taken by n."""
        return [2 * t for t in Bench.totals(self)] if self.single() else Bench.totals(self)


class UnusedSummed(Bench):
    def walked(self):
        return UP, DOWN


class DownMeansOfUnused(Bench):
    def averages(self):
        told = Bench.averages(self)
        return told if told.number else told._replace(down=filled(Fraction(v, self.run.n) for v in self.sums(DOWN)))


class DownMeansOfUp(Bench):
    def averages(self):
        told = Bench.averages(self)
        return told._replace(down=told.up) if self.single() else told


class NoBothMeans(Bench):
    def averages(self):
        told = Bench.averages(self)
        return told._replace(both=filled([])) if self.single() else told


class UnusedChecked(Bench):
    """The unused stroke is held to the limits and to the scatter as the other one is."""

    numbers = (5, 9, 10)

    def __init__(self, run, data=b''):
        Bench.__init__(self, run, data)
        both = runfile.verdict(run.but(strokes=2)) if self.single() else self.verdict
        if both[0] in self.numbers:
            self.verdict = both


class UnusedCheckedForScatter(UnusedChecked):
    numbers = (10,)


class AnyStrokeCount(Bench):
    def __init__(self, run, data=b''):
        """Every other count than 1 is taken for two strokes."""
        Bench.__init__(self, run if run.strokes == 1 else run.but(strokes=2), data)


class StrokeCountLast(Bench):
    def __init__(self, run, data=b''):
        """3 for the stroke count comes behind the other checks."""
        Bench.__init__(self, run, data)
        others = runfile.verdict(run if run.strokes == 1 else run.but(strokes=2))
        if others[0]:
            self.verdict = others


# What is read wrongly, the method, and the wrong figure it is known for, if any: the file, the line counted from 0, and that line's last field.
WRONG = [
    ('pairing the jth up reading of the file with the jth down reading', PairedByPlace, None),
    ('a terminal slope from the largest less the smallest output', LargestLessSmallestSlope, ('a4 falling', 1, None)),
    ('a full-span output of the largest less the smallest output', LargestLessSmallestSpan, None),
    ('half the hysteresis', HalvedHysteresis, ('c2', 6, '0.107')),
    ('rounding twice', RoundedTwice, None),
    ('rounding twice, a half upwards', RoundedTwiceUpwards, ('a1', 1, '0.825')),
    ('rounding up', RoundedUp, ('a1', 1, '0.825')),
    ('cutting the percent', Cut, None),
    ('rounding a half upwards', HalfUpwards, ('two and a half', 1, '0.003')),
    ('rounding a half downwards', HalfDownwards, ('one and a half', 1, '0.001')),
    ('rounding a half towards zero', HalfTowardsZero, ('one and a half', 1, '0.001')),
    ('rounding a half to the odd neighbour', HalfToOdd, ('half', 1, '0.001')),
    ('the least-squares line for the best one', LeastSquares, None),
    ('the shifted terminal line for the best one', ShiftedTerminal, None),
    ('the independent line moved to the origin for the zero-based one', IndependentMovedToOrigin, ('sample', 4, '4.750')),
    ('a zero-based width without the value at input zero', RestOfZero, ('value 50 at zero', 4, '5.000')),
    ('the line of the rest where the value at input zero decides', LineOfTheRest, ('value 50 at zero', 4, '25.000')),
    ('the terminal line for the front one', FrontAsTerminal, ('sample', 5, '4.850')),
    ('the front line through the first up mean', FrontOfUpMeans, ('sample', 5, '3.302')),
    ('a zero-based index over the full span of the independent line', ZeroOverIndependent, ('sample', 4, '3.200')),
    ('a front index over the full span of the independent line', FrontOverIndependent, ('sample', 5, '3.233')),
    ('a zero-based line for negative inputs too', NegativeAllowed, ('negative', 4, '2.500')),
    ('a negative input taken by its size', NegativeBySize, ('negative', 4, '1000.000')),
    ('15 given after 12', NegativeAfterTwelve, ('negative and not single', 4, '12')),
    ('15 given after 12 and 11', NegativeLast, ('negative and level', 4, '11')),
    ('15 for every index of a run with a negative input', NegativeBarsAll, ('negative', 1, '15')),
    ('15 for an input at zero', ZeroTakenForNegative, ('sample', 4, '15')),
    ("dividing by n in Bessel's formula", DividedByN, None),
    ('the squares of differences to the last reading, the sum of those to the first', LastForFirst, None),
    ('the sum of differences to the first reading of the other stroke, the squares of those to its own', FirstOfTheOtherStroke, None),
    ('the largest k at every limit point', LargestLimitEverywhere, None),
    ('the first cycle for all cycles', FirstCycleAlone, None),
    ('16 given after 13', SixteenAfterThirteen, ('a1, up only', 7, '13')),
    ('13 given for 16', ThirteenForSixteen, ('sample, up only', 6, '13')),
    ('16 given after 11', SixteenAfterEleven, ('zeros, up only', 6, '11')),
    ('16 for the linearities of an up stroke only too', SixteenForEveryIndex, ('sample, up only', 1, '16')),
    ('hysteresis of an up stroke only, walked down as up', SixteenForFewerIndices, ('sample, up only', 6, '0.000')),
    ('hysteresis of an up stroke only, the other one taken for zeros', HysteresisOfNothing, ('sample, up only', 6, '100.000')),
    ('repeatability of an up stroke only', RepeatabilityAnswered, ('sample, up only', 7, '0.900')),
    ('LH of an up stroke only', LhAnswered, ('sample, up only', 8, '2.500')),
    ('LHR of an up stroke only', LhrAnswered, ('sample, up only', 9, '2.950')),
    ('a program that refuses every run', RefusesEveryRun, None),
    ('a program that prints the same sheet always', SameSheetAlways, None),
]


# What is read wrongly of runs built by hand, the method, and what it is known for: the run, the line's name, and the field of that line, counted from 1, that it gives.
WRONG_RUNS = [
    ('T taken for U, not twice U, of an up stroke only', UNotTwice, ('sample, up only', 'independent', 4, '50/1')),
    ('T of an up stroke only by n', TwiceByN, ('sample, up only', 'independent', 4, '200/1')),
    ('the unused stroke summed into T', UnusedSummed, ('sample, up only, with its down stroke unused', 'terminal', 6, '97/2000')),
    ('down means of the unused stroke', DownMeansOfUnused, ('sample, up only, with its down stroke unused', 'down', 1, '4/1')),
    ('up means told as down means', DownMeansOfUp, ('sample, up only', 'down', 2, '900/1')),
    ('no means of both for an up stroke only', NoBothMeans, ('sample, up only', 'both', 2, '0/1')),
    ('the unused stroke held to the limits', UnusedChecked, ('sample, up only, with 1000001 unused at point 2', 'terminal', 1, '5')),
    ('the unused stroke held to the scatter', UnusedCheckedForScatter, ('sample, up only, with scatter unused at point 1', 'terminal', 1, '10')),
    ('any stroke count taken for two', AnyStrokeCount, ('stroke count of 3 and nothing else', 'averages', 1, '0')),
    ('the stroke count checked last', StrokeCountLast, ('stroke count of 0 and an input beyond', 'averages', 1, '5')),
]


def lines_of(sheet_bytes):
    return sheet_bytes.decode('ascii').split('\n')


def sentence(what, name, right, other):
    """The first line at which two sheets of a file differ, in words."""
    at, due, got = next((at, a, b) for at, (a, b) in enumerate(zip(lines_of(right), lines_of(other)), 1) if a != b)
    return '%s differs at file %s, line %d: %r, where %r is due' % (what, name, at, got, due)


def first_file(method, files, dues):
    """(name, right sheet, wrong sheet) of the first file that tells a wrong method apart, or None."""
    for (name, data), due in zip(files, dues):
        other = sheet(data, method)
        if other != due:
            return name, due, other
    return None


def misprint_fault(what, method, printed, by_name):
    """Holds a wrong method to the wrong figure that it is known for: a sentence if it has another."""
    name, at, figure = printed
    data, due = by_name[name]
    right, other = lines_of(due)[at], lines_of(sheet(data, method))[at]
    if right == other or figure is not None and other.split(' ')[-1] != figure:
        return '%s gives %r at file %s, where %s is known of it' % (what, other, name, figure or 'another line')
    return None


def told_apart(files, dues):
    """What no file tells from the rule, and for each wrong method the first file at which its sheet differs, and the file it is known by."""
    wrong, told = [], []
    by_name = {name: (data, due) for (name, data), due in zip(files, dues)}
    for what, method, printed in WRONG:
        found = first_file(method, files, dues)
        if found is None:
            wrong.append('no file tells %s from the rule' % what)
            continue
        told.append(sentence(what, *found))
        fault = misprint_fault(what, method, printed, by_name) if printed else None
        if fault:
            wrong.append(fault)
        elif printed and printed[0] != found[0]:
            data, due = by_name[printed[0]]
            told.append(sentence(what, printed[0], due, sheet(data, method)))
    return wrong, told


def runs_told_apart(runs, dues, lines_for):
    """The same for what is answered of runs built by hand, each wrong method by the run that it is known by; lines_for gives the lines of a method's answers."""
    wrong, told = [], []
    by_name = {name: (run, due) for (name, run), due in zip(runs, dues)}
    for what, method, (name, line, field, figure) in WRONG_RUNS:
        run, due = by_name[name]
        right, other = ([told for told in lines if told.startswith(line + ' ')][0] for lines in (due, lines_for(method(run))))
        if right == other or other.split(' ')[field] != figure:
            wrong.append('%s gives %r at run %s, where %s is known of it' % (what, other, name, figure))
        else:
            told.append('%s differs at run %s: %r, where %r is due' % (what, name, other, right))
    return wrong, told
