"""Makes the named files and the named runs built by hand for the comparison of sheets. Every run of a family goes in as a file and as a run."""
import random

import make_files
import make_halves
from make_files import NO_STROKES, paper_run, random_run, unused_rubbish, up_only, with_point, with_reading
from second.runfile import CYCLES, M_LIMITS, N_LIMITS, POINTS, SCATTER, X_LIMIT, Y_LIMIT, Run, file_of, framed, point_record, reading_record, travel

FAR = (1, 10**6, 2**40, 2**63 - 1)


def run_of(x, up, down):
    """A run from its inputs and, for each stroke, its cycles; the lowest input comes first on both strokes."""
    readings = {(s, c, i): y for s, cycles in enumerate((up, down)) for c, row in enumerate(cycles) for i, y in enumerate(row)}
    return Run(len(x), len(up), dict(enumerate(x)), readings)


def one_cycle(x, up, down=None):
    return run_of(x, [up], [up if down is None else down])


def named():
    """The runs that the paper and the Standard work out, and a few that are worked in the head."""
    a1, a4 = [3, 1005, 2020, 2960, 3990, 5000], [202, 400, 598, 790, 1010, 1205]
    yield 'sample', paper_run()
    yield 'a1', one_cycle([0, 1, 2, 3, 4, 5], a1)
    yield 'a4', one_cycle([1, 2, 3, 4, 5, 6], a4)
    yield 'c2', one_cycle([0, 2, 4, 6, 8, 10], [712, 190700, 382640, 575700, 770060, 964580], [1596, 191800, 384420, 577760, 771380, 965740])
    yield 'lh single', one_cycle([0, 10, 20], [0, 100, 200], [0, 112, 200])
    yield 'lh not single', one_cycle([0, 10, 20], [0, 96, 200], [0, 108, 200])
    yield 'zeros', one_cycle([0, 10, 20], [0, 0, 0])
    # the mirror image of a4: every index is that of a4 but the two whose line goes through a point at one side
    yield 'a4 falling', one_cycle([1, 2, 3, 4, 5, 6], a4[::-1])
    # terminal widths of 1, 3 and 5 over 200,000: so many halves of a thousandth
    for what, width in (('half', 1), ('one and a half', 3), ('two and a half', 5)):
        yield what, one_cycle([0, 10, 20], [0, 100000 + width, 200000])
    # beyond zero the line is 10 times the input, with width 10: the value at zero is within it, on it, and more
    for value in (9, 10, 11, 50):
        yield 'value %d at zero' % value, one_cycle([0, 10, 20], [value, 90, 210])
    yield 'negative', one_cycle([-10, 0, 10], [-95, 3, 105])
    # lines through the origin, were they told here: the best one is level, and more than one is best
    yield 'negative and level', one_cycle([-10, 0, 10], [20, 1, 20])
    yield 'negative and not single', one_cycle([-10, 0, 10], [-100, 50, 100])
    # the independent line falls by 5 from point to point, the front line not at all
    yield 'front level', one_cycle([10, 20, 30], [100, 110, 90])


def held(value, limit=Y_LIMIT):
    return max(-limit, min(limit, round(value)))


def sensor(make, m, n, gain, bend=0.01, gap=0.004, scatter=0.001, shift=500):
    """A sensor of a bench: nearly a line, bent, wider on the down stroke, scattered, these three as parts of its full span; at input zero it is off zero by at most the shift, beside gap and scatter."""
    step = make.choice((1, 2, 10, 500))
    x = [i * step + (make.randrange(step // 5 + 1) if make.random() < 0.3 else 0) for i in range(m)]
    full, zero = abs(gain) * x[-1], make.randint(-shift, shift)
    bend, gap = make.uniform(-bend, bend) * full, make.uniform(0, gap) * full
    loose = min(scatter * full, SCATTER / 2 - 1)

    def reading(stroke, i):
        part = x[i] / x[-1]
        arch = 4 * part * (1 - part)
        return held(zero + gain * x[i] + bend * arch + stroke * gap * (0.3 + arch) + make.uniform(-loose, loose))
    up, down = ([[reading(s, i) for i in range(m)] for _ in range(n)] for s in (0, 1))
    return run_of(x, up, down)


def gain_for(make, m):
    return make.choice((3, 17, 250)) * make.choice((1, 10)) / m


def every_size(make):
    """Each number of points with each number of cycles: a bench sensor, and readings without any rule."""
    for m in range(M_LIMITS[0], M_LIMITS[1] + 1):
        for n in range(N_LIMITS[0], N_LIMITS[1] + 1):
            yield 'bench of %d points and %d cycles' % (m, n), sensor(make, m, n, gain_for(make, m))
            yield 'random of %d points and %d cycles' % (m, n), random_run(make, m, n)


def size(make):
    # most of a bench's runs are short, and the second program takes long over the long ones
    return make.choice((3, 3, 4, 5, 5, 6, 7, 9, 11)), make.choice((2, 2, 3, 3, 4, 5, 6, 8, 10))


def falling(make):
    for which in range(200):
        m, n = size(make)
        yield 'falling %d' % which, sensor(make, m, n, -gain_for(make, m), make.choice((0, 0.01, 0.2)))


def near_linear(make):
    for which in range(300):
        m, n = size(make)
        yield 'near linear %d' % which, sensor(make, m, n, gain_for(make, m), 0.001, 0.0005, 0.0002)


def once(make):
    for which in range(120):
        m = size(make)[0]
        gain = gain_for(make, m) * make.choice((1, -1))
        yield 'one cycle %d' % which, sensor(make, m, 1, gain)


def same_each_cycle(x, up, down, n):
    return run_of(x, [up] * n, [down] * n)


def evenly(m):
    return [10 * i for i in range(m)]


def scattered(run, places, spread):
    """The run with every second cycle moved up at these (stroke, point) places."""
    moved = {(s, c, i): y + (spread if c % 2 and (s, i) in places else 0) for (s, c, i), y in run.y.items()}
    return run.but(y=moved)


def everywhere(m):
    return {(s, i) for s in (0, 1) for i in range(m)}


def level(make):
    """Slope zero: of every line, of the terminal line alone, of the best lines alone."""
    for which in range(40):
        m, n, v, gap = make.randint(3, 9), make.randint(1, 5), make.randint(-1000, 1000), make.choice((0, 1, 7, 500))
        flat = same_each_cycle(evenly(m), [v] * m, [v + gap] * m, n)
        yield 'flat %d' % which, flat
        yield 'flat and scattered alike %d' % which, scattered(flat, everywhere(m), make.randint(1, 60))
        arch = [v + 10 * i * (m - 1 - i) for i in range(m)]
        yield 'arch %d' % which, same_each_cycle(evenly(m), arch, [y + gap for y in arch], n)
        leaning = [v] + [make.randint(v - 50, v + 50) for _ in range(m - 2)] + [v]
        yield 'both ends alike %d' % which, same_each_cycle(evenly(m), leaning, leaning, n)
        saw = [v + gap * (i % 2) for i in range(m)]
        yield 'saw %d' % which, same_each_cycle(evenly(m), saw, saw, n)
        tooth = [v] * m
        tooth[m // 2] += 40
        yield 'scattered at the ends %d' % which, scattered(same_each_cycle(evenly(m), tooth, tooth, max(n, 2)), {(0, 0), (1, m - 1)}, make.randint(1, 9))


def split(m, slope, gaps, make):
    """Up and down means of a line with a gap at some inputs, and bends of one unit."""
    middle = [slope * x + make.randint(-1, 1) for x in evenly(m)]
    up = [v - gaps.get(i, 0) for i, v in enumerate(middle)]
    return up, [v + gaps.get(i, 0) for i, v in enumerate(middle)]


def not_single(make):
    """A gap at one input, wider than what any chord needs: more than one line. Two such gaps: one line again."""
    for which in range(90):
        m, n, slope = make.randint(3, 9), make.randint(1, 4), make.randint(-30, 30)
        at, other = make.sample(range(m), 2)
        gap = make.choice((4, 50, 3000))
        run = same_each_cycle(evenly(m), *split(m, slope, {at: gap}, make), n)
        yield 'one gap %d' % which, run
        yield 'two gaps %d' % which, same_each_cycle(evenly(m), *split(m, slope, {at: gap, other: gap}, make), n)
        # k is the same on both strokes, so that scatter at one input makes a gap there, and scatter at two inputs makes two
        smooth = same_each_cycle(evenly(m), *split(m, slope, {}, make), n + 1)
        one, two = {(0, at), (1, at)}, {(0, at), (1, at), (0, other), (1, other)}
        spread = make.choice((2, 30, 2000))
        yield 'scatter at one input %d' % which, scattered(smooth, one, spread)
        yield 'scatter at two inputs %d' % which, scattered(smooth, two, spread)
        closed = same_each_cycle(evenly(m), *split(m, slope, {at: gap}, make), n + 1)
        yield 'one gap and scatter elsewhere %d' % which, scattered(closed, {(0, other), (1, other)}, spread)


def tiny(make):
    """Few points and small numbers, where gaps and chords are often equally wide and slopes often zero."""
    for which in range(500):
        m, n, most = make.choice((3, 3, 3, 4, 5)), make.choice((1, 1, 2, 3)), make.choice((1, 2, 5, 20))
        x = sorted(make.sample(range(-m, m + 1), m))
        up, down = ([[make.randint(-most, most) for _ in range(m)] for _ in range(n)] for _ in (0, 1))
        yield 'tiny %d' % which, run_of(x, up, down)


def between_one_and_many(make):
    """The paper's two LH cases and what lies between: the middle readings go up by one each time."""
    for low in range(84, 107):
        yield 'middle from %d' % low, one_cycle([0, 10, 20], [0, low, 200], [0, low + 12, 200])
        yield 'middle from %d, crossed' % low, run_of([0, 10, 20], [[0, low + 12, 200]] * 2, [[0, low, 200]] * 2)


def spread_out(m):
    return [-X_LIMIT + 2 * X_LIMIT * i // (m - 1) for i in range(m)]


def edge_inputs(make, m):
    """Inputs at both limits: evenly, or crowded to one end."""
    return make.choice((spread_out(m), list(range(-X_LIMIT, -X_LIMIT + m - 1)) + [X_LIMIT], [-X_LIMIT] + list(range(X_LIMIT - m + 2, X_LIMIT + 1))))


def edge_group(make, n):
    """n readings at one limit, with all of the scatter that is allowed, or with none."""
    far = make.choice((-1, 1)) * Y_LIMIT
    near = far - SCATTER if far > 0 else far + SCATTER
    kind = make.choice((0, 0, 1, 2))
    return [far if kind == 0 or (c % 2 if kind == 1 else c) else near for c in range(n)]


def extremes(make):
    """Inputs and readings at their limits, scatter of exactly 10,000 with two and with ten cycles."""
    for which in range(160):
        m, n = make.choice((3, 3, 4, 5, 6, 8, 11)), make.choice((1, 2, 2, 10, 10))
        groups = {(s, i): edge_group(make, n) for s in (0, 1) for i in range(m)}
        up, down = ([[groups[s, i][c] for i in range(m)] for c in range(n)] for s in (0, 1))
        yield 'extreme %d' % which, run_of(edge_inputs(make, m), up, down)
    for n in (2, 10):
        for up_and_down in (0, 1):
            # the widest k of all, at every limit point, over a line from limit to limit
            line = [held(v * 33) for v in spread_out(POINTS)]
            run = same_each_cycle(spread_out(POINTS), line, line[::-1] if up_and_down else line, n)
            yield 'widest scatter, %d cycles, %d' % (n, up_and_down), scattered(run, everywhere(POINTS), SCATTER)


def large_figures(make):
    """Near the limits and without common divisors, for the longest fractions; and slopes of next to nothing, for the largest percents."""
    for which in range(120):
        m, n = make.choice((3, 3, 4, 5, 7)), make.choice((1, 3, 7, 9, 10, 10))
        x = sorted(make.sample(range(-X_LIMIT, 60 - X_LIMIT), m // 2) + make.sample(range(X_LIMIT - 60, X_LIMIT + 1), m - m // 2))
        far = [[make.choice((-1, 1)) * (Y_LIMIT - 100) for _ in range(m)] for _ in (0, 1)]
        up, down = ([[v + make.randint(-100, 100) for v in far[s]] for _ in range(n)] for s in (0, 1))
        yield 'large figures %d' % which, run_of(x, up, down)
    for which in range(30):
        m, n = make.choice((3, 4, 5)), make.choice((1, 2, 9, 10))
        peak = [0] + [make.choice((-1, 1)) * Y_LIMIT for _ in range(m - 2)] + [0]
        run = same_each_cycle(spread_out(m), peak, peak, n)
        yield 'nearly level %d' % which, with_reading(run, (make.randrange(2), make.randrange(n), make.choice((0, m - 1))), make.choice((-1, 1)))


def moved(run, by):
    """The run with every input moved."""
    return run.but(x={i: x + by for i, x in run.x.items()})


def first_inputs(make):
    """A bench sensor with its first input on either side of zero and at it, with some inputs negative, with all, and with none near zero."""
    for which in range(40):
        m, n = make.choice((3, 3, 4, 5, 6, 8)), make.choice((1, 2, 3))
        run = sensor(make, m, n, make.choice((1, -1)) * gain_for(make, m), shift=make.choice((0, 2, 500)))
        for first in (-1, 0, 1):
            yield 'first input of %d, %d' % (first, which), moved(run, first - run.x[0])
        middle, last = run.x[make.randrange(1, m - 1)], run.x[m - 1]
        yield 'some inputs negative %d' % which, moved(run, -middle - make.choice((0, 1)))
        yield 'all inputs negative but the last %d' % which, moved(run, -last)
        yield 'all inputs negative %d' % which, moved(run, -last - make.choice((1, 300)))
        yield 'inputs beyond zero %d' % which, moved(run, make.choice((2, 50, 3000)))


def through_zero(make):
    """Bench sensors that are zero at zero or nearly so, rising and falling, of every number of points."""
    for which in range(150):
        m, n = size(make)
        gain = gain_for(make, m) * make.choice((1, -1))
        yield 'through zero %d' % which, sensor(make, m, n, gain, make.choice((0.001, 0.01, 0.1)), shift=make.choice((0, 0, 1, 20)))


def balanced(make, far, slope, width):
    """A value for each distance from a point: the best line through that point has this slope and width, for two points beyond it deviate oppositely by the width and no other one by more."""
    off = [make.randint(-width, width) for _ in far]
    high, low = make.sample([i for i, at in enumerate(far) if at], 2)
    off[high], off[low] = width, -width
    return [slope * at + by for at, by in zip(far, off)]


def on_both_strokes(make, x, values):
    """A run of these means of both strokes, up to three cycles, with a gap between the strokes."""
    gap = make.choice((0, 0, 1, 30))
    return same_each_cycle(x, [v - gap for v in values], [v + gap for v in values], make.randint(1, 3))


def rising(make, m, first):
    """m inputs from the first one on, evenly or not."""
    step = make.choice((1, 3, 10))
    return [first] + sorted(make.sample(range(first + 1, first + 1 + step * m), m - 1))


def value_at_zero(make):
    """An input at zero: its value is zero, within the width of the rest by one and by one sum unit, on it, more by one and by one sum unit, and by far. The slope of the rest is often zero."""
    for which in range(50):
        m, width, side = make.choice((3, 3, 4, 5, 7)), make.choice((1, 2, 9, 400)), make.choice((1, -1))
        x = rising(make, m, 0)
        values = balanced(make, x, make.choice((0, 0, 1, -1, 7, -40)), width)
        for what, at_zero in (('zero', 0), ('one less', width - 1), ('equal', width), ('one more', width + 1), ('far more', 3 * width + 50)):
            yield 'value at zero %s %d' % (what, which), on_both_strokes(make, x, [side * at_zero] + values[1:])
        equal = on_both_strokes(make, x, [side * width] + values[1:])
        for what, by in (('less', -side), ('more', side)):
            place = make.randrange(2), make.randrange(equal.n), 0
            yield 'value at zero a sum unit %s %d' % (what, which), with_reading(equal, place, equal.y[place] + by)


def balanced_beyond(make):
    """The lines through the origin with every input beyond it, and those through the first point, with the slope often zero, or all but zero."""
    for which in range(60):
        m, width, slope = make.choice((3, 3, 4, 5, 7)), make.choice((0, 1, 5, 300)), make.choice((0, 0, 0, 1, -1, 25))
        x = rising(make, m, make.choice((1, 2, 40)))
        beyond_zero = on_both_strokes(make, x, balanced(make, x, slope, width))
        yield 'balanced beyond zero %d' % which, beyond_zero
        first, value = make.choice((-40, -3, 0, 0, 1, 25)), make.choice((0, 5, -80, 1000))
        at = rising(make, m, first)
        behind_front = balanced(make, [v - first for v in at], slope, width)
        front = on_both_strokes(make, at, [value] + [value + v for v in behind_front[1:]])
        yield 'balanced behind the front %d' % which, front
        for what, run in (('beyond zero', beyond_zero), ('behind the front', front)):
            place = make.randrange(2), make.randrange(run.n), make.randrange(1, run.m)
            yield 'nearly balanced %s %d' % (what, which), with_reading(run, place, run.y[place] + make.choice((1, -1)))


def tiny_from_zero(make):
    """Few points and small numbers at and beyond zero, where values are often alike and two pairs of points often equally wide."""
    for which in range(250):
        m, n, most = make.choice((3, 3, 3, 4, 5)), make.choice((1, 1, 2)), make.choice((1, 2, 5, 20))
        x = rising(make, m, make.choice((0, 0, 0, 1, 2)))
        up, down = ([[make.randint(-most, most) for _ in range(m)] for _ in range(n)] for _ in (0, 1))
        yield 'tiny from zero %d' % which, run_of(x, up, down)
    for which in range(20):
        values = make.sample((-9, -4, 0, 0, 6, 8), 2)
        for at in range(3):
            alike = [values[0]] * 3
            alike[at] = values[1]
            yield 'two values alike %d, %d' % (which, at), one_cycle(rising(make, 3, make.choice((0, 1))), alike)


def large_from_zero(make):
    """Large figures without negative inputs: the longest fractions of the lines through the origin and through the first point."""
    for which in range(60):
        m, n = make.choice((3, 3, 4, 5, 11)), make.choice((1, 3, 9, 10))
        x = [make.choice((0, 1, 7))] + sorted(make.sample(range(X_LIMIT - 90, X_LIMIT + 1), m - 1))
        far = [[make.choice((-1, 1)) * (Y_LIMIT - 100) for _ in range(m)] for _ in (0, 1)]
        up, down = ([[v + make.randint(-100, 100) for v in far[s]] for _ in range(n)] for s in (0, 1))
        yield 'large figures from zero %d' % which, run_of(x, up, down)


def halves(make):
    for name, x, up, down in make_halves.halves(make):
        yield name, run_of(x, up, down)


FAMILIES = (every_size, falling, near_linear, once, level, not_single, between_one_and_many, tiny, extremes, large_figures, first_inputs, through_zero, value_at_zero, balanced_beyond, tiny_from_zero, large_from_zero, halves)


def families(seed=18459):
    make = random.Random(seed)
    for family in FAMILIES:
        yield from family(make)


# Runs with an up stroke only

def single(name, run):
    return name + ', up only', up_only(run)


def single_named():
    """The up strokes of the named runs. Of all but four both strokes are alike, so that the linearities are those of the named run."""
    for name, run in named():
        yield single(name, run)


def straight(make, x, values):
    """A run with an up stroke only of up to three cycles whose means are these values: by what one cycle lies above, the next lies below."""
    n = make.randint(1, 3)
    loose = [make.choice((0, 0, 1, 30)) if n > 1 else 0 for _ in values]
    rows = [[v + (by, -by, 0)[c] for v, by in zip(values, loose)] for c in range(n)]
    return up_only(run_of(x, rows, rows))


def single_at_zero(make):
    """value_at_zero and balanced_beyond of the up stroke alone: what is equal, one less and one more there is so of U/n here. A sum unit is one nth."""
    for which in range(25):
        m, width, side = make.choice((3, 3, 4, 5, 7)), make.choice((1, 2, 9, 400)), make.choice((1, -1))
        x, slope = rising(make, m, 0), make.choice((0, 0, 1, -1, 7, -40))
        values = balanced(make, x, slope, width)
        for what, at_zero in (('zero', 0), ('one less', width - 1), ('equal', width), ('one more', width + 1), ('far more', 3 * width + 50)):
            yield 'single value at zero %s %d' % (what, which), straight(make, x, [side * at_zero] + values[1:])
        equal = straight(make, x, [side * width] + values[1:])
        for what, by in (('less', -side), ('more', side)):
            place = 0, make.randrange(equal.n), 0
            yield 'single value at zero a sum unit %s %d' % (what, which), with_reading(equal, place, equal.y[place] + by)
        beyond_zero = rising(make, m, make.choice((1, 2, 40)))
        yield 'single balanced beyond zero %d' % which, straight(make, beyond_zero, balanced(make, beyond_zero, slope, width))
        first, value = make.choice((-40, -3, 0, 1, 25)), make.choice((0, 5, -80, 1000))
        at = rising(make, m, first)
        behind = balanced(make, [v - first for v in at], slope, width)
        yield 'single balanced behind the front %d' % which, straight(make, at, [value] + [value + v for v in behind[1:]])


def single_halves(make):
    """The halves of the five linearities: the strokes of these runs are alike."""
    for name, run in halves(make):
        if name.split(' ')[2] in make_halves.LINES:
            yield single(name, run)


def single_families(seed=1300):
    """Each size, the halves of linearities, and of the other families a third by chance; all by numbers of their own, so that the runs of both strokes stay what they are."""
    make = random.Random(seed)
    for name, run in every_size(make):
        yield single(name, run)
    yield from single_at_zero(make)
    yield from single_halves(make)
    for family in FAMILIES:
        if family not in (every_size, halves):
            for name, run in family(make):
                if make.random() < 0.33:
                    yield single(name, run)


def good_runs():
    """Runs that are accepted, each with its name."""
    yield from named()
    yield from families()
    yield from single_named()
    yield from single_families()


def shuffled(run, make):
    middle = travel(run)
    make.shuffle(middle)
    return framed(run.m, run.n, middle, run.strokes)


def long_files(longest='longest', only=lambda run: run):
    """Rubbish behind the longest file, and a record too many before its close: 1,837 bytes are as far as a file can be good or cut, and 957 one of an up stroke only, in which the reading that is too large lies outside as well."""
    run = only(sensor(random.Random(1830), POINTS, CYCLES, 100))
    data, middle = file_of(run), travel(run)
    for count in (1, 7, 8, 1000, 4096 - len(data)):
        yield '%s with %d bytes behind' % (longest, count), data + bytes([4]) * count
    extra = {'a second reading': reading_record(0, 0, 0, 5), 'a reading outside': reading_record(0, 0, POINTS, 5), 'a reading too large': reading_record(1, 9, 10, Y_LIMIT + 1), 'a second point': point_record(4, 5)}
    for what, record in extra.items():
        long = framed(run.m, run.n, middle + [record], run.strokes)
        for length in range(len(data) - 2, len(long) + 1):
            yield '%s with %s, cut at %d' % (longest, what, length), long[:length]
        yield '%s with %s and rubbish' % (longest, what), long + bytes(range(200)) * 5
    yield longest + ' without its close', data[:-1]


def rubbish_files():
    """Records told over and over, and no close."""
    for name, kind in (('rubbish of 4096 bytes', 1), ('rubbish of 4096 bytes, up only', 5)):
        yield name, bytes([kind, 3, 1]) + bytes([2, 0, 0, 0, 0, 0]) * 682 + b'\0'


def single_faults():
    """Files of an up stroke only of three points and two cycles, each with one fault, by name: these tell wrong methods apart."""
    run = up_only(paper_run())
    middle, again = travel(run), bytes([5, 3, 2])
    down = reading_record(1, 0, 0, 4)
    yield 'sample, up only, with a down reading', framed(3, 2, middle[:6] + [down] + middle[6:], 1)
    yield 'sample, up only, with a down reading beyond', framed(3, 2, middle + [reading_record(1, 1, 2, Y_LIMIT + 1)], 1)
    yield 'sample, up only, with stroke 2', framed(3, 2, middle + [reading_record(2, 0, 0, 4)], 1)
    yield 'sample, up only, with a second opening', framed(3, 2, middle[:4] + [again] + middle[4:], 1)
    yield 'sample, up only, with an opening of both strokes', framed(3, 2, middle[:4] + [bytes([1, 3, 2])] + middle[4:], 1)
    yield 'sample with an opening of an up stroke only', framed(3, 2, travel(paper_run())[:4] + [again] + travel(paper_run())[4:])
    yield 'sample opened as an up stroke only', framed(3, 2, travel(paper_run()), 1)
    yield 'sample, up only, opened as both strokes', framed(3, 2, middle, 2)
    yield 'sample opened by kind 6', bytes([6]) + file_of(run)[1:]
    yield 'sample, up only, without the second cycle', framed(3, 2, middle[:6], 1)
    yield 'sample, up only, without its last reading', framed(3, 2, middle[:-1], 1)
    yield 'sample, up only, with a reading twice', framed(3, 2, middle + [middle[4]], 1)
    yield 'sample, up only, of 12 points', framed(12, 2, middle, 1)
    yield 'sample, up only, of 0 cycles', framed(3, 0, middle, 1)
    yield 'sample, up only, with scatter', framed(3, 2, middle[:-1] + [reading_record(0, 1, 2, 12001)], 1)
    yield 'sample, up only, with two inputs alike', framed(3, 2, [middle[0], middle[1], point_record(2, 10)] + middle[3:], 1)
    yield 'an opening of an up stroke only', bytes([5])
    yield 'an opening of an up stroke only and no more', bytes([5, 3, 2])


def limit_runs():
    """The paper's limits, one run on each side."""
    for m in (2, 3, 11, 12):
        rows = [[5 * i for i in range(m)]] * 2
        yield 'm of %d' % m, run_of(list(range(m)), rows, rows)
    for x in (30000, 30001):
        yield 'x of %d' % x, one_cycle([0, 10, x], [0, 1, 2])
    for gap in (10000, 10001):
        yield 'scatter of %d' % gap, run_of([0, 10, 20], [[0, 0, 9], [0, gap, 9]], [[0, 0, 9], [0, 0, 9]])


def in_turn(runs, make):
    """Files of these runs, in travel order and shuffled in turn."""
    for which, (name, run) in enumerate(runs):
        if which % 2:
            yield name + ', shuffled', shuffled(run, make)
        else:
            yield name, file_of(run)


def files(seed=2001):
    """(name, bytes): the good runs in travel order or shuffled, what make_files damages, and long files; none above 4096 bytes. The named ones come first, so that wrong methods are soon told apart."""
    for name, run in (*named(), *single_named()):
        yield name, file_of(run)
    yield from single_faults()
    yield from in_turn(families(), random.Random(seed))
    yield from in_turn(single_families(), random.Random(seed + 1))
    yield 'empty', b''
    for name, run in limit_runs():
        yield name, file_of(run)
        only = single(name, run)
        yield only[0], file_of(only[1])
    yield from long_files()
    yield from long_files('longest, up only,', up_only)
    yield from rubbish_files()
    for which, data in enumerate(make_files.files()):
        if len(data) <= 4096:
            yield 'damaged %d' % which, data


def beyond(limit):
    """Numbers outside a limit, as far as eight bytes go."""
    for far in FAR:
        yield min(limit + far, 2**63 - 1)
        yield max(-limit - far, -2**63)


def rule_breakers(make):
    """A good run with one rule broken, at every place where it can be."""
    base = sensor(make, 5, 3, 40)
    for m, n in ((0, 3), (2, 3), (12, 3), (2**64 - 1, 3), (5, 0), (5, 11), (5, 2**64 - 1), (2**63, 2**63), (0, 0)):
        yield 'm of %d and n of %d' % (m, n), base.but(m=m, n=n)
    for i in range(base.m):
        for v in beyond(X_LIMIT):
            yield 'input %d of %d' % (i, v), with_point(base, i, v)
        for v in beyond(Y_LIMIT):
            place = (make.randrange(2), make.randrange(base.n), i)
            yield 'reading %s of %d' % (place, v), with_reading(base, place, v)
        for s in (0, 1):
            for gap in (SCATTER, SCATTER + 1, -SCATTER, -SCATTER - 1):
                tied = base.but(y={**base.y, **{(s, c, i): 0 for c in range(base.n)}})
                yield 'scatter of %d at stroke %d, point %d' % (gap, s, i), with_reading(tied, (s, i % base.n, i), gap)
        if i:
            for down in (0, 1, 5000):
                yield 'input %d not above input %d by %d' % (i, i - 1, down), with_point(base, i, base.x[i - 1] - down)


def two_rules(make):
    """Two rules broken at once: the paper's order tells which number is due, and the lowest index which place."""
    base = sensor(make, 5, 3, 40)
    far_y, far_x = with_reading(base, (1, 2, 1), Y_LIMIT + 1), with_point(base, 3, X_LIMIT + 1)
    both = with_point(far_y, 3, X_LIMIT + 1)
    level_pair, loose = with_point(base, 2, base.x[1]), with_reading(base, (0, 1, 0), base.y[0, 0, 0] + SCATTER + 2000)
    yield 'm and an input', far_x.but(m=2)
    yield 'a reading before an input', both
    yield 'an input before a reading', with_reading(far_x, (0, 0, 4), -Y_LIMIT - 1)
    yield 'a reading and inputs that do not rise', with_point(far_y, 1, base.x[0])
    yield 'inputs that do not rise, twice', with_point(level_pair, 4, base.x[1] - 1)
    yield 'inputs that do not rise and scatter before them', with_reading(level_pair, (0, 1, 0), loose.y[0, 1, 0])
    yield 'scatter twice', with_reading(loose, (1, 1, 4), base.y[1, 0, 4] - SCATTER - 2000)
    yield 'scatter of the down stroke first', with_reading(with_reading(base, (0, 1, 3), base.y[0, 0, 3] + SCATTER + 2000), (1, 1, 2), base.y[1, 0, 2] + SCATTER + 2000)
    yield 'one cycle and an input', with_point(sensor(make, 5, 1, 40), 4, -X_LIMIT - 1)
    negative = moved(base, -base.x[2])
    yield 'a negative input and m', negative.but(m=2)
    yield 'a negative input and a reading', with_reading(negative, (1, 2, 1), Y_LIMIT + 1)
    yield 'negative inputs that do not rise', with_point(negative, 1, negative.x[0])
    yield 'a negative input and scatter', with_reading(negative, (0, 1, 0), loose.y[0, 1, 0])
    yield 'a negative input and one cycle', negative.but(n=1)


def single_breakers(make):
    """A run with an up stroke only with one rule broken, at every place where it can be, and every second time with rubbish in the unused stroke, at all points or at the first one."""
    base = up_only(sensor(make, 4, 3, 40))
    broken = [('m of %d and n of %d' % (m, n), base.but(m=m, n=n)) for m, n in ((2, 3), (12, 3), (2**64 - 1, 3), (4, 0), (4, 11), (4, 2**64 - 1))]
    for i in range(base.m):
        for v in beyond(X_LIMIT):
            broken.append(('input %d of %d' % (i, v), with_point(base, i, v)))
        for c, v in enumerate(beyond(Y_LIMIT)):
            place = 0, c % base.n, i
            broken.append(('reading %s of %d' % (place, v), with_reading(base, place, v)))
        for gap in (SCATTER, SCATTER + 1, -SCATTER, -SCATTER - 1):
            tied = base.but(y={**base.y, **{(0, c, i): 0 for c in range(base.n)}})
            broken.append(('scatter of %d at point %d' % (gap, i), with_reading(tied, (0, i % base.n, i), gap)))
        if i:
            for down in (0, 1, 5000):
                broken.append(('input %d not above input %d by %d' % (i, i - 1, down), with_point(base, i, base.x[i - 1] - down)))
    for which, (name, run) in enumerate(broken):
        yield name + ', up only', unused_rubbish(run, make) if which % 2 else run


def unused(make):
    """Rubbish in the unused stroke, which changes nothing: each is named for the run that it is the same as. The down stroke that the run was made of is left there once, too."""
    for name, run in named():
        yield name + ', up only, with its down stroke unused', run.but(strokes=1)
    for which, (name, run) in enumerate((*single_named(), *single_families())):
        if which % 4 == 0 or which < 20:
            yield name + ', with rubbish in the unused stroke', unused_rubbish(run, make)
    for name, run in single_named():
        yield name + ', with rubbish behind and in the unused stroke', rubbish_behind(run, make)
    sample = up_only(paper_run())
    for i in range(3):
        for v in beyond(Y_LIMIT):
            yield 'sample, up only, with %d unused at point %d' % (v, i), with_reading(sample, (1, 1, i), v)
        yield 'sample, up only, with scatter unused at point %d' % i, with_reading(sample, (1, 1, i), SCATTER + 1)


def stroke_counts(make):
    """Stroke counts that no run has, alone and with another rule broken: 3 is due, at place 0."""
    for strokes in NO_STROKES:
        run = sensor(make, 4, 2, 40)
        for what, other in (('nothing else', run), ('m of 2', run.but(m=2)), ('an input beyond', with_point(run, 3, X_LIMIT + 1)), ('inputs alike', with_point(run, 3, run.x[2])), ('scatter', with_reading(run, (0, 1, 3), run.y[0, 0, 3] - SCATTER - 1)), ('one cycle', run.but(n=1)), ('the up stroke alone', up_only(run))):
            yield 'stroke count of %d and %s' % (strokes, what), other.but(strokes=strokes)


def rubbish_behind(run, make):
    """The run with numbers beyond every limit at every place beyond its m and n."""
    far = lambda limit: make.choice(list(beyond(limit)))
    x = {**{i: far(X_LIMIT) for i in range(POINTS)}, **run.x}
    y = {**{(s, c, i): far(Y_LIMIT) for s in (0, 1) for c in range(CYCLES) for i in range(POINTS)}, **run.y}
    return run.but(x=x, y=y)


def ignored(make):
    for which in range(40):
        m, n = make.randint(3, 10), make.randint(1, 9)
        yield 'rubbish beyond m and n %d' % which, rubbish_behind(sensor(make, m, n, gain_for(make, m)), make)
    for name, run in named():
        yield name + ' with rubbish beyond m and n', rubbish_behind(run, make)


def hand_runs(seed=31):
    """(name, run) of runs built by hand: the good ones, and ones that break each rule."""
    make = random.Random(seed)
    yield from good_runs()
    yield from limit_runs()
    for name, run in limit_runs():
        yield single(name, run)
    for family in (rule_breakers, two_rules, ignored):
        yield from family(make)
    for family in (single_breakers, unused, stroke_counts):
        yield from family(random.Random(seed + 1))
    before = None
    for which, (run, _) in enumerate(make_files.hand_runs()):
        # the writer's runs stand once for every length of its buffer
        if run is not before:
            yield 'run for the writer %d' % which, run
        before = run
