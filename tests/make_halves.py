"""Runs whose index, of each of the nine lines in turn, ends in half a thousandth of one percent: below an even whole number and below an odd one.

The full-span output F and an odd number of halves are chosen first, then the width w that is so many of them: an index w/F is 200,000 w/F halves of a thousandth. A difference of h between the strokes on a full-span output of 200,000 is h halves. For repeatability and LHR a spread of the readings is looked for whose k gives such a width."""
from second.sheet import FACTOR, NAMES, smallest_root

# full-span outputs, and what an odd number of halves must be a multiple of, so that the width is whole
OUTPUTS = {200000: 1, 600000: 1, 40000: 5, 8000: 25, 1600: 125, 320: 625}
EACH = 30


def halves_in(width, output):
    """How many halves of a thousandth of one percent the width is of the output, or None where that is no whole number."""
    count, rest = divmod(200000 * width, output)
    return None if rest else count


def below_even(halves):
    """Whether this odd number of halves lies below an even whole number, as 1.5 does."""
    return halves % 4 == 3


class Stage:
    """A straight sensor with a full-span output: inputs that rise, from zero up and with a line through the origin where the index asks for it, and its values there."""

    def __init__(self, make, output, name):
        self.make = make
        self.m = make.choice((3, 3, 4, 5, 6, 8, 11))
        # the slope is a whole number: the span of the inputs divides the output
        span = make.choice([length for length in range(self.m - 1, 401) if output % length == 0])
        slope = output // span * make.choice((1, 1, -1))
        first = make.choice((0, 0, 1) if name == 'zero' else (0, 0, 7, -50))
        offset = 0 if name == 'zero' else make.choice((0, 12, -5000)) - slope * first
        self.x = [first + x for x in [0] + sorted(make.sample(range(1, span), self.m - 2)) + [span]]
        self.values = [slope * x + offset for x in self.x]

    def off(self, by):
        """The values moved by these."""
        return [v + d for v, d in zip(self.values, by)]

    def at_most(self, width):
        return [self.make.randint(-width, width) for _ in self.x]


def far_from_chord(stage, width):
    """Terminal: the ends on the line, one point the width off, and no other further."""
    by = stage.at_most(width)
    by[0] = by[-1] = 0
    by[stage.make.randrange(1, stage.m - 1)] = stage.make.choice((-width, width))
    return stage.off(by)


def two_widths_between(stage, width):
    """Shifted: the ends on the line, two widths from the lowest deviation to the highest."""
    low = -2 * width if stage.m == 3 else -stage.make.randint(0, 2 * width)
    by = [stage.make.randint(low, low + 2 * width) for _ in stage.x]
    by[0] = by[-1] = 0
    inner = stage.make.sample(range(1, stage.m - 1), min(2, stage.m - 2))
    for i, end in zip(inner, (low, low + 2 * width)):
        by[i] = end
    return stage.off(by)


def in_turn(stage, width):
    """Independent: three points the width off, with signs in turn, and no other further."""
    by, side = stage.at_most(width), stage.make.choice((-1, 1))
    for i, sign in zip(sorted(stage.make.sample(range(stage.m), 3)), (side, -side, side)):
        by[i] = sign * width
    return stage.off(by)


def two_opposite(stage, width):
    """Zero and front: the first point on the line, two others the width off, oppositely, and no other further."""
    by = stage.at_most(width)
    high, low = stage.make.sample(range(1, stage.m), 2)
    by[0], by[high], by[low] = 0, width, -width
    return stage.off(by)


def gaps(stage, width):
    """Hysteresis: the strokes an odd number apart at each point, at most the width, so that the means of both stay a straight line."""
    apart = [stage.make.randrange(1, width + 1, 2) for _ in stage.x]
    apart[stage.make.randrange(stage.m)] = width
    return stage.off(-(gap // 2) for gap in apart), stage.off(gap - gap // 2 for gap in apart)


def two_pairs(stage, width):
    """LH: at two inputs the strokes lie the width off on either side, and nowhere further."""
    up, down = (stage.at_most(width) for _ in range(2))
    for i in stage.make.sample(range(stage.m), 2):
        up[i], down[i] = stage.make.choice(((-width, width), (width, -width)))
    return stage.off(up), stage.off(down)


LINES = {'terminal': far_from_chord, 'shifted': two_widths_between, 'independent': in_turn, 'zero': two_opposite, 'front': two_opposite}
STROKES = {'hysteresis': gaps, 'lh': two_pairs}


def limit_of(spread, n):
    """k of n readings of which one lies this much above the mean of the others, one as much below, and the others at it."""
    return smallest_root(FACTOR[n] ** 2 * n * n * 2 * spread * spread, 1000000 * (n - 1))


def spread_for(make, output, n, even):
    """A spread whose k over n ends in a half of the kind wanted; None where none was found."""
    for spread in make.sample(range(1, 5001), 200):
        halves = halves_in(limit_of(spread, n), n * output)
        if halves is not None and halves % 2 and below_even(halves) == even:
            return spread
    return None


def spread_at(stage, n, spread, inputs):
    """The rows of both strokes, every reading at the stage's values but for one spread up and one down at these inputs."""
    up, down = ([list(stage.values) for _ in range(n)] for _ in range(2))
    for i in inputs:
        for rows in (up, down):
            rows[0][i] += spread
            rows[1][i] -= spread
    return up, down


def scattered_rows(make, name, even):
    """The stage and the rows of a run whose repeatability or LHR ends in a half. LHR's line is single by two inputs of the same spread."""
    while True:
        output, n = make.choice((200000, 40000, 8000)), make.choice((2, 2, 3, 4, 5))
        spread = spread_for(make, output, n, even)
        if spread is not None:
            stage = Stage(make, output, name)
            inputs = make.sample(range(stage.m), 2 if name == 'lhr' else 1)
            return stage, spread_at(stage, n, spread, inputs)


def width_for(make, output, even):
    """A width that is an odd number of halves of the kind wanted, often one of the smallest."""
    kind = [OUTPUTS[output] * odd for odd in range(1, 80, 2) if below_even(OUTPUTS[output] * odd) == even]
    return make.choice(kind[:make.choice((2, len(kind)))]) * output // 200000


def rows_for(make, name, even):
    if name in ('repeatability', 'lhr'):
        return scattered_rows(make, name, even)
    output = make.choice(list(OUTPUTS))
    stage, width, n = Stage(make, output, name), width_for(make, output, even), make.choice((1, 1, 2, 3))
    if name in STROKES:
        up, down = STROKES[name](stage, width)
    else:
        up = down = LINES[name](stage, width)
    return stage, ([list(up)] * n, [list(down)] * n)


def halves(make):
    """(name, inputs, rows up, rows down) for each line and each kind of half."""
    for name in NAMES:
        for even in (True, False):
            for which in range(EACH):
                stage, (up, down) = rows_for(make, name, even)
                yield 'half of %s below %s %d' % (name, 'even' if even else 'odd', which), stage.x, up, down
