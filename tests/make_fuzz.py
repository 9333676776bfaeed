"""Makes one case of `make fuzz` of a seed and a number: a run built by hand, with rules broken or not, or a file, in travel order, shuffled or damaged; every third run or so has an up stroke only. The same two numbers always make the same case."""
import random
from collections import namedtuple
from itertools import islice

import make_halves
import make_sheets
from make_files import NO_STROKES, random_run, unused_rubbish, up_only, with_point, with_reading
from make_sheets import beyond, edge_inputs, gain_for, held, moved, rubbish_behind, run_of, sensor
from requests import INDICES, READ, SHEET, WRITE
from second.runfile import M_LIMITS, N_LIMITS, SCATTER, STROKES, X_LIMIT, Y_LIMIT, framed, signed_bytes, travel
from second.sheet import NAMES

# What is asked: a kind of request, a file or a run, and how much longer than what is due the lent buffer is; None where it just has room for any answer.
Asked = namedtuple('Asked', 'kind given slack')
KINDS = {READ: 'read', WRITE: 'write', SHEET: 'sheet', INDICES: 'indices'}
LONGEST = 4096

# The families of make_sheets, each with how many of its runs in turn are of different kinds.
FAMILIES = {'falling': 1, 'near_linear': 1, 'once': 1, 'level': 6, 'not_single': 5, 'tiny': 1, 'extremes': 1, 'large_figures': 1, 'first_inputs': 7, 'through_zero': 1, 'value_at_zero': 7, 'balanced_beyond': 4, 'tiny_from_zero': 1, 'large_from_zero': 1}


def any_size(make):
    return make.randint(*M_LIMITS), make.randint(*N_LIMITS)


def of_family(make):
    """A run as a family of the comparison makes it."""
    name = make.choice(list(FAMILIES))
    return next(islice(getattr(make_sheets, name)(make), make.randrange(FAMILIES[name]), None))[1]


def bench_sensor(make):
    m, n = any_size(make)
    gain = gain_for(make, m) * make.choice((1, 1, -1))
    return sensor(make, m, n, gain, make.choice((0, 0.001, 0.01, 0.2)), make.choice((0, 0.004, 0.1)), make.choice((0, 0.001, 0.05)), make.choice((0, 2, 500)))


def rows_of(make, m, n, reading):
    """The rows of both strokes; a reading by its stroke and point."""
    return [[[reading(s, i) for i in range(m)] for _ in range(n)] for s in range(STROKES)]


def small_numbers(make):
    """Numbers so small that readings, means and widths are often alike."""
    (m, n), most = any_size(make), make.choice((0, 1, 1, 2, 5, 20))
    first = make.choice((0, 0, 1, -m, -2 * m))
    x = sorted(make.sample(range(first, first + make.choice((m, 2 * m, 40))), m))
    return run_of(x, *rows_of(make, m, n, lambda s, i: make.randint(-most, most)))


def plateaus(make):
    """Readings that stay for some points and then step; the strokes are alike, or one lies above the other, or they step elsewhere."""
    (m, n), step = any_size(make), make.choice((1, 7, 1000, 150000))
    up = [make.randint(-3, 3) * step]
    while len(up) < m:
        up.append(up[-1] + make.choice((0, 0, 0, 1, -1, 2)) * step)
    down = make.choice((up, [y + make.choice((1, step)) for y in up], up[1:] + up[-1:]))
    loose = make.choice((0, 0, 1, 3))
    x = make.choice((make_sheets.evenly(m), sorted(make.sample(range(-50, 400), m))))
    return run_of(x, *rows_of(make, m, n, lambda s, i: held((up, down)[s][i] + make.randint(0, loose))))


def half(make):
    """An index that ends in half a thousandth of one percent."""
    stage, rows = make_halves.rows_for(make, make.choice(NAMES), make.choice((True, False)))
    return run_of(stage.x, *rows)


def at_limits(make):
    """Inputs at both limits; readings at a limit or near it, apart by as much as is allowed, or by one less or more."""
    m, n = any_size(make)
    side = {(s, i): make.choice((-1, 1)) for s in range(STROKES) for i in range(m)}
    apart = (0, 0, 1, 2, SCATTER - 1, SCATTER) + make.choice(((), (SCATTER + 1,)))
    return run_of(edge_inputs(make, m), *rows_of(make, m, n, lambda s, i: side[s, i] * (Y_LIMIT - make.choice(apart))))


def good_run(make):
    """A run that is accepted, most often; of both strokes, or of the up stroke alone."""
    run = make.choice((of_family, of_family, of_family, bench_sensor, random_run, small_numbers, plateaus, half, at_limits))(make)
    return up_only(run) if make.random() < 0.35 else run


# Rules broken, or only just kept: each gives the run with one thing changed.

def other_sizes(make, run):
    m, n = (make.choice((v, v, 0, low - 1, low, high, high + 1, 255, 2**32, 2**63, 2**64 - 1)) for v, (low, high) in ((run.m, M_LIMITS), (run.n, N_LIMITS)))
    return run.but(m=m, n=n)


def other_strokes(make, run):
    """A stroke count that there is not; or the other one of the two, with the readings that are there."""
    return run.but(strokes=make.choice((3 - run.strokes, *NO_STROKES)) if run.strokes in (1, 2) else 1)


def near_or_far(make, limit):
    """A number on a limit, next to it, or as far beyond as eight bytes go."""
    return make.choice((limit, -limit, limit + 1, -limit - 1, make.randrange(-2**63, 2**63), *beyond(limit)))


def other_input(make, run):
    return with_point(run, make.choice(list(run.x)), near_or_far(make, X_LIMIT))


def other_reading(make, run):
    return with_reading(run, make.choice(list(run.y)), near_or_far(make, Y_LIMIT))


def not_rising(make, run):
    """An input that is the one before it, or lies below it or just above."""
    i = make.randrange(1, len(run.x))
    return with_point(run, i, run.x[i - 1] - make.choice((0, 0, 1, 5000, -1)))


def far_apart(make, run):
    """Two cycles of one stroke apart by what is allowed, or by one more."""
    s, c, i = make.choice(list(run.y))
    other = make.choice([place for place in run.y if place[::2] == (s, i)])
    return with_reading(run, (s, c, i), run.y[other] + make.choice((1, -1)) * (SCATTER + make.choice((0, 1))))


def inputs_moved(make, run):
    """Some inputs below zero, one at it, or none."""
    return moved(run, make.choice((-1, 1)) - run.x[make.randrange(len(run.x))] + make.choice((0, 1)))


def with_rubbish(make, run):
    return rubbish_behind(run, make) if len(run.x) == run.m else run


def with_unused(make, run):
    """Rubbish in the unused stroke, where there is one."""
    return unused_rubbish(run, make) if run.strokes == 1 else run


def within(run, size):
    """The run with every number held to what so many bytes can say."""
    least, most = -2**(8 * size - 1), 2**(8 * size - 1) - 1
    kept = lambda numbers: {place: max(least, min(most, v)) for place, v in numbers.items()}
    return run.but(x=kept(run.x), y=kept(run.y))


# a file tells neither sizes nor strokes that there are not, and has no unused stroke: its changes come last
CHANGES = (other_sizes, other_strokes, with_unused, with_unused, other_input, other_reading, not_rising, far_apart, far_apart, inputs_moved, with_rubbish)
FILE_CHANGES = CHANGES[4:]


def hand_run(make):
    run = good_run(make)
    for _ in range(make.choice((0, 0, 0, 1, 1, 2))):
        run = make.choice(CHANGES)(make, run)
    return within(run, 8)


# Records between the opening and the close, damaged.

def drop(make, middle):
    del middle[make.randrange(len(middle))]


def double(make, middle):
    middle.insert(make.randrange(len(middle) + 1), make.choice(middle))


def swap_numbers(make, middle):
    """Two records exchange their numbers, and keep their places."""
    i, j = make.randrange(len(middle)), make.randrange(len(middle))
    middle[i], middle[j] = middle[i][:-4] + middle[j][-4:], middle[j][:-4] + middle[i][-4:]


def unknown(make, middle):
    """A record of no kind, a second opening of either kind or an early close."""
    kind = make.choice((0, 1, 1, 4, 4, 5, 5, 6, 128, 255))
    middle.insert(make.randrange(len(middle) + 1), bytes([kind]) + make.randbytes(make.choice((0, 2, 5, 7))))


def elsewhere(make, middle):
    """A record of a stroke, cycle or point that may be another one's, or none's."""
    which = make.randrange(len(middle))
    record = bytearray(middle[which])
    record[make.randrange(1, len(record) - 4)] = make.choice((0, 1, 2, 3, 9, 10, 11, 12, 255))
    middle[which] = bytes(record)


def other_number(make, middle):
    which = make.randrange(len(middle))
    value = make.choice((X_LIMIT, X_LIMIT + 1, Y_LIMIT, Y_LIMIT + 1, 2**31 - 1, -X_LIMIT, -X_LIMIT - 1, -Y_LIMIT, -Y_LIMIT - 1, -2**31))
    middle[which] = middle[which][:-4] + signed_bytes(value)


RECORD_DAMAGE = (drop, double, swap_numbers, unknown, elsewhere, other_number)


# A whole file, damaged.

def cut(make, data):
    """Anywhere, in or behind the opening, and in or before the last records."""
    return data[:make.choice((make.randrange(len(data)), make.randrange(min(len(data), 10)), len(data) - make.randrange(min(len(data), 18))))]


def longer(make, data):
    return data + make.choice((b'\0', b'\4', data, make.randbytes(make.randrange(1, 40)), bytes(LONGEST)))


def other_bytes(make, data):
    out = bytearray(data)
    for _ in range(make.randint(1, 3)):
        at = make.randrange(len(out))
        out[at] = make.choice((make.randrange(256), make.randrange(6), out[at] ^ 1 << make.randrange(8)))
    return bytes(out)


def other_opening(make, data):
    return bytes([make.choice((1, 1, 5, 5, 0, 2, 6, 255)), make.choice((0, 2, 3, 11, 12, 255, make.randrange(256))), make.choice((0, 1, 10, 11, 255, make.randrange(256)))]) + data[3:]


def other_kind(make, data):
    """The opening of the other kind, and all else as it was."""
    return bytes([{1: 5, 5: 1}.get(data[0], 5)]) + data[1:]


FILE_DAMAGE = (cut, cut, longer, other_bytes, other_bytes, other_opening, other_kind)


def run_file(make):
    """The file of a run, or of one that a change has made doubtful, in travel order or shuffled."""
    run = good_run(make)
    m, n, strokes = run.m, run.n, run.strokes
    if make.random() < 0.2:
        run = within(make.choice(FILE_CHANGES)(make, run), 4)
    middle = travel(run)
    if make.random() < 0.5:
        make.shuffle(middle)
    if make.random() < 0.3:
        make.choice(RECORD_DAMAGE)(make, middle)
    return framed(m, n, middle, strokes)


def rubbish(make):
    return bytes([make.choice((1, 5)), make.randint(*M_LIMITS), make.randint(*N_LIMITS)]) + bytes(make.choice((make.randrange(256), make.randrange(6))) for _ in range(make.randrange(200)))


def any_file(make):
    if make.random() < 0.02:
        return rubbish(make)
    data = run_file(make)
    for _ in range(make.choice((0, 0, 0, 0, 1, 1, 2))):
        if data:
            data = make.choice(FILE_DAMAGE)(make, data)
    return data[:LONGEST]


def asked(seed, number):
    """The case of this number; the kinds of request take turns."""
    make = random.Random('%d of %d' % (number, seed))
    kind = list(KINDS)[number % len(KINDS)]
    slack = make.choice((None, None, None, 0, -1, 1, -LONGEST))
    return Asked(kind, any_file(make) if kind in (READ, SHEET) else hand_run(make), slack)
