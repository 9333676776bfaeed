"""Makes the files and points that beside.c is handed, each with what the second program says of it, packed as the head of beside.c tells. Nothing here knows the bench's own code or sheet.c."""
import os
import random
import sys

HERE = os.path.dirname(os.path.abspath(__file__))
ROOT = os.path.dirname(HERE)
sys.path.insert(0, os.path.join(ROOT, 'tests'))

import compare_lines  # noqa: E402
import compare_sheets  # noqa: E402
import make_files  # noqa: E402
import make_sheets  # noqa: E402
import worked_runs  # noqa: E402
from second import lines, sheet  # noqa: E402
from second.runfile import CYCLES, POINTS, SCATTER, STROKES, X_LIMIT, Y_LIMIT, file_of, framed, point_record, reading_record, travel  # noqa: E402

SHEETS, LINES = range(2)
# the sizes whose whole sheets are timed, as (points, cycles), by the strokes of their runs
SIZES = {STROKES: ((3, 1), (3, 2), (6, 3), (POINTS, 1), (POINTS, CYCLES)), 1: ((6, 3),)}
# how many different files each case has, in rotation
EACH = 8


class Case:
    """A name, what it is of, and its items: (file, sheet) or (band, line)."""

    def __init__(self, kind, name, items):
        self.kind, self.name, self.items = kind, name, list(items)


# Packing

def word(value):
    return (value % 2**64).to_bytes(8, 'little')


def words(values):
    return b''.join(map(word, values))


def counted(data):
    return word(len(data)) + data


def line_numbers(drawn):
    """Width, slope and offset of a line as six whole numbers."""
    return [part for value in drawn[1:] for part in (value.numerator, value.denominator)]


def pack_item(kind, given, due):
    if kind == SHEETS:
        return counted(given) + counted(due)
    return words([given.m, given.d] + given.x + given.low + line_numbers(due))


def pack(cases):
    return b''.join(word(case.kind) + counted(case.name.encode('ascii')) + word(len(case.items)) + b''.join(pack_item(case.kind, *item) for item in case.items) for case in cases)


# What is compared before anything is timed

def fits(run):
    """Whether the numbers of a run built by hand fit the bytes of a file."""
    return run.m <= POINTS and run.n <= CYCLES and all(-2**31 <= v < 2**31 for v in run.inputs() + run.readings())


def hand_files(make):
    """The runs of both strokes built by hand as files, those that break a rule among them, in travel order and shuffled."""
    for _, run in make_sheets.hand_runs():
        if run.strokes == STROKES and fits(run):
            yield file_of(run)
            yield make_sheets.shuffled(run, make)


def all_files(seed=170):
    """Every file that the comparisons of make test make, the runs worked by hand, and the runs of both strokes built by hand as files; each once."""
    make = random.Random(seed)
    found = dict.fromkeys(data for _, data in make_sheets.files())
    found.update(dict.fromkeys(make_files.files()))
    found.update(dict.fromkeys(worked_runs.part(compare_sheets.FOLDER, name, '.run') for name in worked_runs.names(compare_sheets.FOLDER)))
    found.update(dict.fromkeys(hand_files(make)))
    return list(found)


def all_bands():
    """Every band of one value at each input that the comparison of lines makes, with its best line."""
    for band, _, _ in compare_lines.bands():
        if lines.admitted(band) and lines.level(band):
            yield band, lines.best(band)


def compared():
    benches = compare_sheets.Benches()
    return [Case(SHEETS, 'files', ((data, sheet.sheet(data, benches)) for data in all_files())), Case(LINES, 'lines', all_bands())]


# What is timed

def timed_runs(make, m, n):
    """Bench sensors, rising and falling, and two runs without any rule."""
    out = [make_sheets.sensor(make, m, n, make_sheets.gain_for(make, m) * side) for side in (1, 1, 1, 1, -1, -1)]
    return out + [make_files.random_run(make, m, n) for _ in range(EACH - len(out))]


def size_name(m, n, strokes=STROKES):
    return '%d points %d %s%s' % (m, n, 'cycle' if strokes == STROKES else 'upstroke', '' if n == 1 else 's')


def whole_sheets(make, strokes=STROKES):
    for m, n in SIZES[strokes]:
        runs = [run.but(strokes=strokes) for run in timed_runs(make, m, n)]
        yield 'sheet ' + size_name(m, n, strokes), [make_sheets.shuffled(run, make) if which % 2 else file_of(run) for which, run in enumerate(runs)]


def longest(make):
    return make_sheets.sensor(make, POINTS, CYCLES, make_sheets.gain_for(make, POINTS))


def wrong_first(make):
    """Refused at byte 0: the first byte is no opening."""
    return [bytes([kind]) + file_of(longest(make))[1:] for kind in (0, 2, 3, 4, 6, 9, 128, 255)]


def wrong_half_way(make):
    """Refused half way: an unknown kind, a record outside the run, a number beyond its limits, a reading or a point given twice."""
    for wrong in (bytes([7]), bytes([1, POINTS, CYCLES]), reading_record(2, 0, 0, 5), point_record(POINTS, 5), reading_record(0, 0, 0, Y_LIMIT + 1), point_record(0, -X_LIMIT - 1), reading_record(0, 0, 0, 5), point_record(0, 5)):
        middle = travel(longest(make))
        half = len(middle) // 2
        yield framed(POINTS, CYCLES, middle[:half] + [wrong] + middle[half:])


def wrong_last(make):
    """Refused at the end: a byte behind the close, no close, a reading missing, a reading given twice."""
    for _ in range(EACH // 4):
        run = longest(make)
        data, middle = file_of(run), travel(run)
        yield from (data + bytes([4]), data[:-1], framed(run.m, run.n, middle[:-1]), framed(run.m, run.n, middle + middle[-1:]))


def not_rising(make):
    """Refused by check 9, at the last point."""
    for _ in range(EACH):
        run = longest(make)
        yield make_sheets.shuffled(make_files.with_point(run, run.m - 1, run.x[run.m - 2]), make)


def scattered(make):
    """Refused by check 10, at the last point."""
    for _ in range(EACH):
        run = longest(make)
        place = (make.randrange(2), make.randrange(1, run.n), run.m - 1)
        far = run.y[place[0], 0, run.m - 1]
        yield make_sheets.shuffled(make_files.with_reading(run, place, far + (SCATTER + 1) * (-1 if far > 0 else 1)), make)


def refused(make):
    yield 'refused at byte 0', wrong_first(make)
    yield 'refused half way', wrong_half_way(make)
    yield 'refused at the end', wrong_last(make)
    yield 'refused by check 9', not_rising(make)
    yield 'refused by check 10', scattered(make)


def timed_bands(make):
    """T of bench runs of the most points, in units of 1/(2n)."""
    for run in timed_runs(make, POINTS, CYCLES):
        band = sheet.Bench(run).totals_band()
        yield compare_lines.points(band.x, band.low, band.d)


def timed(seed=1840):
    make = random.Random(seed)
    # those of an up stroke only are made by numbers of their own, so that the others stay what they are
    families = whole_sheets(make), whole_sheets(random.Random(seed + 1), 1), refused(make)
    out = [Case(SHEETS, name, ((data, sheet.sheet(data)) for data in files)) for family in families for name, files in family]
    for case in out:
        # a case is what its name says only where every one of its files is
        begins = b'points ' if case.name.startswith('sheet') else b'refused '
        if not all(due.startswith(begins) for _, due in case.items):
            raise ValueError('the case %s has a file of another kind' % case.name)
    return out + [Case(LINES, 'line %d points' % POINTS, ((band, lines.best(band)) for band in timed_bands(make)))]
