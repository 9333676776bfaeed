"""Makes run files and runs for the comparison: good ones, shuffled ones, and ones damaged in every way that the paper's table names; then the same of runs with an up stroke only."""
import random

from second.runfile import POINTS, CYCLES, SCATTER, X_LIMIT, Y_LIMIT, Run, file_of, framed, point_record, reading_record, travel


def paper_run():
    """The run that the paper works out."""
    up = [[0, 899, 2000], [0, 901, 2000]]
    down = [[4, 910, 2004], [4, 910, 2004]]
    readings = {(s, c, i): rows[c][i] for s, rows in enumerate((up, down)) for c in range(2) for i in range(3)}
    return Run(3, 2, {0: 0, 1: 10, 2: 20}, readings)


def random_run(make, m=None, n=None):
    m = make.randint(3, 11) if m is None else m
    n = make.randint(1, 10) if n is None else n
    x = sorted(make.sample(range(-X_LIMIT, X_LIMIT + 1), m))
    y = {}
    for s in range(2):
        for i in range(m):
            middle = make.randint(-Y_LIMIT + SCATTER, Y_LIMIT - SCATTER)
            spread = make.choice((0, 1, 50, SCATTER // 2))
            for c in range(n):
                y[s, c, i] = middle + make.randint(-spread, spread)
    return Run(m, n, dict(enumerate(x)), y)


def with_point(run, i, x):
    return run.but(x={**run.x, i: x})


def with_reading(run, place, y):
    return run.but(y={**run.y, place: y})


def up_only(run):
    """The up stroke of a run, as a run with an up stroke only."""
    return run.but(strokes=1, y={place: y for place, y in run.y.items() if place[0] == 0})


def limits():
    """Files and runs at each limit and one beyond."""
    make = random.Random(11)
    for m in (0, 1, 2, 3, 11, 12, 255):
        for n in (0, 1, 10, 11, 255):
            yield framed(m, n, [])
            if 3 <= m <= 11 and 1 <= n <= 10:
                yield file_of(random_run(make, m, n))
    base = random_run(make, 4, 3)
    for x in (-X_LIMIT - 1, -X_LIMIT, X_LIMIT, X_LIMIT + 1, -2**31, 2**31 - 1):
        yield file_of(with_point(base, 0 if x < 0 else 3, x))
    level = Run(4, 3, base.x, {(s, c, i): 0 for s in range(2) for c in range(3) for i in range(4)})
    for y in (Y_LIMIT, Y_LIMIT + 1, -2**31, 2**31 - 1, -Y_LIMIT, -Y_LIMIT - 1):
        flat = Run(4, 3, base.x, {(s, c, i): max(-Y_LIMIT, min(Y_LIMIT, y)) for s in range(2) for c in range(3) for i in range(4)})
        yield file_of(with_reading(flat, (1, 2, 3), y))
    for gap in (SCATTER, SCATTER + 1, -SCATTER, -SCATTER - 1):
        for i in range(4):
            yield file_of(with_reading(level, (i % 2, i % 3, i), gap))
    yield file_of(with_reading(with_reading(level, (0, 0, 3), SCATTER + 1), (1, 1, 1), -SCATTER - 1))
    yield file_of(with_point(with_reading(level, (0, 0, 0), SCATTER + 1), 3, base.x[2]))
    yield file_of(with_reading(with_reading(level, (1, 0, 2), SCATTER + 1), (0, 1, 2), -SCATTER - 1))


def down_records(run):
    """Records of the down stroke, which lie outside a run with an up stroke only: a good number, one beyond its limits, the first and the last place, and one told twice."""
    first, last = reading_record(1, 0, 0, 5), reading_record(1, run.n - 1, run.m - 1, -5)
    return first, last, reading_record(1, 0, 0, Y_LIMIT + 1), first + first


def outsides(run):
    """A record whose stroke, cycle or index is outside the run, in an otherwise good file."""
    middle = travel(run)
    wrongs = [point_record(run.m, 5), point_record(255, 5), reading_record(2, 0, 0, 5), reading_record(255, 0, 0, 5), reading_record(0, run.n, 0, 5), reading_record(1, 255, 0, 5), reading_record(0, 0, run.m, 5), reading_record(1, 0, 255, X_LIMIT * 1000)]
    if run.strokes == 1:
        wrongs += down_records(run)
    for wrong in wrongs:
        for place in (0, len(middle) // 2, len(middle)):
            yield framed(run.m, run.n, middle[:place] + [wrong] + middle[place:], run.strokes)


def damages(run, make):
    """Every kind of damage to a good file."""
    data, middle = file_of(run), travel(run)
    for cut in range(len(data)):
        yield data[:cut]
    for tail in (b'\0', b'\4', data, bytes(5000 - len(data))):
        yield data + tail[:4096 - len(data)]
    for at in range(len(data)):
        yield data[:at] + bytes([make.randrange(256)]) + data[at + 1:]
    for kind in (0, 1, 5, 6, 9, 10, 11, 255):
        yield bytes([kind]) + data[1:]
        yield framed(run.m, run.n, middle[:3] + [bytes([kind, 0, 0])] + middle[3:], run.strokes)
    for which in range(len(middle)):
        yield framed(run.m, run.n, middle[:which] + middle[which + 1:], run.strokes)
        yield framed(run.m, run.n, middle + [middle[which]], run.strokes)
        yield framed(run.m, run.n, middle[:which] + [bytes([4])] + middle[which:], run.strokes)
    for i in range(1, run.m):
        yield file_of(with_point(run, i, run.x[i - 1]))
        yield file_of(with_point(run, i, max(-X_LIMIT, run.x[i - 1] - 1)))
    yield from outsides(run)


def shuffles(make, count):
    for _ in range(count):
        run = random_run(make)
        middle = travel(run)
        make.shuffle(middle)
        yield framed(run.m, run.n, middle)


def single_limits(make):
    """Files of runs with an up stroke only, at each limit and one beyond."""
    for m in (0, 2, 3, 11, 12, 255):
        for n in (0, 1, 10, 11, 255):
            yield framed(m, n, [], 1)
            if 3 <= m <= 11 and 1 <= n <= 10:
                yield file_of(up_only(random_run(make, m, n)))
    base = up_only(random_run(make, 4, 3))
    for x in (-X_LIMIT - 1, -X_LIMIT, X_LIMIT, X_LIMIT + 1):
        yield file_of(with_point(base, 0 if x < 0 else 3, x))
    for y in (Y_LIMIT, Y_LIMIT + 1, -2**31, 2**31 - 1, -Y_LIMIT, -Y_LIMIT - 1):
        flat = base.but(y=dict.fromkeys(base.y, max(-Y_LIMIT, min(Y_LIMIT, y))))
        yield file_of(with_reading(flat, (0, 2, 3), y))
    level = base.but(y=dict.fromkeys(base.y, 0))
    for gap in (SCATTER, SCATTER + 1, -SCATTER, -SCATTER - 1):
        for i in range(4):
            yield file_of(with_reading(level, (0, i % 3, i), gap))
    yield file_of(with_reading(with_reading(level, (0, 0, 3), SCATTER + 1), (0, 1, 1), -SCATTER - 1))
    yield file_of(with_point(with_reading(level, (0, 0, 0), SCATTER + 1), 3, base.x[2]))


def other_strokes(run):
    """The opening of the other kind before the records of a run: of the up stroke alone, of both strokes in travel order, and with a second opening of either kind behind the first."""
    one = up_only(run)
    for strokes, kind in ((1, 5), (2, 1)):
        for middle in (travel(one), travel(run)):
            yield framed(run.m, run.n, middle, strokes)
            for at in (0, len(middle) // 2, len(middle)):
                for later in (1, 5):
                    again = bytes([later, run.m, run.n])
                    yield framed(run.m, run.n, middle[:at] + [again] + middle[at:], strokes)
            # the whole file of the one kind behind the opening of the other
            yield bytes([kind, run.m, run.n]) + framed(run.m, run.n, middle, 3 - strokes)


def changed_bytes(run, make):
    """The file of a run, shuffled, with a few bytes changed."""
    middle = travel(run)
    make.shuffle(middle)
    data = bytearray(framed(run.m, run.n, middle, run.strokes))
    for _ in range(make.randint(1, 3)):
        data[make.randrange(len(data))] = make.choice((make.randrange(256), make.randrange(6)))
    return bytes(data)


def single_files(make):
    """Files of runs with an up stroke only, good ones and ones damaged in every way, and files that have the opening of the other kind."""
    yield file_of(up_only(paper_run()))
    yield from single_limits(make)
    yield from damages(up_only(paper_run()), make)
    yield from damages(up_only(random_run(make, 3, 1)), make)
    yield from damages(up_only(random_run(make, 5, 2)), make)
    for run in (paper_run(), random_run(make, 3, 1), random_run(make, 4, 3)):
        yield from other_strokes(run)
    longest = file_of(up_only(random_run(make, POINTS, CYCLES)))
    yield longest
    yield longest + bytes(1)
    for _ in range(150):
        run = up_only(random_run(make))
        middle = travel(run)
        make.shuffle(middle)
        yield framed(run.m, run.n, middle, 1)
        yield changed_bytes(up_only(random_run(make)), make)
    for _ in range(300):
        yield bytes([5, make.randint(3, 11), make.randint(1, 10)]) + bytes(make.choice((make.randrange(256), make.randrange(6))) for _ in range(make.randrange(60)))


def files(seed=8170):
    """Every file. Those of both strokes come first and are made by numbers of their own, so that the others do not change them."""
    yield from two_stroke_files(seed)
    yield from single_files(random.Random(seed + 1))


def two_stroke_files(seed):
    make = random.Random(seed)
    yield file_of(paper_run())
    yield from limits()
    yield from damages(paper_run(), make)
    yield from damages(random_run(make, 3, 1), make)
    yield from damages(random_run(make, 4, 2), make)
    yield file_of(random_run(make, POINTS, CYCLES))
    yield file_of(random_run(make, POINTS, CYCLES)) + bytes(1)
    yield from shuffles(make, 300)
    for _ in range(300):
        run = random_run(make)
        middle = travel(run)
        make.shuffle(middle)
        data = bytearray(framed(run.m, run.n, middle))
        for _ in range(make.randint(1, 3)):
            data[make.randrange(len(data))] = make.choice((make.randrange(256), make.randrange(5)))
        yield bytes(data)
    for _ in range(500):
        yield bytes(make.choice((make.randrange(256), make.randrange(5))) for _ in range(make.randrange(60)))
        yield bytes([1, make.randint(3, 11), make.randint(1, 10)]) + bytes(make.choice((make.randrange(256), make.randrange(5))) for _ in range(make.randrange(60)))


def hand_runs(seed=1845):
    """Runs built by hand, each with the length of a buffer: those of both strokes first, by numbers of their own."""
    yield from two_stroke_runs(seed)
    yield from single_runs(random.Random(seed + 1))


def two_stroke_runs(seed):
    """Runs of both strokes built by hand, each with the length of a buffer: fields beyond every limit among them."""
    make = random.Random(seed)
    for _ in range(60):
        run = random_run(make)
        need = len(file_of(run))
        for length in (need, need - 1, need + 3, 0, 3):
            yield run, length
    for m, n in ((0, 1), (2, 1), (12, 1), (3, 0), (3, 11), (2**64 - 1, 1), (3, 2**64 - 1), (2**63, 2**63)):
        run = random_run(make, 3, 1)
        yield run.but(m=m, n=n), 2048
    for _ in range(200):
        run = random_run(make)
        for _ in range(make.randint(1, 3)):
            where = make.randrange(run.m)
            far = make.choice((1, 2, 10**6, 2**40, 2**63 - 1 - Y_LIMIT))
            sign = make.choice((1, -1))
            change = make.randrange(4)
            if change == 0:
                run = with_point(run, where, sign * (X_LIMIT + far))
            elif change == 1:
                run = with_reading(run, (make.randrange(2), make.randrange(run.n), where), sign * (Y_LIMIT + far))
            elif change == 2:
                run = with_point(run, where, run.x[make.randrange(run.m)])
            else:
                place = (make.randrange(2), make.randrange(run.n), where)
                run = with_reading(run, place, run.y[place] + sign * make.choice((SCATTER, SCATTER + 1, 2 * SCATTER)))
        yield run, 2048
    # what stands beyond m and n counts for nothing
    for _ in range(30):
        run = random_run(make, make.randint(3, 10), make.randint(1, 9))
        run = with_point(run, run.m, 10**9)
        run = with_reading(run, (0, run.n, 0), -10**9)
        run = with_reading(run, (1, 0, run.m), 10**9)
        yield run, 2048


# stroke counts that no run has, as far as eight bytes go
NO_STROKES = (0, 3, 4, 5, 255, 256, 257, 258, 2**32 + 1, 2**63, 2**64 - 2, 2**64 - 1)


def unused_rubbish(run, make):
    """A run with an up stroke only with numbers in the unused stroke that no run may have: beyond every limit, apart by more than is allowed, or good ones, which count for nothing either."""
    kind = make.randrange(4)
    far = (Y_LIMIT + 1, -Y_LIMIT - 1, 2**63 - 1, -2**63)
    value = {
        0: lambda place: make.choice(far),
        1: lambda place: make.choice((0, SCATTER + 1, -SCATTER - 1)),
        2: lambda place: max(-Y_LIMIT, min(Y_LIMIT, run.y.get((0, *place[1:]), 0) + make.randint(-50, 50))),
        3: lambda place: make.choice(far) if place[1:] == (0, 0) else 0,
    }[kind]
    places = [(1, c, i) for c in range(CYCLES) for i in range(POINTS)]
    return run.but(y={**run.y, **{place: value(place) for place in places}})


def single_runs(make):
    """Runs with an up stroke only, with rubbish in the unused stroke or without, each with the length of a buffer; one byte less than the file has is 14, though it may be room enough for the file of another stroke count. Then runs of a stroke count that there is not."""
    for which in range(60):
        run = up_only(random_run(make))
        if which % 2:
            run = unused_rubbish(run, make)
        # 8 bytes for a reading, 6 for a point, 3 for the opening and 1 for the close
        need = 4 + 6 * run.m + 8 * run.m * run.n
        for length in (need, need - 1, need + 3, 0, 3, need - 8 * run.m, 2 * need):
            yield run, min(length, 2048)
    for m, n in ((0, 1), (2, 1), (12, 1), (3, 0), (3, 11), (2**64 - 1, 1), (3, 2**64 - 1)):
        yield up_only(random_run(make, 3, 1)).but(m=m, n=n), 2048
    for _ in range(100):
        run = up_only(random_run(make))
        where, c = make.randrange(run.m), make.randrange(run.n)
        far, sign = make.choice((1, 2, 10**6, 2**40, 2**63 - 1 - Y_LIMIT)), make.choice((1, -1))
        changes = (with_point(run, where, sign * (X_LIMIT + far)), with_reading(run, (0, c, where), sign * (Y_LIMIT + far)), with_point(run, where, run.x[make.randrange(run.m)]), with_reading(run, (0, c, where), run.y[0, c, where] + sign * make.choice((SCATTER, SCATTER + 1, 2 * SCATTER))))
        run = make.choice(changes)
        yield make.choice((run, unused_rubbish(run, make))), 2048
    for strokes in NO_STROKES:
        for run in (random_run(make), up_only(random_run(make)), random_run(make, 3, 1).but(m=2), with_point(random_run(make), 0, X_LIMIT + 1)):
            yield run.but(strokes=strokes), 2048
