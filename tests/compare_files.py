"""Holds what the program `answers` prints of run files and of runs built by hand to what second/runfile.py says, byte for byte."""
from itertools import zip_longest

import make_files
from requests import CLOSE, READ, WRITE, file_request, lent, run_request
from second import runfile

ROOM = 1840


def write_lines(run, room):
    (number, place, written), buffer = runfile.written(run, lent(room))
    return ['write %d %d %d' % (number, place, written), buffer.hex()]


def run_lines(run):
    return ['run %d %d %d' % (run.m, run.n, run.strokes), 'x ' + ' '.join(map(str, run.inputs())), 'y ' + ' '.join(map(str, run.readings()))]


def file_lines(data, room=ROOM):
    number, place, run = runfile.answer(data)
    return ['read %d %d' % (number, place)] + run_lines(run) + (write_lines(run, room) if number == 0 else [])


def close_lines(data):
    number, place, end, run = runfile.to_close(data)
    return ['close %d %d %d' % (number, place, end)] + run_lines(run)


def paired_by_place(data):
    """What the old program did: the jth up reading in the file belongs with the jth down reading, whatever their own numbers say."""
    number, place, run = runfile.answer(data)
    if number:
        return number, place, run
    readings = {0: [], 1: []}
    for _, kind, body in runfile.records(data):
        if kind == 3:
            readings[body[0]].append(runfile.value_of(kind, body))
    paired = {(s, j // run.m, j % run.m): y for s in (0, 1) for j, y in enumerate(readings[s])}
    return 0, 0, run.but(y=paired)


def single(data):
    """Whether a file is opened as one of a run with an up stroke only."""
    return data[:1] == b'\5'


# Wrong readers of files of an up stroke only: each gives number, place and run.

def knows_no_five(data):
    """What the program did before C-13."""
    return (2, 0, runfile.NO_RUN) if single(data) else runfile.answer(data)


def drops_down_stroke(data):
    """The readings of the down stroke are left out, where 4 is due."""
    if not single(data):
        return runfile.answer(data)
    kept = [bytes([kind]) + body for _, kind, body in runfile.records(data) if body is not None and not (kind == 3 and body[0] == 1)]
    return runfile.answer(b''.join(kept))


def wants_down_stroke(data):
    """A file of an up stroke only is whole with both strokes alone."""
    number, place, run = runfile.answer(data)
    return (7, len(data) - 1, runfile.NO_RUN) if single(data) and number == 0 else (number, place, run)


def fills_down_stroke(data):
    """The up readings stand in the unused stroke too."""
    number, place, run = runfile.answer(data)
    return (0, 0, run.but(y={(s, c, i): y for (_, c, i), y in run.y.items() for s in (0, 1)})) if single(data) and number == 0 else (number, place, run)


def forgets_strokes(data):
    """Every run that is read has two strokes."""
    number, place, run = runfile.answer(data)
    return (number, place, run) if number else (0, 0, run.but(strokes=2))


def two_strokes_of_nothing(data):
    """The run of a refused file has two strokes, though no point and no cycle."""
    number, place, run = runfile.answer(data)
    return number, place, run.but(strokes=2) if number else run


def takes_later_opening(kind):
    """A reader that passes over a later opening of this kind."""
    def read(data):
        number, place, run = runfile.answer(data)
        if number == 2 and place and data[place] == kind:
            return runfile.answer(data[:place] + data[place + 3:])
        return number, place, run
    return read


def in_full(answered):
    """What a reader answers, in full."""
    number, place, run = answered
    return number, place, run.m, run.n, run.strokes, run.inputs(), run.readings()


WRONG_READERS = (
    ('a reader that knows no kind 5', knows_no_five),
    ('a reader that leaves out a down stroke that the run has not', drops_down_stroke),
    ('a reader that wants the down stroke of every file', wants_down_stroke),
    ('a reader that puts the up readings into the unused stroke', fills_down_stroke),
    ('a reader that forgets the stroke count', forgets_strokes),
    ('a reader whose refused run has two strokes', two_strokes_of_nothing),
    ('a reader that passes over a later opening of kind 5', takes_later_opening(5)),
    ('a reader that passes over a later opening of kind 1', takes_later_opening(1)),
)


# Wrong writers: each gives the buffer afterwards.

def down_stroke_rising(run, before):
    """A wrong writer: the down stroke's records stand as the up stroke's do, the lowest input first."""
    (number, _, length), buffer = runfile.written(run, before)
    if number:
        return buffer
    middle = runfile.travel(run)[:run.m]
    for c in range(run.n):
        for s in range(run.strokes):
            middle += [runfile.reading_record(s, c, i, run.y.get((s, c, i), 0)) for i in range(run.m)]
    return runfile.framed(run.m, run.n, middle, run.strokes) + buffer[length:]


def put(data, before):
    return data + before[len(data):] if len(data) <= len(before) else before


def good_single(run):
    return run.strokes == 1 and runfile.verdict(run)[0] == 0


def four_bytes(run):
    """The run with every reading held to what a file can say."""
    return run.but(y={place: max(-2**31, min(2**31 - 1, y)) for place, y in run.y.items()})


def writes_unused_stroke(run, before):
    """Opening kind 5, and the records of both strokes."""
    if not good_single(run):
        return runfile.written(run, before)[1]
    return put(runfile.framed(run.m, run.n, runfile.travel(four_bytes(run).but(strokes=2)), 1), before)


def writes_kind_one(run, before):
    """The records are right, and the kind of the opening is not kept."""
    if not good_single(run):
        return runfile.written(run, before)[1]
    return put(runfile.framed(run.m, run.n, runfile.travel(run), 2), before)


def writes_both_strokes(run, before):
    """A whole file of two strokes, the unused one as the second."""
    if not good_single(run):
        return runfile.written(run, before)[1]
    return put(runfile.file_of(four_bytes(run).but(strokes=2)), before)


def asks_room_for_both(run, before):
    """14 where a file of both strokes had no room."""
    if good_single(run) and len(before) < 4 + 6 * run.m + 16 * run.m * run.n:
        return before
    return runfile.written(run, before)[1]


def checks_unused_stroke(run, before):
    """The unused stroke is held to the limits and to the scatter."""
    if run.strokes == 1 and runfile.verdict(run.but(strokes=2))[0]:
        return before
    return runfile.written(run, before)[1]


def takes_any_strokes(run, before):
    """A stroke count that there is not is taken for two strokes."""
    return runfile.written(run if run.strokes == 1 else run.but(strokes=2), before)[1]


WRONG_WRITERS = (
    ('a writer that touches nothing', lambda run, before: before),
    ('a writer of a rising down stroke', down_stroke_rising),
    ('a writer of the unused stroke behind opening kind 5', writes_unused_stroke),
    ('a writer that does not keep the kind', writes_kind_one),
    ('a writer of both strokes of every run', writes_both_strokes),
    ('a writer that asks room for both strokes of every run', asks_room_for_both),
    ('a writer that checks the unused stroke', checks_unused_stroke),
    ('a writer that takes any stroke count for two', takes_any_strokes),
)


def first_told(reader, files, rights):
    """The number of the first file at which a wrong reader differs from ours; None if there is none."""
    return next((which for which, (data, right) in enumerate(zip(files, rights)) if in_full(reader(data)) != right), None)


def told_apart(files, runs):
    """For each wrong method the first file or run at which it differs; sentences, and what was not told apart."""
    wrong, told_of = [], []
    rights = [in_full(runfile.answer(data)) for data in files]
    for name, reader in (('a reader that pairs by place in the file', paired_by_place), *WRONG_READERS):
        which = first_told(reader, files, rights)
        if which is None:
            wrong.append('no file tells %s from ours' % name)
        else:
            told_of.append('%s differs at file %d, %s' % (name, which, files[which][:40].hex() + '..'))
    for name, writer in WRONG_WRITERS:
        for which, (run, room) in enumerate(runs):
            before = lent(room)
            if runfile.written(run, before)[1] != writer(run, before):
                told_of.append('%s differs at run %d, of %d points and %d cycles' % (name, which, run.m, run.n))
                break
        else:
            wrong.append('no run tells %s from ours' % name)
    return wrong, told_of


def length_faults(runs):
    """The second program writes as many bytes as are known beforehand: 3 for the opening, 6 for a point, 8 for a reading, 1 for the close."""
    for which, (run, room) in enumerate(runs):
        (number, _, length), _ = runfile.written(run, lent(room))
        if number == 0 and length != 4 + 6 * run.m + (8 if run.strokes == 1 else 16) * run.m * run.n:
            yield 'the second program writes %d bytes of run %d, of %d points, %d cycles and %d strokes' % (length, which, run.m, run.n, run.strokes)


def round_trip(run, due, printed):
    """The files that the built writer wrote, read by the built reader: each gives the run that was written."""
    wrong, requests, expected, at = [], [], [], 0
    for lines in due:
        got = printed[at:at + len(lines)]
        at += len(lines)
        if lines[0] == 'read 0 0':
            length = int(got[4].split()[3])
            requests.append(file_request(READ, bytes.fromhex(got[5])[:length], ROOM))
            expected += lines
    if run('answers', b''.join(requests)).decode('ascii').split('\n') != expected + ['']:
        wrong.append('a written file is not read back as the run that was written')
    return len(requests), wrong


# What is to be answered at least once, by what is asked; the same of files that are opened as those of an up stroke only, and of such runs.
DUE_NUMBERS = {'read': range(0, 11), 'write': (0, 3, 5, 9, 10, 14), 'close': (0, 1, 2, 3, 4, 5, 6, 7, 9, 10)}


def compare(run):
    files = [data for data in make_files.files() if len(data) <= 4096]
    runs = list(make_files.hand_runs())
    closes = [data for data in files + [data + more for data in files[::7] for more in (b'\0', data[:40])] if len(data) <= 4096]
    due = [file_lines(data) for data in files] + [write_lines(*made) for made in runs] + [close_lines(data) for data in closes]
    requests = [file_request(READ, data, ROOM) for data in files] + [run_request(WRITE, *made) for made in runs]
    requests += [file_request(CLOSE, data, ROOM) for data in closes]
    singles = [single(data) for data in files] + [made.strokes == 1 for made, _ in runs] + [single(data) for data in closes]
    printed = run('answers', b''.join(requests)).decode('ascii').split('\n')
    wrong, met, at = [], {}, 0
    for which, lines in enumerate(due):
        got = printed[at:at + len(lines)]
        at += len(lines)
        if got != lines:
            which -= len(files)
            what = 'file %d, %s' % (which + len(files), files[which][:60].hex()) if which < 0 else 'run %d' % which if which < len(runs) else 'file up to its close %d, %s' % (which - len(runs), closes[which - len(runs)][:60].hex())
            line, right = next(pair for pair in zip_longest(got, lines, fillvalue='nothing') if pair[0] != pair[1])
            wrong.append('answers of %s: printed %r, due %r' % (what, line[:80], right[:80]))
            break
        name, number = lines[0].split()[0], int(lines[0].split()[1])
        for kind in (name, name + ' of an up stroke only')[:1 + singles[which]]:
            met.setdefault(kind, {}).setdefault(number, 0)
            met[kind][number] += 1
    if not wrong and printed[at:] != ['']:
        wrong.append('answers printed more than is due')
    for name, numbers in DUE_NUMBERS.items():
        for kind in (name, name + ' of an up stroke only'):
            wrong += ['no %s was answered with %d' % (kind, number) for number in numbers if not met.get(kind, {}).get(number)]
    wrong += length_faults(runs)
    trips = 0
    if not wrong:
        trips, wrong = round_trip(run, due, printed)
    more, told = told_apart(files, runs)
    told.append('%d files of the built writer were read back as the runs that were written' % trips)
    told.append('runs of a stroke count that there is not: %d' % sum(made.strokes not in (1, 2) for made, _ in runs))
    told = ['%s met: ' % name + ', '.join('%d: %d' % item for item in sorted(met[name].items())) for name in sorted(met)] + told
    return len(due) + trips, wrong + more, told
