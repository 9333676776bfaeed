"""Holds what the programs `answers` and `sheet` print of files and of runs built by hand to what second/sheet.py says, byte for byte, and both to the figures of the paper and the Standard."""
import os
from itertools import zip_longest

import make_sheets
import worked_runs
import wrong_sheets
from compare_files import single
from requests import INDICES, SHEET, file_request, lent, run_request
from second import sheet
from second.sheet import NAMES, NEED_STROKES, Answer, Bench, text

# more than any sheet has: none is longer than 831 bytes
ROOM = 900
FOLDER = os.path.join(os.path.dirname(os.path.dirname(os.path.abspath(__file__))), 'runs')

# The fields of a refused index of which nothing stands; under 11 and 12 some do.
NOTHING = {'place': '0', 'width': '0/1', 'slope': '0/1', 'offset': '0/1', 'index': '0/1', 'thousandths': '0'}

# The five linearities, which a run with an up stroke only has, and what it has not.
LINEARITIES = tuple(name for name in NAMES if name not in NEED_STROKES)

# The figures to meet, typed from the paper, and those of zero and front from C-11 and worked by hand in runs/: the sample's sheet, ...
SAMPLE_SHEET = b'''points 3 cycles 2
terminal 97/2000 4.850
shifted 97/4000 2.425
independent 97/4000 2.425
zero 32/969 3.302
front 97/2903 3.341
hysteresis 1/200 0.500
repeatability 9/1000 0.900
lh 13/500 2.600
lhr 61/2000 3.050
line 100/1 -57/1
'''

# ... the sheet of its up stroke alone, in the head: the means are 0, 900, 2000; the lines through the origin and through the first point are one, by two points of the deviation 200/3, ...
SINGLE_SHEET = b'''points 3 cycles 2
terminal 1/20 5.000
shifted 1/40 2.500
independent 1/40 2.500
zero 1/29 3.448
front 1/29 3.448
hysteresis refused 16
repeatability refused 16
lh refused 16
lhr refused 16
line refused 16
'''

# ... fields of the indices of runs, ...
FIGURES = [
    ('a4', 'terminal', {'number': '0', 'index': '69/5015', 'thousandths': '1376'}),
    ('a4', 'shifted', {'number': '0', 'index': '97/10030', 'thousandths': '967'}),
    ('a4', 'independent', {'number': '0', 'index': '9/1010', 'thousandths': '891'}),
    ('a4', 'zero', {'number': '0', 'width': '10/1', 'slope': '200/1', 'offset': '0/1', 'index': '1/100', 'thousandths': '1000'}),
    ('a4', 'front', {'number': '0', 'width': '72/7', 'slope': '1396/7', 'offset': '18/7', 'index': '18/1745', 'thousandths': '1032'}),
    ('a1', 'terminal', {'number': '0', 'index': '206/24985', 'thousandths': '824'}),
    ('a1', 'independent', {'number': '0', 'index': '4/745', 'thousandths': '537'}),
    ('a1', 'zero', {'number': '0', 'width': '28/1', 'slope': '996/1', 'offset': '0/1', 'index': '7/1245', 'thousandths': '562'}),
    ('a1', 'front', {'number': '0', 'width': '137/5', 'slope': '4974/5', 'offset': '3/1', 'index': '137/24870', 'thousandths': '551'}),
    ('lh single', 'lh', {'number': '0', 'place': '0', 'slope': '10/1', 'offset': '6/1', 'index': '3/100'}),
    ('lh not single', 'lh', {**NOTHING, 'number': '12', 'width': '6/1'}),
    ('zeros', 'independent', {'number': '11', **NOTHING}),
    ('zeros', 'zero', {'number': '11', **NOTHING}),
    ('zeros', 'front', {'number': '11', **NOTHING}),
    ('sample', 'terminal', {'number': '0', 'index': '97/2000', 'thousandths': '4850'}),
    ('sample', 'shifted', {'number': '0', 'index': '97/4000', 'thousandths': '2425'}),
    ('sample', 'independent', {'number': '0', 'index': '97/4000', 'thousandths': '2425'}),
    ('sample', 'zero', {'number': '0', 'width': '64/1', 'slope': '969/10', 'offset': '0/1', 'index': '32/969', 'thousandths': '3302'}),
    ('sample', 'front', {'number': '0', 'width': '194/3', 'slope': '2903/30', 'offset': '2/1', 'index': '97/2903', 'thousandths': '3341'}),
    ('sample', 'hysteresis', {'number': '0', 'index': '1/200', 'thousandths': '500'}),
    ('sample', 'repeatability', {'number': '0', 'index': '9/1000', 'thousandths': '900'}),
    ('sample', 'lh', {'number': '0', 'index': '13/500', 'thousandths': '2600'}),
    ('sample', 'lhr', {'number': '0', 'slope': '100/1', 'offset': '-57/1', 'index': '61/2000', 'thousandths': '3050'}),
    # ... of Table C2 of the Standard (C2.1.6.3 to C2.1.6.5), ...
    ('c2', 'independent', {'number': '0', 'thousandths': '167'}),
    ('c2', 'hysteresis', {'number': '0', 'thousandths': '214'}),
    ('c2', 'lh', {'number': '0', 'thousandths': '239'}),
    # ... of a4 seen in a mirror, which are those of a4 but for the lines through a point at one side, of the three halves that C-12 names, ...
    ('a4 falling', 'terminal', {'number': '0', 'index': '69/5015', 'thousandths': '1376'}),
    ('a4 falling', 'shifted', {'number': '0', 'index': '97/10030', 'thousandths': '967'}),
    ('a4 falling', 'independent', {'number': '0', 'index': '9/1010', 'thousandths': '891'}),
    ('a4 falling', 'zero', {'number': '0', 'width': '1004/1', 'slope': '201/1', 'offset': '0/1', 'index': '1004/1005', 'thousandths': '99900'}),
    ('a4 falling', 'front', {'number': '0', 'width': '69/7', 'slope': '-1418/7', 'offset': '9853/7', 'index': '69/7090', 'thousandths': '973'}),
    ('half', 'terminal', {'number': '0', 'index': '1/200000', 'thousandths': '0'}),
    ('one and a half', 'terminal', {'number': '0', 'index': '3/200000', 'thousandths': '2'}),
    ('two and a half', 'terminal', {'number': '0', 'index': '1/40000', 'thousandths': '2'}),
    # ... and of lines through the origin and the first point, in the head: a value at input zero that decides, a negative input, slope zero.
    ('value 9 at zero', 'zero', {'number': '0', 'width': '10/1', 'slope': '10/1', 'offset': '0/1', 'index': '1/20', 'thousandths': '5000'}),
    ('value 10 at zero', 'zero', {'number': '0', 'width': '10/1', 'slope': '10/1', 'offset': '0/1', 'index': '1/20', 'thousandths': '5000'}),
    ('value 11 at zero', 'zero', {**NOTHING, 'number': '12', 'width': '11/1'}),
    ('value 50 at zero', 'zero', {**NOTHING, 'number': '12', 'width': '50/1'}),
    ('negative', 'zero', {'number': '15', **NOTHING}),
    ('negative', 'front', {'number': '0', 'width': '4/3', 'slope': '149/15', 'offset': '13/3', 'index': '1/149', 'thousandths': '671'}),
    ('negative and level', 'zero', {'number': '15', **NOTHING}),
    ('negative and not single', 'zero', {'number': '15', **NOTHING}),
    ('front level', 'front', {**NOTHING, 'number': '11', 'width': '10/1', 'offset': '100/1'}),
    ('front level', 'independent', {'number': '0', 'slope': '-1/2'}),
] + [(name, index, {'number': '13', **NOTHING}) for name in ('a1', 'a4', 'c2') for index in ('repeatability', 'lhr')]

# The named runs whose strokes are not alike: of every other one the up stroke alone has the same means, and so the same linearities.
STROKES_DIFFER = ('sample', 'c2', 'lh single', 'lh not single')
FIGURES += [(name + ', up only', index, fields) for name, index, fields in FIGURES if index in LINEARITIES and name not in STROKES_DIFFER]
# Of the up stroke alone: the sample in the head, where T that is not twice U gives half of each; and 16, whatever 13, 12 and 11 have to say: a1 has one cycle, zeros slope zero, and both strokes of the fourth several lines.
FIGURES += [
    ('sample, up only', 'terminal', {'number': '0', 'width': '100/1', 'slope': '100/1', 'offset': '0/1', 'index': '1/20', 'thousandths': '5000'}),
    ('sample, up only', 'shifted', {'number': '0', 'width': '50/1', 'slope': '100/1', 'offset': '-50/1', 'index': '1/40', 'thousandths': '2500'}),
    ('sample, up only', 'independent', {'number': '0', 'width': '50/1', 'slope': '100/1', 'offset': '-50/1', 'index': '1/40', 'thousandths': '2500'}),
    ('sample, up only', 'zero', {'number': '0', 'width': '200/3', 'slope': '290/3', 'offset': '0/1', 'index': '1/29', 'thousandths': '3448'}),
    ('sample, up only', 'front', {'number': '0', 'width': '200/3', 'slope': '290/3', 'offset': '0/1', 'index': '1/29', 'thousandths': '3448'}),
] + [(name + ', up only', index, {'number': '16', **NOTHING}) for name in ('sample', 'a1', 'zeros', 'lh not single') for index in NEED_STROKES]

# The limits: the first line of the file's sheet, and number and place of every calculation of the run built by hand.
LIMITS = [
    ('m of 2', 'refused 3 at 0', '3 0'),
    ('m of 3', 'points 3 cycles 2', '0 0'),
    ('m of 11', 'points 11 cycles 2', '0 0'),
    ('m of 12', 'refused 3 at 0', '3 0'),
    ('x of 30000', 'points 3 cycles 1', '0 0'),
    ('x of 30001', 'refused 5 at 15', '5 2'),
    ('scatter of 10000', 'points 3 cycles 2', '0 0'),
    ('scatter of 10001', 'refused 10 at 1', '10 1'),
]
LIMITS += [(name + ', up only', first, verdict) for name, first, verdict in LIMITS]

# The means of the sample, in the head: U is 0, 1800, 4000 and D is 8, 1820, 4008.
SAMPLE_MEANS = ['averages 0 0', 'up 0/1 900/1 2000/1' + 8 * ' 0/1', 'down 4/1 910/1 2004/1' + 8 * ' 0/1', 'both 2/1 905/1 2002/1' + 8 * ' 0/1']
# Those of its up stroke alone: T is 0, 3600, 8000, by 4.
SINGLE_MEANS = ['averages 0 0', 'up 0/1 900/1 2000/1' + 8 * ' 0/1', 'down' + 11 * ' 0/1', 'both 0/1 900/1 2000/1' + 8 * ' 0/1']

# Which numbers each index is to have been answered with.
DUE_NUMBERS = {name: (0, 3, 5, 9, 10, 11) for name in NAMES}
DUE_NUMBERS['zero'] += (12, 15)
DUE_NUMBERS['repeatability'] += (13,)
DUE_NUMBERS['lh'] += (12,)
DUE_NUMBERS['lhr'] += (12, 13)
# The same of runs with an up stroke only: what they have not is refused by 16 and by nothing behind it.
SINGLE_NUMBERS = {name: (3, 5, 9, 10, 16) if name in NEED_STROKES else DUE_NUMBERS[name] for name in NAMES}
for name in NEED_STROKES:
    DUE_NUMBERS[name] += (16,)


def buffer_lines(due, room):
    """What is due of a sheet in a lent buffer: the sheet at its front, or 14 and nothing touched."""
    before = lent(room)
    if len(due) > room:
        return ['sheet 14 0', before.hex()]
    return ['sheet 0 %d' % len(due), (due + before[len(due):]).hex()]


def fractions_line(name, values):
    return ' '.join([name] + [text(v) for v in values])


def answer_line(name, answer):
    fractions = [text(v) for v in (answer.width, answer.slope, answer.offset, answer.index)]
    return ' '.join([name, str(answer.number), str(answer.place)] + fractions + [str(answer.thousandths)])


def run_lines(bench):
    means = bench.averages()
    out = ['averages %d %d' % (means.number, means.place)]
    out += [fractions_line(name, getattr(means, name)) for name in ('up', 'down', 'both')]
    return out + [answer_line(name, answer) for name, answer in zip(NAMES, bench.answers)]


class Benches:
    """Works each run once, though it comes as a file and as a run built by hand."""

    def __init__(self):
        self.worked = {}

    def __call__(self, run, data=b''):
        key = run.m, run.n, run.strokes, tuple(run.inputs()), tuple(run.readings())
        if key not in self.worked:
            self.worked[key] = Bench(run, data)
        return self.worked[key]


class Case:
    """One request: what it is of, its bytes and the lines due."""

    def __init__(self, what, request, due):
        self.what, self.request, self.due = what, request, due


def file_case(name, data, due, room=ROOM):
    return Case('file %s with room %d' % (name, room), file_request(SHEET, data, room), buffer_lines(due, room))


def tight_cases(files, dues):
    """Every fiftieth file with a buffer that just holds its sheet, one byte less, one more, and none."""
    for (name, data), due in list(zip(files, dues))[::50]:
        for room in (len(due), len(due) - 1, len(due) + 1, 0):
            yield file_case(name, data, due, room)


def readable(part):
    return part is None or all(byte < 128 for byte in part)


def sheet_difference(got, due):
    """The first difference of two sheets in words: a line of them, or a byte where there is none to read, as behind a sheet in its buffer."""
    for at, (printed, right) in enumerate(zip_longest(got.split(b'\n'), due.split(b'\n')), 1):
        if printed != right and readable(printed) and readable(right):
            shown = [None if part is None else part.decode('ascii') for part in (printed, right)]
            return 'line %d of the sheet: printed %r, due %r' % (at, *shown)
    return next('byte %d: printed %r, due %r' % (at, printed, right) for at, (printed, right) in enumerate(zip_longest(got, due)) if printed != right)


def is_hex(line):
    return len(line) % 2 == 0 and all(c in '0123456789abcdef' for c in line)


def difference(case, got):
    """The first difference between what a request printed and what is due, in words."""
    for at, (printed, right) in enumerate(zip_longest(got, case.due), 1):
        if printed == right:
            continue
        if at == 2 and case.due[0].startswith('sheet') and printed is not None and is_hex(printed):
            return '%s, %s' % (case.what, sheet_difference(bytes.fromhex(printed), bytes.fromhex(right)))
        return '%s, line %d: printed %.300r, due %.300r' % (case.what, at, printed, right)
    return None


def compare_cases(cases, printed):
    """Returns what was printed for each case up to the first that differs, and that difference."""
    at, answers = 0, []
    for case in cases:
        got = printed[at:at + len(case.due)]
        at += len(case.due)
        fault = difference(case, got)
        if fault:
            return answers, ['answers of ' + fault]
        answers.append(got)
    return answers, [] if printed[at:] == [''] else ['answers printed more than is due: %r' % printed[at:][:2]]


def figure_faults(who, sheets, runs):
    """Where a program is not what the paper says, by its sheets (bytes by file name) and its lines (by run name)."""
    if sheets['sample'] != SAMPLE_SHEET:
        yield '%s prints another sheet of the sample than the paper' % who
    if sheets['sample, up only'] != SINGLE_SHEET:
        yield '%s prints another sheet of the up stroke of the sample than is worked here' % who
    for name, means in (('sample', SAMPLE_MEANS), ('sample, up only', SINGLE_MEANS)):
        if runs[name][:4] != means:
            yield '%s has other means of %s: %r' % (who, name, runs[name][:4])
    for name, index, fields in FIGURES:
        line = next(line for line in runs[name] if line.startswith(index + ' '))
        found = dict(zip(Answer._fields, line.split(' ')[1:]))
        for field, right in fields.items():
            if found[field] != right:
                yield '%s gives %s %s of %s as %s, where %s is the figure' % (who, index, field, name, found[field], right)
    for name, first, verdict in LIMITS:
        if sheets[name].decode('ascii').split('\n')[0] != first:
            yield '%s begins the sheet of %s with %r, where %r is due' % (who, name, sheets[name].decode('ascii').split('\n')[0], first)
        for line in [runs[name][0]] + runs[name][4:]:
            number, place = line.split(' ')[1:3]
            # slope zero, one cycle and, where there is one, an up stroke only are no matter of limits
            passed = ('11', '12', '13', '16') if 'up only' in name else ('11', '12', '13')
            if '%s %s' % (number, place) != verdict and not (verdict == '0 0' and number in passed):
                yield '%s gives %r of %s, where number and place are %s' % (who, line, name, verdict)


def printed_sheet(got):
    """The sheet at the front of a printed buffer."""
    return bytes.fromhex(got[1])[:int(got[0].split(' ')[2])]


def named_files(files):
    """The first file of a name, its shuffle left out of the name."""
    return {name.split(', shuffled')[0]: which for which, (name, _) in reversed(list(enumerate(files)))}


def refusals_on(due):
    """The refusals of one sheet: 1 to 10 as the only line, 11 to 13, 15 and 16 in the line of an index. 14 is the writer's."""
    fields = [line.split(' ') for line in due.decode('ascii').split('\n')[:-1]]
    if fields[0][0] == 'refused':
        return {int(fields[0][1])}
    return {int(line[2]) for line in fields if line[0] in NAMES and line[1] == 'refused'}


def refusals_met(dues):
    """How many sheets had each refusal."""
    met = dict.fromkeys((*range(1, 14), 15, 16), 0)
    for due in dues:
        for number in refusals_on(due):
            met[number] += 1
    return met


def halves_on(due):
    """The lines of a sheet whose percent was a half, each with the kind of whole number that the half lies below."""
    met = {}
    for name, index, *_ in (line.split(' ') for line in due.decode('ascii').split('\n') if '/' in line):
        num, den = map(int, index.split('/'))
        # an index is a half where it is an odd number of halves of a thousandth of one percent
        halves, rest = divmod(200000 * num, den)
        if name in NAMES and rest == 0 and halves % 2:
            met[name] = 'even' if halves % 4 == 3 else 'odd'
    return met


def halves_met(dues):
    """How many sheets have a half of each kind, and how often each line of a sheet was one."""
    met = {kind: dict.fromkeys(('sheets',) + NAMES, 0) for kind in ('even', 'odd')}
    for found in map(halves_on, dues):
        for name, kind in found.items():
            met[kind][name] += 1
        for kind in set(found.values()):
            met[kind]['sheets'] += 1
    return met


def half_faults(files, dues, met):
    """Both ways of rounding a half are to be met on 200 sheets each and on each of the nine lines, and a file that is named for its half has it."""
    for kind, counts in met.items():
        if counts['sheets'] < 200:
            yield 'only %d sheets have a half below an %s' % (counts['sheets'], kind)
        yield from ('no %s was a half below an %s' % (name, kind) for name in NAMES if not counts[name])
    for (what, _), due in zip(files, dues):
        if what.startswith('half of '):
            _, _, name, _, kind, *_ = what.split(' ')
            if halves_on(due).get(name) != kind:
                yield 'the file %s has no such half' % what


def numbers_met(benches):
    """How often each index was answered with each number."""
    met = {name: {} for name in NAMES}
    for bench in benches:
        for name, answer in zip(NAMES, bench.answers):
            met[name][answer.number] = met[name].get(answer.number, 0) + 1
    return met


def counts_text(counts):
    return ', '.join('%s: %d' % item for item in sorted(counts.items()))


def program_files(files, dues):
    """Nearly sixty files for the program itself: named ones, one of each refusal, shuffled ones, and two of 5,000 bytes; the same of an up stroke only."""
    chosen = ['sample', 'a1', 'a4', 'c2', 'lh single', 'lh not single', 'zeros', 'a4 falling', 'half', 'one and a half', 'two and a half', 'value 10 at zero', 'value 11 at zero', 'negative', 'front level', 'empty', 'widest scatter, 10 cycles, 1', 'longest with 1000 bytes behind', 'rubbish of 4096 bytes']
    chosen += ['sample, up only', 'a1, up only', 'zeros, up only', 'value 11 at zero, up only', 'negative, up only', 'sample, up only, with a down reading', 'sample, up only, opened as both strokes', 'sample opened as an up stroke only', 'longest, up only, with 1000 bytes behind']
    where = named_files(files)
    picked = [where[name] for name in chosen]
    for number in range(1, 11):
        of_number = [which for which, due in enumerate(dues) if due.startswith(b'refused %d at ' % number)]
        picked += [next(which for which in of_number if single(files[which][1]) == only) for only in (False, True)]
    shuffles = [which for which, (name, _) in enumerate(files) if name.endswith(', shuffled')]
    picked += shuffles[:: len(shuffles) // 6]
    out = [(files[which][0], files[which][1], dues[which]) for which in picked]
    for name in ('sample', 'longest without its close', 'sample, up only'):
        data = files[where[name]][1]
        long = data + bytes(5000 - len(data))
        out.append((name + ' filled up to 5000 bytes', long, sheet.sheet(long)))
    return out


def compare_program(run, chosen):
    """The program `sheet` itself, a file on its standard input."""
    for name, data, due in chosen:
        got = run('sheet', data)
        if got != due:
            yield 'sheet of file %s: %s' % (name, sheet_difference(got, due))


def worked_faults():
    """The runs worked by hand: the run file has the numbers of the text, and the second program makes the worked sheet of it."""
    for name in worked_runs.names(FOLDER):
        data, due = worked_runs.part(FOLDER, name, '.run'), worked_runs.part(FOLDER, name, '.sheet')
        if data != worked_runs.file_of_text(FOLDER, name):
            yield 'the run %s does not have the numbers of its text' % name
        if sheet.sheet(data) != due:
            yield 'the second program differs from the worked sheet of %s: %s' % (name, sheet_difference(sheet.sheet(data), due))


def missing(met, per_index, per_single):
    for number, count in met.items():
        if not count:
            yield 'no sheet had refusal %d' % number
    for name in NAMES:
        yield from ('no %s was answered with %d' % (name, number) for number in DUE_NUMBERS[name] if not per_index[name].get(number))
        yield from ('no %s of an up stroke only was answered with %d' % (name, number) for number in SINGLE_NUMBERS[name] if not per_single[name].get(number))
        yield from ('%s of an up stroke only was answered with %d' % (name, number) for number in per_single[name] if number not in SINGLE_NUMBERS[name])


def with_both_strokes(run):
    """A run with an up stroke only that is walked down as it was walked up."""
    return run.but(strokes=2, y={(s, c, i): y for (way, c, i), y in run.y.items() if way == 0 for s in (0, 1)})


def told_alike(bench):
    """What is the same of an up stroke only and of both strokes alike."""
    means = bench.averages()
    return means.number, means.place, means.up, means.both, [bench.answer(name) for name in LINEARITIES]


def single_faults(runs, lines, worked):
    """What is known of an up stroke only without working it: its linearities, and both its means, are those of both strokes alike, which every third run is tried for; and rubbish in the unused stroke changes nothing."""
    by_name = {name: told for (name, _), told in zip(runs, lines)}
    for which, ((name, run), told, bench) in enumerate(zip(runs, lines, worked)):
        if bench.single() and which % 3 == 0 and told_alike(bench) != told_alike(Bench(with_both_strokes(run))):
            yield 'the second program has other linearities of run %s than of both strokes alike' % name
        # the name tells the run that it is the same as
        if 'unused' in name and told != by_name[name.split(', with ')[0]]:
            yield 'the second program answers otherwise of run %s than without' % name


def own_faults(files, dues, runs, due_lines, worked):
    """What can be held against the second program without any other."""
    where = named_files(files)
    yield from figure_faults('the second program', {name: dues[which] for name, which in where.items()}, {name: lines for (name, _), lines in zip(runs, due_lines)})
    yield from worked_faults()
    yield from single_faults(runs, due_lines, worked)


class Material:
    """The files and runs with what the second program says of them."""

    def __init__(self):
        benches = Benches()
        self.files, self.runs = list(make_sheets.files()), list(make_sheets.hand_runs())
        self.dues = [sheet.sheet(data, benches) for _, data in self.files]
        self.worked = [benches(run) for _, run in self.runs]
        self.lines = [run_lines(bench) for bench in self.worked]

    def cases(self):
        """The files first, in their order, then the runs in theirs, then the files with tight buffers."""
        out = [file_case(name, data, due) for (name, data), due in zip(self.files, self.dues)]
        out += [Case('run ' + name, run_request(INDICES, run, 0), lines) for (name, run), lines in zip(self.runs, self.lines)]
        return out + list(tight_cases(self.files, self.dues))

    def met(self):
        """The refusals on sheets, the numbers of each index, and the same of runs with an up stroke only."""
        return refusals_met(self.dues), numbers_met(self.worked), numbers_met(bench for bench in self.worked if bench.single())


def compare(run):
    made = Material()
    cases, chosen = made.cases(), program_files(made.files, made.dues)
    printed = run('answers', b''.join(case.request for case in cases)).decode('ascii', 'replace').split('\n')
    answers, wrong = compare_cases(cases, printed)
    if not wrong:
        count = len(made.files)
        sheets = {name: printed_sheet(answers[which]) for name, which in named_files(made.files).items()}
        runs = {name: lines for (name, _), lines in zip(made.runs, answers[count:])}
        wrong += figure_faults('answers', sheets, runs)
    wrong += compare_program(run, chosen)
    wrong += own_faults(made.files, made.dues, made.runs, made.lines, made.worked)
    met, per_index, per_single = made.met()
    wrong += missing(met, per_index, per_single)
    halves = halves_met(made.dues)
    wrong += half_faults(made.files, made.dues, halves)
    more, told = wrong_sheets.told_apart(made.files, made.dues)
    more_runs, told_runs = wrong_sheets.runs_told_apart(made.runs, made.lines, run_lines)
    first = ['sheets: %d files, %d runs built by hand, %d files by the program itself' % (len(made.files), len(made.runs), len(chosen))]
    first += ['of an up stroke only: %d files, %d runs built by hand' % (sum(single(data) for _, data in made.files), sum(run.strokes == 1 for _, run in made.runs))]
    first += ['refusals met on sheets: ' + counts_text(met)]
    first += ['%s met: %s' % (name, counts_text(per_index[name])) for name in NAMES]
    first += ['%s of an up stroke only met: %s' % (name, counts_text(per_single[name])) for name in NAMES]
    first += ['halves below an %s met on %d sheets: %s' % (kind, counts['sheets'], ', '.join('%s %d' % (name, counts[name]) for name in NAMES)) for kind, counts in halves.items()]
    return len(cases) + len(chosen), wrong + more + more_runs, first + told + told_runs
