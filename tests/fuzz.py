"""`make fuzz SEED=S COUNT=N FROM=K` holds the program `answers` to the second program, byte for byte, on the N cases of the seed S from number K on. The first difference is told whole, with what repeats it, and the status is then 1. At the end the counts are printed, one figure to a line."""
import sys
import time
from collections import Counter
from concurrent.futures import ProcessPoolExecutor
from functools import partial

from compare_files import file_lines, write_lines
from compare_sheets import buffer_lines, refusals_on, run_lines
from gate import run
from make_fuzz import KINDS, asked
from requests import INDICES, READ, SHEET, WRITE, file_request, run_request
from second import runfile, sheet
from second.sheet import Bench

# the most that `answers` lends
ROOM = 2048
# so many cases go to the program at once: it is started anew for each lot
LOT = 250
NUMBERS = range(1, 17)


def room_for(slack, length):
    return ROOM if slack is None else max(0, min(ROOM, length + slack))


class Case:
    """What is asked by one number of a seed, the request, the lines due and the refusals met."""

    def __init__(self, seed, number):
        self.seed, self.number = seed, number
        self.asked = asked(seed, number)
        answer = {READ: self.read, WRITE: self.write, SHEET: self.sheet, INDICES: self.indices}[self.asked.kind]
        answer(self.asked.given)

    def read(self, data):
        self.room = room_for(self.asked.slack, len(data))
        self.request = file_request(READ, data, self.room)
        self.due = file_lines(data, self.room)
        self.met = {int(line.split(' ')[1]) for line in self.due if line.startswith(('read', 'write'))}

    def write(self, made):
        length = 0 if runfile.verdict(made)[0] else len(runfile.file_of(made))
        self.room = room_for(self.asked.slack, length)
        self.request = run_request(WRITE, made, self.room)
        self.due = write_lines(made, self.room)
        self.met = {int(self.due[0].split(' ')[1])}

    def sheet(self, data):
        due = sheet.sheet(data)
        self.room = room_for(self.asked.slack, len(due))
        self.request = file_request(SHEET, data, self.room)
        self.due = buffer_lines(due, self.room)
        self.met = refusals_on(due) if len(due) <= self.room else {14}

    def indices(self, made):
        bench = Bench(made)
        self.room = 0
        self.request = run_request(INDICES, made, 0)
        self.due = run_lines(bench)
        self.met = {answer.number for answer in bench.answers}

    def told(self):
        """What was asked, in full."""
        given = self.asked.given
        yield '%s with room %d' % (KINDS[self.asked.kind], self.room)
        if self.asked.kind in (READ, SHEET):
            yield 'file ' + given.hex()
            return
        yield 'points %d cycles %d strokes %d' % (given.m, given.n, given.strokes)
        yield ' '.join(map(str, ['inputs', *given.inputs()]))
        yield ' '.join(map(str, ['readings', *given.readings()]))


def made(seed, number):
    try:
        return Case(seed, number)
    except Exception as fault:
        raise RuntimeError('no answer by the second program to case %d of seed %d' % (number, seed)) from fault


def printed_for(cases):
    """What `answers` prints for these cases, and what it says on standard error."""
    printed, said = run('answers', b''.join(case.request for case in cases), errors=True)
    return (printed + said).decode('ascii', 'replace')


def due_of(cases):
    return ''.join(line + '\n' for case in cases for line in case.due)


def difference(case, printed):
    """A case that differs, in lines that say all that is needed to repeat it."""
    out = ['DISAGREES: case %d of seed %d' % (case.number, case.seed), *case.told()]
    out += ['printed ' + line for line in printed.split('\n')[:-1]]
    out += ['due ' + line for line in case.due]
    return out + ['again: make fuzz SEED=%d COUNT=1 FROM=%d' % (case.seed, case.number)]


def first_difference(cases):
    """The first case that differs when it is asked alone."""
    for case in cases:
        printed = printed_for([case])
        if printed != due_of([case]):
            return difference(case, printed)
    return ['DISAGREES: cases %d to %d of seed %d' % (cases[0].number, cases[-1].number, cases[0].seed), 'each agrees alone, and together they do not']


def compare_lot(seed, numbers):
    """How many cases were of each kind, how many met each refusal, with 0 for none at all, and the first difference."""
    cases = [made(seed, number) for number in numbers]
    kinds = Counter(case.asked.kind for case in cases)
    met = Counter(number for case in cases for number in case.met - {0} or {0})
    return kinds, met, [] if printed_for(cases) == due_of(cases) else first_difference(cases)


def tell(kinds, met, seconds):
    """The counts, one figure to a line."""
    for kind, name in KINDS.items():
        print('%s %d' % (name, kinds[kind]))
    print('without refusal %d' % met[0])
    for number in NUMBERS:
        print('refusal %d met %d' % (number, met[number]))
    print('seconds %d' % seconds)
    print('an hour %d' % (sum(kinds.values()) * 3600 / max(seconds, 0.001)))


def fuzz(seed, count, first, workers):
    """Compares the cases by lots, in order, and returns the exit status."""
    # built once, and not by each worker
    run('answers', b'')
    began, kinds, met = time.time(), Counter(), Counter()
    lots = [range(at, min(at + LOT, first + count)) for at in range(first, first + count, LOT)]
    with ProcessPoolExecutor(workers) as pool:
        for some_kinds, some_met, told in pool.map(partial(compare_lot, seed), lots):
            kinds, met = kinds + some_kinds, met + some_met
            if told:
                print('\n'.join(told))
                pool.shutdown(cancel_futures=True)
                return 1
    print('seed %d\nfrom %d' % (seed, first))
    tell(kinds, met, time.time() - began)
    return 0


def main():
    try:
        seed, count, first, workers = map(int, sys.argv[1:])
    except ValueError:
        print('fuzz: SEED, COUNT, FROM and WORKERS are whole numbers', file=sys.stderr)
        sys.exit(2)
    sys.exit(fuzz(seed, count, first, workers))


if __name__ == '__main__':
    main()
