"""The work sheets, NAME.txt of every run worked by hand: each line within forty cells of braille, each equation true, each line of NAME.sheet in its place, the numbers of NAME.run, and Q of each group worked in the short numbers of request C-14.

`python3 tests/check_work.py FOLDER` says what is wrong, one sentence to a line, and ends with status 1 if anything is.

- An equation stands on one line, alone or behind a name and a colon; it may go on, as in `10/20 = 1/2`. `A is above B` and `A is below B` of whole numbers, and `N, which is P percent` of N thousandths, are held to the numbers too.
- The head, which is all before `Sheet line 1`, has the line `points M cycles N` and the rows of numbers; they give the run file. Of a run with an up stroke only it has `points M upstrokes N`, and no row of the down stroke.
- `Sheet line K` begins a sentence, and the line behind its full stop is line K of the sheet.
- A run with an up stroke only has of each input, once, T as twice U and the mean of T, as here of two cycles; the product may be left to lines before, and the mean may go on as any equation. No line tells Q of it.

    T at 10: 2 * 1800 = 3600
    both at 10: 3600/4 = 900

- Any other run of two cycles or more has Q of each group. Where the readings of a group are not all the same it has these lines, in this order and before those of another group. The four that have a sum or a product may leave that to lines before them and give the number alone; there, too, nothing is multiplied but differences, their sum, the sum of their squares, and n.

    r 1: 899 - 899 = 0
    r 2: 901 - 899 = 2
    sum of r: 0 + 2 = 2
    sum of squares: 0 + 4 = 4
    2 times that: 2 * 4 = 8
    square of the sum: 2 * 2 = 4
    less that square:
    8 - 4 = 4
    Q up at 10: 4

  Of any other group it has the last line. No other line begins with these names. All of these fit, whatever the run: the longest of the first is `r 10: -1000000 - -990000 = -10000`, with 38 cells, and the last difference has at most 40."""
import os
import re
import sys
from fractions import Fraction

from braille import CELLS, NotCounted, cells
from second.runfile import file_of
from second.text import opening_line
from worked_runs import names, part, rows, run_of_rows

ROOT = os.path.dirname(os.path.dirname(os.path.abspath(__file__)))
# what the gate says that these lines agreed with
AGREED_WITH = 'the rules of a work sheet'
ENDINGS = ('.txt', '.run', '.sheet')
STROKES = ('up', 'down')
# how the lines of a group's Q begin
OF_Q = re.compile(r'(?:r \d+|sum of r|sum of squares|\d+ times that|square of the sum|less that square|Q (?:up|down) at)\b')
LESS = 'less that square:'
# no input and no reading is larger
MOST = 1000000


def value(text):
    """The number that a text of whole numbers, signs and brackets means; None if it is no such text."""
    if not re.fullmatch(r'[-+*/() 0-9]*[0-9][-+*/() 0-9]*', text) or re.search(r'[-+*/] *[+*/]|- *- *-', text):
        return None
    try:
        return eval(re.sub(r'\d+', r'Fraction(\g<0>)', text), {'Fraction': Fraction})
    except (SyntaxError, TypeError, ZeroDivisionError):
        return None


def equation_fault(line):
    """What is wrong with the equation of a line; None if nothing is."""
    if '=' not in line:
        return None
    values = [value(text) for text in line[line.rfind(': ', 0, line.find('=')) + 1:].split(' = ')]
    if None in values:
        return 'is an equation that is not understood'
    return None if len(set(values)) == 1 else 'is not true'


def line_fault(line):
    if line != line.rstrip():
        return 'ends with a space'
    try:
        count = cells(line)
    except NotCounted as what:
        return 'has %s, of which nobody said how many cells it has' % what
    if count > CELLS:
        return 'has %d cells' % count
    return equation_fault(line)


def said_faults(text):
    """What is said to be above, below or so many percent and is not; such a sentence may go over the end of a line."""
    said = text.replace('\n', ' ')
    for first, word, second in re.findall(r'(?<![-/\d.,])(-?\d+) is (above|below) (-?\d+)(?![/\d]|[.,]\d)', said):
        if int(first) == int(second) or (int(first) > int(second)) != (word == 'above'):
            yield '%s is not %s %s' % (first, word, second)
    for whole, percent in re.findall(r'(?<![/\d])(\d+), which is (\d+\.\d+) percent', said):
        if Fraction(percent) * 1000 != int(whole):
            yield '%s thousandths are not %s percent' % (whole, percent)


class Group:
    """The readings of one stroke at one input, and what a work sheet has of their Q."""

    def __init__(self, name, readings):
        self.name, self.readings, self.n = name, readings, len(readings)
        self.differences = [y - readings[0] for y in readings]
        self.total, self.squares = sum(self.differences), sum(r * r for r in self.differences)
        self.q = self.n * self.squares - self.total * self.total

    def due(self):
        """For each line, in order, the ways in which it may stand there."""
        last = [['%s: %d' % (self.name, self.q)]]
        if not any(self.differences):
            return last
        each = [['r %d: %d - %d = %d' % (c, y, self.readings[0], r)] for c, (y, r) in enumerate(zip(self.readings, self.differences), 1)]
        terms = re.sub(r'\+ -', '- ', ' + '.join(map(str, self.differences)))
        sums = [
            ('sum of r', terms, self.total),
            ('sum of squares', ' + '.join(str(r * r) for r in self.differences), self.squares),
            ('%d times that' % self.n, '%d * %d' % (self.n, self.squares), self.n * self.squares),
            ('square of the sum', '%d * %d' % (self.total, self.total), self.total * self.total),
        ]
        worked = [['%s: %d' % (name, number), '%s: %s = %d' % (name, by, number)] for name, by, number in sums]
        return each + worked + [[LESS], ['%d - %d = %d' % (self.n * self.squares, self.total * self.total, self.q)]] + last

    def short(self, line):
        """Nothing is multiplied in this line but short numbers."""
        known = {self.n, self.total, self.squares, *self.differences}
        return all(int(factor) in known for pair in re.findall(r'(-?\d+) \* (-?\d+)', line) for factor in pair)

    def faults(self, block):
        """The lines that end with Q of this group and begin behind those of another."""
        told = [at for at, line in enumerate(block) if OF_Q.match(line) or at and block[at - 1] == LESS]
        for at, due in zip(told, self.due()):
            if block[at] not in due:
                yield '%s: %s stands where %s is due' % (self.name, block[at], due[0])
                return
        if len(told) != len(self.due()):
            yield '%s: %d of its lines stand there, %d are due' % (self.name, len(told), len(self.due()))
        yield from ('%s: %s multiplies other than short numbers' % (self.name, line) for line in block[told[0]:] if not self.short(line))


def q_faults(lines, run):
    """Each group has its Q once; a run with an up stroke only has none to tell."""
    groups = {}
    for stroke, way in enumerate(STROKES if run.strokes == 2 else ()):
        for i in range(run.m):
            name = 'Q %s at %d' % (way, run.x[i])
            groups[name] = Group(name, [run.y[stroke, c, i] for c in range(run.n)])
    begin = 0
    for at, line in enumerate(lines):
        if re.match(r'Q (up|down) at\b', line):
            name = line.split(':')[0]
            if name in groups:
                yield from groups.pop(name).faults(lines[begin:at + 1])
            else:
                yield '%s is not due, or stands there twice' % name
            begin = at + 1
    yield from ('%s is not there' % name for name in groups)
    yield from ('%s is not due behind every Q' % line for line in lines[begin:] if OF_Q.match(line))


def total_faults(lines, run):
    """Of a run with an up stroke only each input has T and its mean once, in their forms."""
    for i in range(run.m):
        u = sum(run.y[0, c, i] for c in range(run.n))
        total, mean = 'T at %d: %d' % (run.x[i], 2 * u), 'both at %d: %d/%d' % (run.x[i], 2 * u, 2 * run.n)
        product = 'T at %d: 2 * %d = %d' % (run.x[i], u, 2 * u)
        for due in (total, mean):
            told = [line for line in lines if line.split(':')[0] == due.split(':')[0]]
            # what the mean goes on with is held by the equation
            kept = [line.split(' = ')[0] if due == mean else line for line in told]
            if kept != [due] and told != [product]:
                yield '%s stands where %s is due, once' % (', '.join(told) or 'nothing', due)


def sheet_faults(lines, sheet):
    """Behind the sentence `Sheet line K` stands line K of the sheet, for each K in turn."""
    heads = [at for at, line in enumerate(lines) if line.startswith('Sheet line ')]
    for k, (at, due) in enumerate(zip(heads, sheet), 1):
        end = next((end for end in range(at, len(lines)) if lines[end].endswith('.')), len(lines))
        if not re.match(r'Sheet line %d\b' % k, lines[at]) or lines[end + 1:end + 2] != [due]:
            yield 'sheet line %d is not there: %s' % (k, due)
            return
    if len(heads) != len(sheet):
        yield 'it has %d sheet lines, and the sheet %d' % (len(heads), len(sheet))


def run_of_head(head):
    """The run of the rows at the head; None if they are not those of a run."""
    told = rows('\n'.join(head))
    # a down row makes it a run of both strokes
    ways = STROKES if any(row.startswith('down') for row in told) else STROKES[:1]
    n = (len(told) - 1) // len(ways)
    named = n > 0 and set(told) == {'inputs'} | {'%s %d' % (way, c) for way in ways for c in range(1, n + 1)}
    even = len({len(row) for row in told.values()}) == 1
    within = all(abs(v) <= MOST for row in told.values() for v in row)
    return run_of_rows(told) if named and even and within else None


def work_faults(text, sheet, data):
    """Sentences on what is wrong with a work sheet."""
    lines = text.split('\n')
    for at, line in enumerate(lines, 1):
        fault = line_fault(line)
        if fault:
            yield 'line %d %s: %s' % (at, fault, line)
    yield from said_faults(text)
    yield from sheet_faults(lines, sheet.splitlines())
    head = lines[:next((at for at, line in enumerate(lines) if line.startswith('Sheet line ')), 0)]
    run = run_of_head(head)
    if run is None:
        yield 'the numbers at its head are not those of a run'
        return
    sizes = opening_line(run.m, run.n, run.strokes).decode('ascii')
    if sizes not in head:
        yield 'its head does not say %s' % sizes
    if file_of(run) != data:
        yield 'the numbers at its head are not those of the run file'
    if run.n > 1 or run.strokes == 1:
        yield from q_faults(lines, run)
    if run.strokes == 1:
        yield from total_faults(lines, run)


# How a work sheet of the paper's run may be wrong: the line that stands there, the one in its place, and what is to be said of it.
WRONG = [
    ('down readings, T of both.', 'down readings, T of both, of all cycles.', 'has 41 cells'),
    ('Where Q is 0, k is 0.', 'Where Q is 0, k is \xbd.', 'has the sign'),
    ('Where Q is 0, k is 0.', 'Where Q is 0, k is \xb2.', 'has the sign'),
    ('C times C times 2 times Q.', 'C * C * 2 * Q.', 'has three words of capitals'),
    ('Where Q is 0, k is 0.', 'Where Q is 0, LHRs are 0.', 'has a small letter behind several capitals'),
    ('Where Q is 0, k is 0.', 'Where Q is 0, k is 0. ', 'ends with a space'),
    ('r 2: 901 - 899 = 2', 'r 2: 901 - 899 = 3', 'is not true'),
    ('rise: 2002 - 2 = 2000', 'rise: 2002 - 2 = 2001: 2000', 'is not understood'),
    ('36/2 = 18', 'k/2 = 18', 'is not understood'),
    ('36/2 = 18', '36/2=19', 'is not understood'),
    ('36/2 = 18', '37 // 2 = 18', 'is not understood'),
    ('36/2 = 18', '36 --- 18 = 18', 'is not understood'),
    ('36/2 = 18', '() = ()', 'is not understood'),
    ('724 is below 969: not rounded up,', '969 is below 724: not rounded up,', '969 is not below 724'),
    ('724 is below 969: not rounded up,', '-724 is above 969: not rounded up,', '-724 is not above 969'),
    ('3302, which is 3.302 percent', '3302, which\nis 3.303 percent', '3302 thousandths are not 3.303 percent'),
    ('points 3 cycles 2\ninputs: 0 10 20', 'points 3 cycles 3\ninputs: 0 10 20', 'its head does not say points 3 cycles 2'),
    ('points 3 cycles 2\ninputs: 0 10 20', 'inputs: 0 10 20', 'its head does not say points 3 cycles 2'),
    ('up 2: 0 901 2000', 'up 2: 7 901 2000', 'are not those of the run file'),
    ('up 2: 0 901 2000', 'up  2: 0 901 2000', 'are not those of a run'),
    ('up 2: 0 901 2000', 'up 3: 0 901 2000', 'are not those of a run'),
    ('up 2: 0 901 2000', 'up 2: 0 901', 'are not those of a run'),
    ('up 2: 0 901 2000', 'up 2: 0 901 20000000000', 'are not those of a run'),
    ('inputs: 0 10 20', 'inputs 0 10 20', 'are not those of a run'),
    ('down 1: 4 910 2004\ndown 2: 4 910 2004', 'There is no way back.', 'its head does not say points 3 upstrokes 2'),
    ('down 1: 4 910 2004\ndown 2: 4 910 2004', 'There is no way back.', 'are not those of the run file'),
    ('repeatability 9/1000 0.900', 'repeatability 9/1000 0.901', 'sheet line 8 is not there'),
    ('Sheet line 8.', 'Sheet line 8.\nrepeatability 9/1000 0.901', 'sheet line 8 is not there'),
    ('line 100/1 -57/1', 'line 100/1 -57/1\nSheet line 8.', 'it has 12 sheet lines'),
    ('r 1: 899 - 899 = 0', 'r 1: 899 - 901 = -2', 'r 1: 899 - 899 = 0 is due'),
    ('r 2: 901 - 899 = 2', 'r 2: 901 - 899 = 2\nr 3: 905 - 899 = 6', 'sum of r: 2 is due'),
    ('r 2: 901 - 899 = 2', 'r 2:\n901 - 899 = 2', 'r 2: 901 - 899 = 2 is due'),
    ('sum of r: 0 + 2 = 2', 'sum of r: 7 - 5 = 2', 'sum of r: 2 is due'),
    ('sum of r: 0 + 2 = 2', 'sum of r is 2', 'sum of r: 2 is due'),
    ('sum of squares: 0 + 4 = 4', 'sum of squares: 1620002', 'sum of squares: 4 is due'),
    ('square of r 2: 2 * 2 = 4', '899 * 899 = 808201', 'multiplies other than short numbers'),
    ('2 times that: 2 * 4 = 8', '2 times that: 2 * 1620002 = 3240004', '2 times that: 8 is due'),
    ('square of the sum: 2 * 2 = 4', '1800 * 1800 = 3240000', 'square of the sum: 4 is due'),
    ('8 - 4 = 4', '3240004 - 3240000 = 4', '8 - 4 = 4 is due'),
    ('8 - 4 = 4', 'that is:', '8 - 4 = 4 is due'),
    ('Q down at 10: 0', 'Q is 0 there.', 'Q down at 10 is not there'),
    ('Q down at 10: 0', 'Q down at 10: 4', 'Q down at 10: 0 is due'),
    ('Q down at 10: 0', 'Q down at 10: 0\nQ down at 15: 0', 'Q down at 15 is not due'),
    ('Q down at 10: 0', 'Q down at 10: 0\nQ down at 10: 0', 'Q down at 10 is not due, or stands there twice'),
    ('Q down at 20: 0', 'Q down at 20: 0\nr 1: 910 - 910 = 0', 'is not due behind every Q'),
]


# The same of the run with an up stroke only that is worked here.
WRONG_SINGLE = [
    ('points 4 upstrokes 3', 'points 4 cycles 3', 'its head does not say points 4 upstrokes 3'),
    ('points 4 upstrokes 3', 'points 4 upstrokes 2', 'its head does not say points 4 upstrokes 3'),
    ('up 3: 1 223 612 1442', 'up 3: 1 223 612 1443', 'are not those of the run file'),
    ('up 3: 1 223 612 1442', 'up 3: 1 223 612 1442\ndown 1: 2 223 613 1440', 'are not those of a run'),
    ('up 3: 1 223 612 1442', 'up 3: 1 223 612 1442\ndown 1: 2 223 613 1440\ndown 2: 4 226 608 1445\ndown 3: 1 223 612 1442', 'its head does not say points 4 cycles 3'),
    ('up 3: 1 223 612 1442', 'up 3: 1 223 612 1442\ndown 1: 2 223 613 1440\ndown 2: 4 226 608 1445\ndown 3: 1 223 612 1442', 'are not those of the run file'),
    ('up 3: 1 223 612 1442', 'down 3: 1 223 612 1442', 'are not those of a run'),
    ('up 3: 1 223 612 1442', 'That is all.', 'its head does not say points 4 upstrokes 2'),
    ('T at 10: 2 * 672 = 1344', 'T at 10: 672', 'T at 10: 1344 is due'),
    ('T at 10: 2 * 672 = 1344', 'T at 10: 672 + 0 = 672', 'T at 10: 1344 is due'),
    ('T at 10: 2 * 672 = 1344', 'T at 10: 2 * 672 = 1343', 'is not true'),
    ('T at 10: 2 * 672 = 1344', 'T at 10: 2 * 672 = 1344\nT at 10: 1344', 'T at 10: 1344 is due, once'),
    ('T at 60: 2 * 4327 = 8654', 'T there is 8654.', 'T at 60: 8654 is due'),
    ('both at 10: 1344/6 = 224', 'both at 10: 672/3 = 224', 'both at 10: 1344/6 is due'),
    ('both at 10: 1344/6 = 224', 'both at 10: 672/6 = 112', 'both at 10: 1344/6 is due'),
    ('both at 10: 1344/6 = 224', 'both at 10: 1344/61', 'both at 10: 1344/6 is due'),
    ('both at 0: 14/6 = 7/3', 'The mean at 0 is 7/3.', 'both at 0: 14/6 is due'),
    ('strokes. One stroke does not tell it,', 'strokes. One stroke does not tell it,\nQ up at 0: 14', 'Q up at 0 is not due'),
    ('strokes. One stroke does not tell it,', 'strokes. One stroke does not tell it,\nr 1: 2 - 2 = 0', 'is not due behind every Q'),
    ('hysteresis refused 16', 'hysteresis refused 13', 'sheet line 7 is not there'),
    ('line refused 16', 'line 24/1 7/3', 'sheet line 11 is not there'),
]


def wrong_unseen(wrong, text, sheet, data):
    """Which of the wrong work sheets are not told by their sentence."""
    for old, new, due in wrong:
        if text.count('\n%s\n' % old) != 1:
            yield 'the work sheet of which it is made has not just one line %s' % ascii(old)
        elif not any(due in fault for fault in work_faults(text.replace('\n%s\n' % old, '\n%s\n' % new), sheet, data)):
            yield 'nothing is said of %s' % ascii(new)


def parts(folder, name):
    text, data, sheet = (part(folder, name, ending) for ending in ENDINGS)
    return text.decode('latin-1'), sheet.decode('latin-1'), data


def check(folder):
    """How many lines are right, what is wrong, and sentences on what was met."""
    if not os.path.isdir(folder):
        return 0, ['there is no folder %s' % folder], []
    there = {ending: names(folder, ending) for ending in ENDINGS}
    every = sorted(set(sum(there.values(), [])))
    right, wrong, told = 0, [] if every else ['there is no run in %s' % folder], []
    for name in every:
        faults = ['there is no %s%s' % (name, ending) for ending in ENDINGS if name not in there[ending]]
        if not faults:
            faults = ['%s.txt: %s' % (name, fault) for fault in work_faults(*parts(folder, name))]
        wrong += faults
        if not faults:
            lines = parts(folder, name)[0].split('\n')[:-1]
            right += len(lines)
            told.append('work sheet %s: %d lines, %d equations, at most %d cells' % (name, len(lines), sum('=' in line for line in lines), max(map(cells, lines))))
    return right, wrong, told


def compare(run):
    """As the gate calls every comparison; it needs no program."""
    folder = os.path.join(ROOT, 'runs')
    right, wrong, told = check(folder)
    unseen = [*wrong_unseen(WRONG, *parts(folder, 'sample')), *wrong_unseen(WRONG_SINGLE, *parts(folder, 'burst'))]
    made = len(WRONG) + len(WRONG_SINGLE)
    return right + made, wrong + unseen, told + ['%d wrong work sheets are found' % (made - len(unseen))]


def main(given):
    if len(given) != 1:
        print('Name one folder: python3 tests/check_work.py FOLDER')
        return 1
    right, wrong, told = check(given[0])
    for text in wrong + told:
        print(ascii(text)[1:-1])
    print('lines that are right: %d' % right)
    print('faults: %d' % len(wrong))
    return 1 if wrong else 0


if __name__ == '__main__':
    sys.exit(main(sys.argv[1:]))
