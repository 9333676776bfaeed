"""`python3 tests/check_runs.py FOLDER` runs the program `sheet` on each NAME.run in FOLDER and compares what it prints with NAME.sheet, the sheet worked by hand. It says what differs, one sentence to a line, and ends with status 1 if anything does."""
import os
import subprocess
import sys
from itertools import zip_longest

from worked_runs import names, part

ROOT = os.path.dirname(os.path.dirname(os.path.abspath(__file__)))
# what the gate says that these answers agreed with
AGREED_WITH = 'the sheets worked by hand'


class SheetProgramFailed(Exception):
    """The program `sheet` ended with another status than 0."""


def shown(text):
    """For the ear and for braille: printable ASCII alone, and nothing is said as such."""
    return 'nothing' if text is None else ascii(text)[1:-1] if text else 'an empty line'


def lines_of(sheet):
    """The lines of a sheet; what follows its last line feed is a line of its own if there is anything."""
    lines = sheet.decode('latin-1').split('\n')
    return lines if lines[-1] else lines[:-1]


def line_faults(where, printed, worked):
    """A sentence for each figure of one line that differs; the name at its front is figure 1."""
    figures = list(zip_longest(printed.split(), worked.split()))
    faults = ['%s, figure %d: printed %s, worked %s' % (where, at, shown(got), shown(due)) for at, (got, due) in enumerate(figures, 1) if got != due]
    return faults or ([where + ': the figures agree, the spaces or the line end do not'] if printed != worked else [])


def sheet_faults(name, printed, worked):
    """A sentence for each difference between the printed sheet and the worked one."""
    if printed == worked:
        return []
    ours, hers = lines_of(printed), lines_of(worked)
    faults = []
    for at, (got, due) in enumerate(zip(ours, hers), 1):
        faults += line_faults('%s, line %d' % (name, at), got, due)
    if len(ours) != len(hers):
        at = min(len(ours), len(hers))
        more = (ours + [None] * len(hers))[at], (hers + [None] * len(ours))[at]
        faults.append('%s, line %d: printed %s, worked %s' % (name, at + 1, shown(more[0]), shown(more[1])))
        faults.append('%s: printed %d lines, worked %d' % (name, len(ours), len(hers)))
    return faults or ['%s: the last line feed is printed or worked, and not both' % name]


def run_faults(run, folder, name):
    try:
        return sheet_faults(name, run('sheet', part(folder, name, '.run')), part(folder, name, '.sheet'))
    except SheetProgramFailed as failed:
        return ['%s: %s' % (name, failed)]


def check(run, folder):
    """How many runs agree, what differs, and sentences on what was met. run(program, bytes) gives what a built program prints."""
    if not os.path.isdir(folder):
        return 0, ['there is no folder %s' % shown(folder)], ['0 of 0 runs agree']
    runs, sheets = names(folder, '.run'), names(folder, '.sheet')
    every = sorted(set(runs) | set(sheets))
    agreed, wrong = 0, [] if every else ['there is no run in %s' % shown(folder)]
    for name in every:
        if name not in sheets:
            faults = ['%s has a run and no sheet' % shown(name)]
        elif name not in runs:
            faults = ['%s has a sheet and no run' % shown(name)]
        else:
            faults = run_faults(run, folder, name)
        agreed += not faults
        wrong += faults
    return agreed, wrong, ['%d runs agree' % agreed if not wrong else '%d of %d runs agree' % (agreed, len(every))]


def compare(run):
    """As the gate calls every comparison."""
    return check(run, os.path.join(ROOT, 'runs'))


def run_built(program, given):
    done = subprocess.run([os.path.join(ROOT, 'bench'), program], input=given, stdout=subprocess.PIPE)
    if done.returncode != 0:
        raise SheetProgramFailed('the program %s ended with status %d' % (program, done.returncode))
    return done.stdout


def main(given):
    if len(given) != 1:
        print('Name one folder: python3 tests/check_runs.py FOLDER')
        return 1
    _, wrong, told = check(run_built, given[0])
    for text in wrong + told:
        print(text)
    return 1 if wrong else 0


if __name__ == '__main__':
    sys.exit(main(sys.argv[1:]))
