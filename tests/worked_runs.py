"""The runs worked by hand, in a folder: NAME.txt tells the numbers and how the figures were worked, NAME.sheet is the sheet they give, NAME.run is the run file.

`python3 tests/worked_runs.py FOLDER` writes each NAME.run anew from the numbers in NAME.txt, which stand in lines such as

    inputs: 0 10 20
    up 1: 0 899 2000
    down 1: 4 910 2004

one up and one down line for each cycle, the lowest input first on both strokes; a run with an up stroke only has no down line. A row too long for one line goes on in a second line of the same name."""
import os
import re
import sys

from second.runfile import Run, file_of

ROW = re.compile(r'(inputs|up \d+|down \d+):((?: -?\d+)+)$')


def names(folder, ending='.txt'):
    """The names of the files with this ending, in order."""
    return sorted(name[:-len(ending)] for name in os.listdir(folder) if name.endswith(ending))


def part(folder, name, ending):
    with open(os.path.join(folder, name + ending), 'rb') as file:
        return file.read()


def rows(text):
    """The numbers of each row by its name."""
    out = {}
    for found in map(ROW.match, text.split('\n')):
        if found:
            out.setdefault(found.group(1), []).extend(int(v) for v in found.group(2).split())
    return out


def run_of_rows(told):
    inputs = told.pop('inputs')
    readings = {}
    for row, values in told.items():
        stroke, cycle = row.split(' ')
        if len(values) != len(inputs):
            raise ValueError('%s has %d readings for %d inputs' % (row, len(values), len(inputs)))
        readings.update({(int(stroke == 'down'), int(cycle) - 1, i): y for i, y in enumerate(values)})
    strokes = 2 if any(row.startswith('down') for row in told) else 1
    return Run(len(inputs), len(told) // strokes, dict(enumerate(inputs)), readings, strokes)


def file_of_text(folder, name):
    """The bytes of the run file of the numbers in NAME.txt."""
    return file_of(run_of_rows(rows(part(folder, name, '.txt').decode('ascii'))))


def main(folder):
    for name in names(folder):
        with open(os.path.join(folder, name + '.run'), 'wb') as file:
            file.write(file_of_text(folder, name))
        print('%s.run is written' % name)


if __name__ == '__main__':
    main(sys.argv[1])
