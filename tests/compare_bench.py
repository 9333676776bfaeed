"""Holds the script `bench` to docs/bench.1: what it prints, what it says on standard error, its exit status, and what is in the folder afterwards."""
import os
import random
import subprocess
import tempfile

from braille import CELLS, cells
from make_files import random_run
from second import place, text
from second.runfile import framed, reading_record, travel
from worked_runs import part

ROOT = os.path.dirname(os.path.dirname(os.path.abspath(__file__)))
# what the gate says that these answers agreed with
AGREED_WITH = 'the manual page'
FOLDER = os.path.join(ROOT, 'runs')
RUN, SHEET = (part(FOLDER, 'sample', ending) for ending in ('.run', '.sheet'))
LISTING = text.listing(RUN)
# a run with an up stroke only, and what is wrong with it where it has a down reading
BURST, BURST_SHEET = (part(FOLDER, 'burst', ending) for ending in ('.run', '.sheet'))
UPSTROKES = text.listing(BURST)
DOWN = reading_record(1, 0, 0, 5)
REFUSED = text.refusal(42, 1, [b'word 2 is missing'])
BEFORE = {'good.txt': LISTING, 'marked.txt': b'\xef\xbb\xbf' + LISTING, 'twice.run': RUN[:-1] + RUN[3:9] + RUN[-1:], 'bad.txt': b'up\n', 'my run.run': RUN, 'old.run': b'old', '-dash.run': RUN, 'burst.run': BURST, 'burst.txt': UPSTROKES, 'down.run': BURST[:-1] + DOWN + BURST[-1:], 'down.txt': UPSTROKES + b'down point 0 cycle 0 reads 5\n'}

COMMANDS = ('bench sheet RUN', 'bench listing RUN', 'bench typed TEXT RUN', 'bench place RUN', 'bench --help')

# Each case: what is tried, the words after `bench`, standard input, the status, what is printed, what is said, and the files that are new or another afterwards.
CASES = [
    ('a sheet', ['sheet', 'my run.run'], b'', 0, SHEET, b'', {}),
    ('a sheet of standard input', ['sheet'], RUN, 0, SHEET, b'', {}),
    ('a sheet of a refused file', ['sheet', 'old.run'], b'', 0, b'refused 2 at 0\n', b'', {}),
    ('a listing', ['listing', 'my run.run'], b'', 0, LISTING, b'', {}),
    ('a name that begins with a dash', ['listing', '-dash.run'], b'', 0, LISTING, b'', {}),
    ('a listing of a refused file', ['listing', 'good.txt'], b'', 0, b'refused 2 at 0\n', b'', {}),
    ('the place of a refused file', ['place', 'twice.run'], b'', 0, b'refused 6 at 117\nrecord 17: point 0\nrecord 2 told it first\n', b'', {}),
    ('the place of an accepted file', ['place', 'my run.run'], b'', 0, b'nothing is refused\n', b'', {}),
    ('the place of standard input', ['place'], RUN[:-1], 0, b'refused 1 at 117\nrecord 17: not there\n', b'', {}),
    ('a sheet of an up stroke only', ['sheet', 'burst.run'], b'', 0, BURST_SHEET, b'', {}),
    ('a listing of an up stroke only', ['listing', 'burst.run'], b'', 0, UPSTROKES, b'', {}),
    ('the place of a down reading in an up stroke only', ['place', 'down.run'], b'', 0, b'refused 4 at 123\nrecord 18: down point 0 cycle 0\n', b'', {}),
    ('a run file of upstrokes', ['typed', 'burst.txt', 'new.run'], b'', 0, b'', b'', {'new.run': BURST}),
    ('a refused text of upstrokes', ['typed', 'down.txt', 'new.run'], b'', 1, b'', b'refused 44 line 18\nno such point or cycle or stroke here\n', {}),
    ('a text with a byte-order mark', ['typed', 'marked.txt', 'new.run'], b'', 0, b'', b'', {'new.run': RUN}),
    ('a run file', ['typed', 'good.txt', 'new.run'], b'', 0, b'', b'', {'new.run': RUN}),
    ('a run file over an old one', ['typed', 'good.txt', 'old.run'], b'', 0, b'', b'', {'old.run': RUN}),
    ('a run file whose name begins with a dash', ['typed', 'good.txt', '-new.run'], b'', 0, b'', b'', {'-new.run': RUN}),
    ('a run file that is printed', ['typed', 'good.txt'], b'', 0, RUN, b'', {}),
    ('a run file of standard input', ['typed'], LISTING, 0, RUN, b'', {}),
    ('a refused text', ['typed', 'bad.txt', 'new.run'], b'', 1, b'', REFUSED, {}),
    ('a refused text and an old run file', ['typed', 'bad.txt', 'old.run'], b'', 1, b'', REFUSED, {}),
    ('a refused text without a run file', ['typed', 'bad.txt'], b'', 1, b'', REFUSED, {}),
    ('a refused text of standard input', ['typed'], b'up\n', 1, b'', REFUSED, {}),
    ('a missing file', ['sheet', 'none.run'], b'', 1, b'', b'bench: there is no file none.run\n', {}),
    ('a missing text', ['typed', 'none.txt', 'old.run'], b'', 1, b'', b'bench: there is no file none.txt\n', {}),
    ('a folder', ['listing', '.'], b'', 1, b'', b'bench: . is a folder, not a file\n', {}),
    ('a folder for the run file', ['typed', 'good.txt', '.'], b'', 1, b'', b'bench: . is a folder, not a file\n', {}),
    ('a run file in a folder that is not there', ['typed', 'good.txt', 'none/new.run'], b'', 1, b'', b'bench: the file none/new.run may not be written\n', {}),
    ('the same file twice', ['typed', 'good.txt', './good.txt'], b'', 2, b'', b'bench: the text and the run file are the same file\n', {}),
    ('an empty name', ['sheet', ''], b'', 2, b'', b'bench: a file name is empty\n', {}),
    ('a name too many', ['sheet', 'good.txt', 'bad.txt'], b'', 2, b'', b'bench: sheet takes 1 file names at most; bench --help tells the commands\n', {}),
    ('no such program', ['sheets', 'good.txt'], b'', 2, b'', b'bench: there is no program sheets; bench --help names them\n', {}),
    ('a crate that is no program', ['run', 'my run.run'], b'', 2, b'', b'bench: there is no program run; bench --help names them\n', {}),
]


def called(words, given, folder):
    return subprocess.run([os.path.join(ROOT, 'bench')] + words, input=given, capture_output=True, cwd=folder)


def contents(folder):
    out = {}
    for name in os.listdir(folder):
        with open(os.path.join(folder, name), 'rb') as file:
            out[name] = file.read()
    return out


def case_faults(what, words, given, status, printed, said, changed):
    """What differs in one case, which has a folder of its own and another for files that do not stay."""
    with tempfile.TemporaryDirectory() as folder, tempfile.TemporaryDirectory() as aside:
        for name, data in BEFORE.items():
            with open(os.path.join(folder, name), 'wb') as file:
                file.write(data)
        os.environ['TMPDIR'] = aside
        done = called(words, given, folder)
        del os.environ['TMPDIR']
        got = (done.returncode, done.stdout, done.stderr, contents(folder), os.listdir(aside))
        due = (status, printed, said, {**BEFORE, **changed}, [])
    return ['bench, %s: %r, due %r' % (what, one, other) for one, other in zip(got, due) if one != other][:1]


def help_faults():
    """Help is printed wherever it is asked for, in lines of forty cells; without a command it is said, with status 2."""
    asked, late, none = called(['--help'], b'', ROOT), called(['sheet', '--help'], b'', ROOT), called([], b'', ROOT)
    faults = []
    if (asked.returncode, late.returncode, none.returncode) != (0, 0, 2) or not asked.stdout == late.stdout == none.stderr or asked.stderr or none.stdout:
        faults.append('bench --help, bench sheet --help and bench alone do not say the same with status 0, 0 and 2')
    lines = asked.stdout.decode('ascii').splitlines()
    faults += ['bench --help: %r has %d cells' % (line, cells(line)) for line in lines if cells(line) > CELLS]
    faults += ['bench --help does not name %s' % command for command in COMMANDS if command not in lines]
    return faults


def twice(first, second):
    """A run file of 11 points and 10 cycles whose records of these numbers, counted from 1, are both the reading of the down stroke at point 9 in cycle 4."""
    run = random_run(random.Random(9), 11, 10)
    same = reading_record(1, 4, 9, run.y[1, 4, 9])
    middle = [record for record in travel(run) if record != same]
    for number in (first, second):
        middle.insert(number - 2, same)
    return framed(11, 10, middle)


def page_faults():
    """What README.md and the manual page show of `place` is what is told of such a file."""
    told = place.told(twice(54, 109)).decode('ascii')
    for name, block in (('README.md', ''.join('    %s\n' % line for line in told.splitlines())), (os.path.join('docs', 'bench.1'), '.nf\n%s.fi\n' % told)):
        with open(os.path.join(ROOT, name), encoding='utf-8') as file:
            if block not in file.read():
                yield '%s does not show what is told of its example: %r' % (name, told)


def compare(run):
    del run  # the script itself is called here, with file names
    wrong = [fault for case in CASES for fault in case_faults(*case)] + help_faults() + list(page_faults())
    return len(CASES) + 5, wrong, []
