"""`make heard`: speaks and brailles for real what the programs print, with espeak-ng and liblouis (Debian's packages espeak-ng and liblouis-bin). It is no part of the test command, which needs neither.
Each line of every sheet and listing of the folder runs, of a listing with the longest lines there are, of every refusal, of what more is told of it and of every form of a record that a place means is
- spoken: the sounds of the line are those of the same line with its signs written as words, so that no sign is lost;
- brailled, uncontracted (UEB): translated back it is the same line, it has as many cells as tests/braille.py says, and at most forty where the figures allow, which is everywhere but in a sheet's lines of long fractions.
Each line of every work sheet is brailled in the same way."""
import itertools
import os
import re
import subprocess
import sys

HERE = os.path.dirname(os.path.abspath(__file__))
ROOT = os.path.dirname(HERE)
sys.path.insert(0, HERE)

from braille import CELLS, NotCounted, cells  # noqa: E402
from second import text  # noqa: E402
from second.sheet import NAMES  # noqa: E402
from worked_runs import names, part  # noqa: E402

TABLES = 'unicode.dis,en-ueb-g1.ctb'
# what more is told of a refusal, and what a record is told as, with the longest numbers that there are
MORE = [b'word 8 is not understood', b'word 7 is missing', b'line 65535 told it first', b'point 10 is missing', b'down point 10 cycle 9 is missing', b'lines 65536 and 65535 lie apart']
RECORDS = ['points 255 cycles 255', 'points 255 upstrokes 255', 'point 255', 'up point 255 cycle 255', 'down point 255 cycle 255', 'stroke 255', 'close', 'kind 255', 'cut short', 'not there', 'behind the close']


def tool(command, given=''):
    try:
        return subprocess.run(command, input=given, capture_output=True, text=True, check=True, errors='replace').stdout
    except FileNotFoundError:
        sys.exit('heard: %s is not installed; Debian has it in espeak-ng, and lou_translate in liblouis-bin' % command[0])


def sounds(lines):
    """The sounds of each line, without stress and pauses, which differ between a sign and its word."""
    return [re.sub(r"[\s,'_:|%=]", '', tool(['espeak-ng', '-q', '-x', '--', line])) for line in lines]


def in_words(line):
    """A line with its signs written as words, in every way in which they may be said."""
    fixed = re.sub(r'(\d)/(\d)', r'\1 slash \2', line)
    fixed = re.sub(r'(\d)\.(\d+)', lambda found: found.group(1) + ' point ' + ' '.join(found.group(2)), fixed)
    parts = re.split(r'(?<!\S)-(?=\d)', fixed)
    for said in itertools.product(('minus ', 'dash '), repeat=len(parts) - 1):
        yield ''.join(a + b for a, b in itertools.zip_longest(parts, said, fillvalue=''))


def ways(line):
    """The ways in which a line may be said, each in its parts: a colon is a pause between two of them."""
    return itertools.product(*(in_words(part) for part in line.split(': ')))


def spoken_faults(lines):
    faults = ['%r has a sign of which nobody said how it sounds' % line for line in lines if any(re.search(r'[^A-Za-z0-9 ]', words) for way in ways(line) for words in way)]
    for line, heard in zip(lines, sounds(lines)):
        if heard not in [''.join(sounds(way)) for way in ways(line)]:
            faults.append('%r is spoken as %s' % (line, heard))
    return faults


def counted(line):
    try:
        return str(cells(line))
    except NotCounted as what:
        return 'no number, since it has %s' % what


def brailled(lines):
    """The braille of each line, and the faults: a line that does not come back as it was, or has not as many cells as are counted."""
    braille = tool(['lou_translate', '--forward', TABLES], '\n'.join(lines) + '\n').split('\n')[:len(lines)]
    back = tool(['lou_translate', '--backward', TABLES], '\n'.join(braille) + '\n').split('\n')[:len(lines)]
    faults = ['%r comes back from braille as %r' % pair for pair in zip(lines, back) if pair[0] != pair[1]]
    return braille, faults + ['%r has %d cells and is counted as %s' % (line, len(felt), counted(line)) for line, felt in zip(lines, braille) if str(len(felt)) != counted(line)]


def printed(program, given):
    done = subprocess.run([os.path.join(ROOT, 'bench'), program], input=given, capture_output=True)
    if done.returncode:
        sys.exit('heard: %s ended with status %d' % (program, done.returncode))
    return done.stdout.decode('ascii')


def longest_text():
    """A text with the longest lines that a run can have."""
    points = [b'point %d input %d' % (i, i - 30000) for i in range(11)]
    readings = [b'%s point %d cycle %d reads -1000000' % (s, i, c) for c in range(10) for s in (b'up', b'down') for i in range(11)]
    return b'\n'.join([b'points 11 cycles 10'] + points + readings) + b'\n'


def work_sheets():
    """What is brailled only: a name and the lines."""
    folder = os.path.join(ROOT, 'runs')
    for name in names(folder):
        yield 'work sheet of ' + name, part(folder, name, '.txt').decode('ascii').splitlines()


def sources():
    """What is spoken and brailled: a name, the lines, and whether forty cells are always enough."""
    folder = os.path.join(ROOT, 'runs')
    for name in names(folder):
        data = part(folder, name, '.run')
        yield 'sheet of ' + name, printed('sheet', data).splitlines(), False
        yield 'listing of ' + name, printed('listing', data).splitlines(), True
    run_file = subprocess.run([os.path.join(ROOT, 'bench'), 'typed'], input=longest_text(), capture_output=True).stdout
    longest = printed('listing', run_file).splitlines()
    if max(map(len, longest)) != 36:
        sys.exit('heard: the listing with the longest lines has none of 36 characters')
    yield 'listing with the longest lines', longest, True
    yield 'refusals of a text', [line for n in range(41, 51) for line in text.refusal(n, 65536, MORE).decode('ascii').splitlines()], True
    yield 'refusals of a run file', ['refused %d at %d' % (n, 1830 if n < 9 else 10) for n in range(1, 11)], True
    yield 'records that a place means', ['record 233: ' + what for what in RECORDS] + ['record 232 told it first', 'records 233 and 232 lie apart', 'nothing is refused'], True
    yield 'refusals of an index', ['%s refused %d' % (name, n) for name in NAMES + ('line',) for n in (11, 12, 13, 15, 16)], True


def told(name, lines, always):
    """Says how long the lines are, and gives the faults of their braille."""
    braille, faults = brailled(lines)
    length, line = max((len(felt), line) for felt, line in zip(braille, lines))
    print('%s: %d different lines, the longest has %d cells, %d characters: %s' % (name, len(lines), length, len(line), line))
    over = [line for felt, line in zip(braille, lines) if len(felt) > CELLS]
    for line in over:
        print('  more than %d cells: %s' % (CELLS, line))
    return faults + (['%s has more than %d cells' % (line, CELLS) for line in over] if always else [])


def main():
    faults = []
    for name, lines, always in sources():
        distinct = sorted(set(lines))
        faults += told(name, distinct, always) + spoken_faults(distinct)
    for name, lines in work_sheets():
        faults += told(name, sorted(set(lines)), True)
    for fault in faults:
        print('FAULT: ' + fault)
    print('heard: %d faults' % len(faults))
    sys.exit(1 if faults else 0)


if __name__ == '__main__':
    main()
