"""Makes the named texts for the comparison of typed texts: good ones in every dress, and ones damaged in every way that docs/TEXT.md names, alone and two at once; then the same of upstrokes, which are runs with an up stroke only. A family takes the runs that it is made of whole, or with their up strokes only."""
import random

import make_sheets
from make_files import paper_run, random_run, up_only, with_point, with_reading
from second.runfile import CYCLES, POINTS, SCATTER, Run
from second.text import LONGEST, joined, opening_line, record_lines

# the byte-order mark of UTF-8, as its codec writes it
MARK = ''.encode('utf-8-sig')
# the longest text that the program of the comparison takes
MOST = 65600

# notes that only a reader of words leaves alone: line ends of other alphabets, bytes that are no character, forms of records
NOTES = (b'note', b'note ', b'note the sensor was warm', b'note\tpoints 3 cycles 2', b'note note', b'note caf\xc3\xa9 \xe2\x82\xac', b'note \x0b\x0c\x1c\x1d\x1e\x85', b'note \xe2\x80\xa8 \xe2\x80\xa9', b'note \x00\x01\xff\xfe', b'note up point 0 cycle 0 reads 5', b'note\rpoint 0 input 3', b'note -5 +5 1.5 99999999999')
EMPTY = (b'', b' ', b'\t', b'\r', b' \t \r')

# what may stand where an input or a reading does: numbers about the limits, with as many digits as are allowed and more, and what is no number
NUMBERS = (b'30000', b'30001', b'-30000', b'-30001', b'0030000', b'0030001', b'00030000', b'-0030001', b'1000000', b'1000001', b'-1000000', b'-1000001', b'01000000', b'-01000000', b'9999999', b'-9999999', b'10000000', b'-10000000', b'99999999', b'0', b'-0', b'-00', b'007', b'-007', b'0000000', b'-0000000', b'00000000', b'2147483648', b'4294967301', b'18446744073709551621', b'-9223372036854775809', b'+5', b'1.5', b'--5', b'5-', b'-', b'- 5', b'5 5', b'-+5', b'1e3', b'0x5', b'5,', b'1,000', b'1_000', b'5.', b'.5', b"5'", b'five', b'O', b'', b'\xd9\xa3', b'\xe2\x88\x925', b'\xef\xbc\x95', b'5\x00', b'5\x0b', b'\xb2', b'5note', b'5 note')
# what may stand where a point, a cycle or a number of them does
SMALLS = (b'0', b'1', b'2', b'3', b'4', b'9', b'10', b'11', b'12', b'99', b'00', b'01', b'02', b'03', b'000', b'001', b'003', b'010', b'100', b'256', b'259', b'-0', b'-1', b'+1', b'1.', b'--1', b'- 1', b'', b'a', b':', b'/', b'1 1', b'4294967297', b'\xd9\xa1')
# bytes that are no blanks here, though they are somewhere
NO_BLANKS = (b'\x00', b'\x0b', b'\x0c', b'\x1c', b'\x1f', b'\x85', b'\xa0', b'\xc2\xa0', b'\xe2\x80\x83', b'\xef\xbb\xbf', b',', b'_', b'-')
WORDS = (b'points', b'cycles', b'point', b'input', b'up', b'down', b'cycle', b'reads', b'note')
# how the third word of an opening may be misspelt
MISSPELT = (b'upstroke', b'Upstrokes', b'UPSTROKES', b'upStrokes', b'up strokes', b'up-strokes', b'upstrokess', b'upstrokes:', b'upstroke s', b'upstrok', b'sekortspu', b'strokes', b'ups', b'up', b'down', b'downstrokes', b'updown', b'cycle', b'cyclesupstrokes', b'cycles upstrokes', b'upstrokes cycles', b'upstrokes upstrokes', b'upstrokes\x00', b'\xc2\xa0upstrokes', b'upcycles', b'')


def both(run):
    """A run as it is; in its place up_only makes the texts of upstrokes."""
    return run


def inserted(lines, at, line):
    return lines[:at] + [line] + lines[at:]


def changed(lines, at, line):
    return lines[:at] + [line] + lines[at + 1:]


def dropped(lines, at):
    return lines[:at] + lines[at + 1:]


def somewhere(lines, make, line):
    return inserted(lines, make.randint(0, len(lines)), line)


def mixed(lines, make):
    return make.sample(lines, len(lines))


def small_run(make, n=None):
    return random_run(make, make.randint(3, 5), make.randint(1, 3) if n is None else n)


def level_run(m, n):
    """Readings of zero, so that one of them may be moved as far as scatter allows."""
    return Run(m, n, {i: 10 * i for i in range(m)}, {(s, c, i): 0 for s in (0, 1) for c in range(n) for i in range(m)})


# The paper's run with one thing changed, by name: these tell wrong methods apart.

def named(make):
    lines = record_lines(paper_run())
    opening, points, readings = lines[0], lines[1:4], lines[4:]
    outside, strange, again = b'down point 0 cycle 2 reads 5', b'up point 1 cycle 0', b'up point 1 cycle 0 reads 900'
    yield 'sample', joined(lines)
    yield 'sample in reverse', joined(lines[::-1])
    yield 'sample with a reading twice', joined(lines + [again])
    yield 'sample with the second opening last', joined(lines + [again, opening])
    yield 'sample with two inputs exchanged', joined([opening, b'point 2 input 10', b'point 1 input 20', points[0]] + readings)
    yield 'sample with two inputs alike', joined([opening, b'point 2 input 10'] + points[:2] + readings)
    yield 'sample without a reading', joined(lines[:-1])
    yield 'sample without a point', joined([opening] + points[1:] + readings)
    yield 'sample with scatter at the last point', joined([opening] + points[::-1] + readings[:-1] + [b'down point 2 cycle 1 reads 12005'])
    yield 'sample with a place outside, then a line not understood', joined([outside, strange] + lines)
    yield 'sample with a line not understood, then a place outside', joined([strange, outside] + lines)
    yield 'sample with a place outside and its reading beyond', joined(lines + [b'down point 0 cycle 2 reads 1000001'])
    yield 'sample with a reading twice and beyond', joined(lines + [b'up point 1 cycle 0 reads 1000001'])
    yield 'sample with a reading beyond, then a place outside', joined(lines[:-1] + [b'down point 2 cycle 1 reads 1000001', outside])
    yield 'sample with a line not understood behind notes', joined([b'note', b'', b'note one', strange] + lines)
    yield 'sample with capital letters', joined(lines).replace(b'point 1', b'Point 1')
    yield 'sample with a point of three digits', joined(lines).replace(b'point 1', b'point 001')
    yield 'sample with a reading of eight digits', joined(lines).replace(b' 2000', b' 00002000')
    yield 'sample with a plus sign', joined(lines).replace(b' 2000', b' +2000')
    yield 'sample with tabs between words', joined(lines).replace(b' ', b'\t')
    yield 'sample with form feeds between words', joined(lines).replace(b' ', b'\f')
    yield 'sample with a word too many', joined(lines).replace(b' 2000', b' 2000 grams')
    yield 'sample with a note behind a record', joined(lines).replace(b' 2000', b' 2000 note warm')
    yield 'sample with a byte-order mark', MARK + joined(lines)
    yield 'sample with two byte-order marks', MARK + MARK + joined(lines)
    yield 'sample with a byte-order mark in its second line', joined(lines[:1] + [MARK + lines[1]] + lines[2:])
    yield 'sample with a byte-order mark of two bytes', MARK[:2] + joined(lines)
    yield 'sample with a byte-order mark and a reading twice', MARK + joined(lines + [again])
    yield 'a byte-order mark alone', MARK
    yield 'sample without the down stroke of its second cycle', joined(lines[:-3])
    yield 'sample with both strokes apart at the last point', joined([opening] + points + readings[:2] + [b'up point 2 cycle 0 reads -9001'] + readings[3:-1] + [b'down point 2 cycle 1 reads 12005'])
    yield 'three cycles that lie apart', joined(record_lines(with_reading(with_reading(with_reading(level_run(3, 3), (0, 0, 1), 10001), (0, 1, 1), -1), (0, 2, 1), 20002)))
    yield 'points alone but for one', joined([opening] + points[1:])
    yield 'sample with a line that ends too early', joined(lines[:5] + [b'up point 1 cycle'] + lines[6:])


# Good texts

def good(make, only=both):
    """Runs of the Standard and of the head, every size, and runs at the limits of their numbers."""
    for name, run in make_sheets.named():
        yield name, joined(record_lines(only(run)))
    for m in range(3, POINTS + 1):
        for n in range(1, CYCLES + 1):
            yield 'listing of %d points and %d cycles' % (m, n), joined(record_lines(only(random_run(make, m, n))))
    for name, run in make_sheets.extremes(make):
        yield name, joined(mixed(record_lines(only(run)), make))


def shuffled(make, only=both):
    for which in range(150):
        yield 'shuffled %d' % which, joined(mixed(record_lines(only(random_run(make))), make))
    for which in range(150):
        yield 'small and shuffled %d' % which, joined(mixed(record_lines(only(small_run(make))), make))
    run = only(small_run(make, 2))
    lines = record_lines(run)
    for at in range(len(lines)):
        yield 'opening behind line %d' % at, joined(inserted(lines[1:], at, lines[0]))
    yield 'reversed', joined(lines[::-1])


def blanks(make, most):
    return b''.join(make.choice((b' ', b' ', b'\t', b'\r')) for _ in range(make.randint(0, most)))


def with_zeros(word, make):
    """A number with zeros before it, as many as it may have."""
    digits = word.lstrip(b'-')
    if not digits.isdigit() or make.random() < 0.6:
        return word
    return word[:-len(digits)] + digits.zfill(make.randint(len(digits), 7))


def dressed_line(line, make):
    """The same record with other blanks, and its last number with zeros; the numbers before it have at most two digits."""
    words = line.split(b' ')
    words[-1] = with_zeros(words[-1], make) if words[0] != b'points' else words[-1].zfill(make.randint(1, 2))
    words = [word.zfill(make.randint(1, 2)) if word.isdigit() and at < len(words) - 1 else word for at, word in enumerate(words)]
    spaced = b''.join(word + b' ' * make.choice((1, 1, 1, 2, 5)) for word in words[:-1]) + words[-1]
    return blanks(make, 3) + spaced + blanks(make, 3)


def dressed(make, only=both):
    """Notes, empty lines, several blanks, zeros before numbers, and no line feed at the end."""
    for which in range(250):
        lines = [dressed_line(line, make) for line in mixed(record_lines(only(small_run(make))), make)]
        for _ in range(make.randint(0, 12)):
            lines = somewhere(lines, make, make.choice(NOTES + EMPTY))
        text = joined(lines)
        yield 'dressed %d' % which, text if make.random() < 0.5 else text[:-1]
    lines = record_lines(only(paper_run()))
    yield 'carriage returns', b''.join(line + b'\r\n' for line in lines)
    yield 'carriage returns and none behind the last line', b'\r\n'.join(lines)
    yield 'no last line feed', joined(lines)[:-1]
    yield 'line feeds behind', joined(lines) + b'\n\n\n'
    yield 'a blank last line', joined(lines) + b' '
    for which, note in enumerate(NOTES):
        for at in (0, 5, len(lines)):
            yield 'note %d before line %d' % (which, at), joined(inserted(lines, at, note))
        yield 'blanks and note %d' % which, joined([b' \t' + note] + lines)
        yield 'note %d as the last line without a line feed' % which, joined(lines) + note


def parted(make, only=both):
    """Tabs and carriage returns between words part them as spaces do."""
    lines = record_lines(only(paper_run()))
    for what, blank in (('a tab', b'\t'), ('a carriage return', b'\r'), ('a tab and a space', b'\t '), ('a space and a tab', b' \t'), ('two tabs', b'\t\t')):
        yield what + ' between words', joined(line.replace(b' ', blank) for line in lines)
        for at in (0, 1, len(lines) - 1):
            yield what + ' between the words of line %d' % (at + 1), joined(changed(lines, at, lines[at].replace(b' ', blank)))
            yield what + ' before the last word of line %d' % (at + 1), joined(changed(lines, at, blank.join(lines[at].rsplit(b' ', 1))))


# Damage to the bytes

def other_byte(make):
    return make.choice((make.randrange(256), make.choice(b'0123456789'), make.choice(b' \t\r\n-'), make.choice(b'acdeilnoprstuy')))


def bytes_changed(make, only=both):
    """A byte changed, dropped or doubled at every place of a small text, and several bytes of others."""
    text = joined(record_lines(only(paper_run())))
    for at in range(len(text)):
        yield 'sample with byte %d changed' % at, text[:at] + bytes([other_byte(make)]) + text[at + 1:]
        if at % 2:
            yield 'sample without byte %d' % at, text[:at] + text[at + 1:]
        else:
            yield 'sample with byte %d doubled' % at, text[:at] + text[at:at + 1] + text[at:]
    for at in range(0, len(text), 3):
        yield 'sample cut at %d' % at, text[:at]
    for which in range(200):
        text = bytearray(joined(mixed(record_lines(only(small_run(make))), make)))
        for _ in range(make.randint(1, 3)):
            text[make.randrange(len(text))] = other_byte(make)
        yield 'bytes changed %d' % which, bytes(text)


def lines_changed(make, only=both):
    """Each line of small texts doubled, dropped, and put elsewhere twice with another number."""
    for n in (1, 2):
        lines = mixed(record_lines(only(random_run(make, 3, n))), make)
        for at, line in enumerate(lines):
            yield '%d cycles without line %d' % (n, at + 1), joined(dropped(lines, at))
            yield '%d cycles with line %d doubled' % (n, at + 1), joined(inserted(lines, at, line))
            yield '%d cycles with line %d again' % (n, at + 1), joined(somewhere(lines, make, line))
            other = line.rsplit(b' ', 1)[0] + b' %d' % make.randint(-9, 9)
            yield '%d cycles with line %d and another number' % (n, at + 1), joined(somewhere(lines, make, other))
            yield '%d cycles with line %d behind the others' % (n, at + 1), joined(dropped(lines, at) + [line])


# Damage to words and numbers

def numbers(make):
    """What may stand for an input or a reading, at the first and at the last of them; one cycle, so that a reading is bound by nothing else."""
    lines = record_lines(level_run(4, 1))
    for given in NUMBERS:
        for at in (1, 4, 5, len(lines) - 1):
            front = lines[at].rsplit(b' ', 1)[0]
            yield 'line %d of %r' % (at + 1, front + b' ' + given), joined(changed(lines, at, front + b' ' + given))
        reads_again = b'up point 0 cycle 0 reads ' + given
        yield '%r a second time' % reads_again, joined(lines + [reads_again])


def smalls(make, only=both):
    """What may stand for a point, a cycle, and a number of them."""
    run = only(random_run(make, 4, 2))
    lines = record_lines(run)
    forms = ((0, b'points %s cycles 2'), (0, b'points 4 cycles %s'), (1, b'point %s input 5'), (5, b'up point 1 cycle %s reads 5'), (12, b'down point %s cycle 1 reads 5'))
    if run.strokes == 1:
        forms = ((0, b'points %s upstrokes 2'), (0, b'points 4 upstrokes %s'), *forms[2:])
    for given in SMALLS:
        for at, words in forms:
            yield 'line %d of %r' % (at + 1, words % given), joined(changed(lines, at, words % given))
            yield '%r behind the others' % (words % given), joined(lines + [words % given])


def sizes(make, only=both):
    """Every size about the limits, with the lines that it needs, or with none."""
    for m in (0, 1, 2, 3, 11, 12, 13, 99):
        for n in (0, 1, 10, 11, 12, 99):
            run = only(level_run(m, n))
            yield 'nothing but %d points and %d cycles' % (m, n), opening_line(m, n, run.strokes)
            if m < 14 and n < 13:
                lines = record_lines(run)
                yield 'a run of %d points and %d cycles' % (m, n), joined(lines)
                yield 'a shuffled run of %d points and %d cycles' % (m, n), joined(mixed(lines, make))


def word_damages(words):
    """A line's words with one of them missing, twice, in capitals, spelt otherwise, or in another place."""
    for at, word in enumerate(words):
        yield words[:at] + words[at + 1:]
        yield words[:at] + [word] + words[at:]
        yield words[:at] + [word.upper()] + words[at + 1:]
        yield words[:at] + [word.capitalize()] + words[at + 1:]
        yield words[:at] + [word + b's'] + words[at + 1:]
        yield words[:at] + [word[:-1]] + words[at + 1:]
        yield words[:at] + [word[::-1]] + words[at + 1:]
        if at:
            yield words[:at - 1] + [word, words[at - 1]] + words[at + 1:]
            yield words[:at - 1] + [words[at - 1] + word] + words[at + 1:]
    for more in WORDS + (b'0', b'-', b'.'):
        yield words + [more]
        yield [more] + words


def words(make, only=both):
    """A word too many, missing or spelt otherwise in each kind of line; the last one is there on both strokes alone."""
    lines = record_lines(only(random_run(make, 3, 1)))
    for at in (at for at in (0, 2, 4, 9) if at < len(lines)):
        for damaged in word_damages(lines[at].split(b' ')):
            line = b' '.join(damaged)
            yield 'line %d of %r' % (at + 1, line), joined(changed(lines, at, line))


def no_blanks(make):
    """Bytes that do not part words: alone on a line, before, behind and between words."""
    lines = record_lines(random_run(make, 3, 1))
    for byte in NO_BLANKS:
        yield '%r alone on a line' % byte, joined(somewhere(lines, make, byte))
        for at in (0, 3, 5):
            for what, line in (('before', byte + lines[at]), ('behind', lines[at] + byte), ('between', lines[at].replace(b' ', byte)), ('between the last words of', byte.join(lines[at].rsplit(b' ', 1)))):
                yield '%r %s line %d' % (byte, what, at + 1), joined(changed(lines, at, line))
        yield '%r at the front of a text' % byte, byte + joined(lines)
    for line in (b'notes', b'not', b'Note', b'NOTE', b'note:', b'noteworthy', b'note\x0bwarm', b'#', b'note\xc2\xa0warm', b'  notes'):
        yield 'a line of %r' % line, joined(somewhere(lines, make, line))


# Faults of the whole run

def shape(make, only=both):
    """Inputs that do not rise at each point, scatter on the limit and beyond at each place, the lines shuffled."""
    for m in (3, 5, 11):
        run = only(level_run(m, 2))
        for i in range(1, m):
            for x in (run.x[i - 1], run.x[i - 1] - 1, run.x[0] - 7):
                yield 'input %d of %d among %d points' % (i, x, m), joined(mixed(record_lines(with_point(run, i, x)), make))
        yield 'falling inputs of %d points' % m, joined(record_lines(run.but(x={i: -i for i in range(m)})))
    run = only(level_run(4, 3))
    for s in (0, 1):
        for i in range(4):
            for gap in (SCATTER, SCATTER + 1, -SCATTER, -SCATTER - 1):
                place = (s, make.randrange(3), i)
                yield 'scatter of %d at %s' % (gap, place), joined(mixed(record_lines(with_reading(run, place, gap)), make))
    for i, other in ((0, 3), (3, 0), (1, 2), (2, 1)):
        two = with_reading(with_reading(run, (0, 1, i), SCATTER + 1), (1, 2, other), -SCATTER - 1)
        yield 'scatter at points %d and %d' % (i, other), joined(mixed(record_lines(two), make))
        both = with_point(with_reading(run, (0, 1, i), SCATTER + 1), 2, 10)
        yield 'scatter at point %d and an input that does not rise, %d' % (i, other), joined(mixed(record_lines(both), make))
    strokes_apart = with_reading(with_reading(only(level_run(3, 1)), (0, 0, 1), 10**6), (1, 0, 1), -10**6)
    yield 'strokes apart at one point', joined(record_lines(strokes_apart))


# Each fault of the page, as a change of the lines of a good text

def not_understood(lines, run, make):
    return somewhere(lines, make, make.choice((b'up point 0 cycle 0 reads +5', b'point 0', b'Note', b'point 000 input 5', b'points 3', b'5')))


def second_opening(lines, run, make):
    """A second opening; in a text of upstrokes it may be one of either form."""
    again = (b'points %d cycles %d' % (run.m, run.n), b'points 3 cycles 1', b'points 99 cycles 0')
    if run.strokes == 1:
        again += tuple(line.replace(b'cycles', b'upstrokes') for line in again)
    return somewhere(lines, make, make.choice(again))


def no_opening(lines, run, make):
    return [line for line in lines if not line.startswith(b'points')]


def bad_size(lines, run, make):
    m, n = make.choice(((2, 1), (12, 1), (3, 0), (3, 11), (0, 99)))
    size = opening_line(m, n, run.strokes)
    return [size if line.startswith(b'points') else line for line in lines]


def no_such_place(lines, run, make):
    m, n, far = run.m, run.n, make.choice((5, 5, 99999, -2000000))
    line = make.choice((b'point %d input %d' % (m, far), b'up point 0 cycle %d reads %d' % (n, far), b'down point %d cycle 0 reads %d' % (m, far), b'down point 99 cycle 99 reads %d' % far))
    return somewhere(lines, make, line)


def record_at(lines, make):
    """The place of a point or a reading among the lines."""
    return make.choice([at for at, line in enumerate(lines) if line.startswith((b'point ', b'up ', b'down '))] or [0])


def beyond_limits(lines, run, make):
    at = record_at(lines, make)
    front = lines[at].rsplit(b' ', 1)[0]
    return changed(lines, at, front + make.choice((b' 1000001', b' -1000001', b' 9999999')))


def told_twice(lines, run, make):
    front = lines[record_at(lines, make)].rsplit(b' ', 1)[0]
    return somewhere(lines, make, front + make.choice((b' 0', b' 5', b' 1000001')))


def missing(lines, run, make):
    return dropped(lines, record_at(lines, make))


def not_rising(lines, run, make):
    i = make.randrange(1, run.m)
    return [b'point %d input %d' % (i, run.x[i - 1] - make.randrange(3)) if line.startswith(b'point %d ' % i) else line for line in lines]


def loose(lines, run, make):
    s, c, i = make.randrange(run.strokes), make.randrange(run.n), make.randrange(run.m)
    front = b'%s point %d cycle %d reads ' % ((b'up', b'down')[s], i, c)
    return [front + b'%d' % make.choice((SCATTER + 1, -SCATTER - 1)) if line.startswith(front) else line for line in lines]


def too_long(lines, run, make):
    out = list(lines)
    while len(joined(out)) < LONGEST - 2000:
        out = somewhere(out, make, b'note ' + b'x' * make.randint(1000, 1900))
    more = LONGEST + make.randint(1, MOST - LONGEST) - len(joined(out)) - 1
    return somewhere(out, make, b'note '.ljust(more, b'x'))


def down_line(lines, run, make):
    """A line of the down stroke, which a text of upstrokes has not; it may be beyond its limits as well, or of no cycle."""
    return somewhere(lines, make, b'down point %d cycle %d reads %d' % (make.randrange(run.m), make.choice((0, 0, run.n)), make.choice((0, 5, 1000001))))


FAULTS = (not_understood, second_opening, no_opening, bad_size, no_such_place, beyond_limits, told_twice, missing, not_rising, loose)


def faulty(faults, make, only=both):
    """A small good text with these faults, one put in after the other."""
    run = only(level_run(make.randint(3, 4), make.randint(2, 3)))
    lines = record_lines(run)
    if make.random() < 0.7:
        lines = mixed(lines, make)
    for fault in faults:
        lines = fault(lines, run, make)
    return joined(lines)


def in_words(faults):
    return ' and '.join(fault.__name__.replace('_', ' ') for fault in faults)


def two_faults(make, only=both, faults_here=FAULTS):
    """Each fault with each, itself too, in both orders; each with a text that is too long; and one, three or four at once."""
    for one in faults_here:
        for other in faults_here:
            for which in range(3):
                yield '%s, %d' % (in_words((one, other)), which), faulty((one, other), make, only)
        yield in_words((one, too_long)), faulty((one, too_long), make, only)
    for which in range(300):
        faults = make.sample(faults_here, make.choice((1, 3, 3, 4)))
        yield '%s, %d by chance' % (in_words(faults), which), faulty(faults, make, only)


def single_faults(make, only):
    """The same of upstrokes, with one fault more that they may have."""
    return two_faults(make, only, (*FAULTS, down_line))


# Long texts

def filled(lines, length, last):
    """A text of that length: these lines, then notes, the last byte being the last one given."""
    text = joined(lines)
    while len(text) < length - 3000:
        text += b'note ' + b'x' * 2000 + b'\n'
    return text + b'note ' + b'x' * (length - len(text) - 6) + last


def lengths(make):
    """Texts of the greatest length, of one byte more and of a little more, in few and in many lines, and behind a byte-order mark."""
    lines = record_lines(paper_run())
    yield '65536 bytes behind a byte-order mark', MARK + filled(lines, LONGEST, b'\n')
    yield '65537 bytes behind a byte-order mark', MARK + filled(lines, LONGEST + 1, b'\n')
    for length in (LONGEST - 1, LONGEST, LONGEST + 1, LONGEST + 2, MOST):
        for what, last in (('a line feed', b'\n'), ('no line feed', b'x')):
            yield '%d bytes with %s behind' % (length, what), filled(lines, length, last)
    yield 'one byte too many on a line of its own', filled(lines, LONGEST, b'\n') + b'x'
    yield 'one line feed too many', filled(lines, LONGEST, b'\n') + b'\n'
    yield 'the fault in the bytes that are too many', filled(lines, LONGEST, b'\n') + b'points 3 cycles 2'
    yield 'a line not understood in a text too long', filled([b'point'] + lines, LONGEST + 1, b'\n')
    yield 'a line not understood at the end of the greatest length', filled(lines, LONGEST - 6, b'\n') + b'point\n'
    yield 'the opening at the end of the greatest length', filled(lines[1:], LONGEST - len(lines[0]), b'\n') + lines[0]
    for length in (LONGEST, LONGEST + 1):
        yield '%d line feeds' % length, b'\n' * length
        yield '%d blanks' % length, b' ' * length
        yield 'one note of %d bytes' % length, b'note '.ljust(length, b'x')
        yield 'one word of %d bytes' % length, b'x' * length
        yield 'lines and %d line feeds' % (length - len(joined(lines))), joined(lines).rjust(length, b'\n')


def most_records(make, only=both):
    """Texts of more records than any run has: the fault, or the record told twice, early or late."""
    run = only(random_run(make, POINTS, CYCLES))
    lines = record_lines(run)
    opening, records = lines[0], lines[1:]
    again = [make.choice(records) for _ in range(80)]
    one = (b'up', b'down')[run.strokes - 1] + b' point 10 cycle 9 reads 5'
    late = {'nothing': [], 'a line not understood': [b'point 0'], 'a second opening': [opening], 'no such point': [b'point 11 input 0'], 'a reading beyond': [b'up point 0 cycle 0 reads 1000001'], 'a note': [b'note the end']}
    for what, tail in late.items():
        yield 'every record twice and %s' % what, joined(lines + records + tail)
        yield 'eighty records again and %s' % what, joined(lines + again + tail)
        yield 'eighty records again, shuffled, and %s' % what, joined(mixed(lines + again, make) + tail)
        yield 'the longest run and %s' % what, joined(lines + tail)
        yield 'one reading 400 times and %s' % what, joined([opening] + [one] * 400 + tail)
        yield '%s, then every record twice' % what, joined([opening] + tail + records + records)
        yield 'no opening, every record twice and %s' % what, joined(records + records + tail)
        yield 'a size beyond the limits, every record twice and %s' % what, joined([opening_line(12, 10, run.strokes)] + records + records + tail)
        yield 'a small size, every record twice and %s' % what, joined([opening_line(10, 10, run.strokes)] + records + records + tail)
        yield 'records without one, again, and %s' % what, joined(lines[:-1] + again + tail)
        yield '300 records outside and %s' % what, joined([opening] + [b'up point 0 cycle 10 reads 0'] * 300 + tail)
        yield '1700 readings of one and %s' % what, joined([opening] + [one] * 1700 + tail)
    yield 'the longest run and one record again', joined(lines + records[:1])
    yield 'one record again before the longest run', joined([records[-1]] + lines)
    yield 'the longest run in the widest words', joined(b'  ' + line.replace(b' ', b'     ') + b'  ' for line in lines)


# Rubbish

def random_bytes(make):
    for which in range(150):
        letters = make.choice((bytes(range(256)), b'points cycles\n 0123456789', b' \t\r\n'))
        yield 'random bytes %d' % which, bytes(make.choice(letters) for _ in range(make.randrange(80)))


def random_words(make):
    for which in range(200):
        lines = [b' '.join(make.choice(WORDS + (b'0', b'1', b'2', b'3', b'-5', b'77')) for _ in range(make.randrange(8))) for _ in range(make.randrange(12))]
        yield 'random words %d' % which, joined(lines)[:make.choice((None, -1))]


def random_line(make):
    i, c, y = make.randrange(4), make.randrange(3), make.choice((0, 1, -5, 5000, -5002, 30001, 1000001))
    stroke = make.choice((b'up', b'down'))
    return make.choice((b'', b'note', b'point %d input %d' % (i, y), b'%s point %d cycle %d reads %d' % (stroke, i, c, y), b'points 3 cycles %d' % c))


def random_lines(make):
    """Good lines without any order behind them: few of them, or some more than a good text has."""
    for which in range(120):
        yield 'random lines %d' % which, joined(random_line(make) for _ in range(make.randrange(14)))
    for which in range(200):
        lines = mixed(record_lines(level_run(3, 2)), make)
        for _ in range(make.choice((1, 1, 2, 3))):
            lines = changed(lines, make.randrange(len(lines)), random_line(make))
        yield 'lines put in place of others %d' % which, joined(lines)


def smallest(make):
    """Texts of next to nothing."""
    for text in (b'', b'\n', b'\n\n', b' ', b'\r\n', b'note', b'note\n', b'x', b'points 3 cycles 1', b'points 3 cycles 1\n', b'points 2 cycles 1', b'point 0 input 0', b'-', b'0', b'points 3 cycles 1\npoints 3 cycles 1', b'\0'):
        yield 'a text of %r' % text, text


# Texts of upstrokes

def named_single(make, only):
    """The up stroke of the paper's run with one thing changed, by name: these tell wrong methods apart."""
    lines = record_lines(only(paper_run()))
    opening, points, readings = lines[0], lines[1:4], lines[4:]
    down, cycles = b'down point 0 cycle 0 reads 4', b'points 3 cycles 2'
    yield 'upstrokes of the sample', joined(lines)
    yield 'upstrokes of the sample in reverse', joined(lines[::-1])
    yield 'upstrokes with a down line', joined(lines + [down])
    yield 'upstrokes behind a down line', joined([down] + lines)
    yield 'upstrokes with a down line twice', joined(lines + [down, down])
    yield 'upstrokes with a down line and its reading beyond', joined(lines + [b'down point 0 cycle 0 reads 1000001'])
    yield 'upstrokes with a down line of no cycle', joined(lines + [b'down point 0 cycle 2 reads 4'])
    yield 'upstrokes with a down line, then one not understood', joined(lines + [down, b'down point 0'])
    yield 'upstrokes with a down line, then a reading beyond', joined(lines[:-1] + [down, b'up point 2 cycle 1 reads 1000001'])
    yield 'upstrokes with a reading beyond, then a down line', joined(lines[:-1] + [b'up point 2 cycle 1 reads 1000001', down])
    yield 'upstrokes with a reading twice, then a down line', joined(lines + [readings[0], down])
    yield 'upstrokes of both strokes', joined([opening] + record_lines(paper_run())[1:])
    yield 'cycles of the up stroke alone', joined([cycles] + lines[1:])
    yield 'upstrokes with an opening of cycles', joined(lines + [cycles])
    yield 'upstrokes behind an opening of cycles', joined([cycles] + lines)
    yield 'upstrokes with another opening of upstrokes', joined(lines + [b'points 3 upstrokes 1'])
    yield 'cycles with an opening of upstrokes', joined(record_lines(paper_run()) + [opening])
    yield 'cycles behind an opening of upstrokes', joined([opening] + record_lines(paper_run()))
    yield 'both openings and nothing else', joined([opening, cycles])
    yield 'both openings the other way round', joined([cycles, opening])
    yield 'an opening of upstrokes beyond the limits, then one of cycles', joined([b'points 12 upstrokes 2', cycles])
    yield 'upstrokes with one letter less', joined([b'points 3 upstroke 2'] + lines[1:])
    yield 'upstrokes with too large a number of them', joined([b'points 3 upstrokes 100'] + lines[1:])
    yield 'upstrokes without a reading of the second cycle', joined(lines[:7] + lines[8:])
    yield 'upstrokes without the first cycle', joined(lines[:4] + lines[7:])
    yield 'upstrokes without the last reading', joined(lines[:-1])
    yield 'upstrokes without a point', joined([opening] + points[1:] + readings)
    yield 'upstrokes with scatter at the last point', joined([opening] + points[::-1] + readings[:-1] + [b'up point 2 cycle 1 reads 12001'])
    yield 'upstrokes with two inputs alike', joined([opening, b'point 2 input 10'] + points[:2] + readings)
    yield 'upstrokes with a byte-order mark', MARK + joined(lines)
    yield 'upstrokes and no last line feed', joined(lines)[:-1]
    yield 'upstrokes with capital letters', joined(lines).replace(b'upstrokes', b'Upstrokes')
    for at, other in enumerate(MISSPELT):
        yield 'upstrokes misspelt %d' % at, joined([b'points 3 ' + other + b' 2'] + lines[1:])
        yield 'upstrokes misspelt behind %d' % at, joined(lines + [b'points 3 ' + other + b' 2'])
    for line in (b'points', b'points 3', b'points 3 upstrokes', b'points 3 upstrokes 2 2', b'points 3 upstrokes 2 note', b'points upstrokes 3 2', b'upstrokes 3 points 2', b'upstrokes 2', b'point 3 upstrokes 2', b'points 3 upstrokes -2', b'points 3 upstrokes two', b'points -3 upstrokes 2', b'points 3 upstrokes 002', b'points 003 upstrokes 2'):
        yield 'upstrokes told as %s' % line.decode('ascii'), joined([line] + lines[1:])
    for line in (b' points  3\tupstrokes 02 ', b'points 03 upstrokes 2\r', b'\tpoints\r3 upstrokes  2'):
        yield 'upstrokes told as %r' % line, joined([line] + lines[1:])


def either_opening(make, only):
    """Texts with openings of both forms anywhere, and their records, or with one of the other form than their records ask for."""
    for which in range(60):
        run = small_run(make)
        lines = mixed(record_lines(make.choice((run, only(run)))), make)
        strokes = make.choice((1, 2))
        if make.random() < 0.5:
            lines = somewhere(lines, make, opening_line(run.m, run.n, strokes))
        else:
            lines = [opening_line(run.m, run.n, strokes) if line.startswith(b'points') else line for line in lines]
        yield 'either opening %d' % which, joined(lines)


def random_single(make, only):
    """Good lines without any order behind them, and random words, upstrokes among both."""
    opening = b'points 3 upstrokes 2'
    for which in range(150):
        lines = mixed(record_lines(only(level_run(3, 2))), make)
        for _ in range(make.choice((1, 1, 2, 3))):
            lines = changed(lines, make.randrange(len(lines)), make.choice((random_line(make), opening, b'points 3 upstrokes %d' % make.randrange(4))))
        yield 'lines put in place of others %d' % which, joined(lines)
    for which in range(60):
        lines = [b' '.join(make.choice(WORDS + (b'upstrokes', b'upstrokes', b'0', b'1', b'3', b'-5')) for _ in range(make.randrange(6))) for _ in range(make.randrange(6))]
        yield 'random words %d' % which, joined([opening] * make.randrange(2) + lines)


FAMILIES = (named, smallest, good, shuffled, dressed, parted, bytes_changed, lines_changed, numbers, smalls, sizes, words, no_blanks, shape, two_faults, lengths, most_records, random_bytes, random_words, random_lines)


# These take up_only for the runs of which they are made, and their texts are named anew but for those of the first two.
SINGLE_FAMILIES = (named_single, either_opening, good, shuffled, dressed, parted, bytes_changed, lines_changed, smalls, sizes, words, shape, single_faults, most_records, random_single)


def all_texts(seed):
    """(name, text): those of both strokes first; the others are made by numbers of their own, so that they do not change them."""
    make, single = random.Random(seed), random.Random(seed + 1)
    for family in FAMILIES:
        yield from family(make)
    for family in SINGLE_FAMILIES:
        for name, text in family(single, up_only):
            yield name if family in SINGLE_FAMILIES[:2] else name + ', upstrokes', text


def texts(seed=4150):
    """(name, text), always the same ones in the same order, each text once."""
    made = set()
    for name, text in all_texts(seed):
        if text not in made:
            made.add(text)
            yield name, text
