"""Holds what the programs `texts`, `typed`, `listing` and `place` make of texts and of run files to what second/text.py and second/place.py say, byte for byte, and the texts to the page, docs/TEXT.md."""
import os
import re

import make_files
import make_sheets
import make_texts
import worked_runs
import wrong_places
import wrong_texts
from compare_files import single
from compare_sheets import counts_text, named_files
from braille import CELLS, cells
from requests import LISTING, PLACE, TYPED, file_request, lent
from second import place, text
from second.runfile import answer, file_of

ROOT = os.path.dirname(os.path.dirname(os.path.abspath(__file__)))
# the most that the program `texts` lends for a listing, for a run file and for a refusal
LISTING_ROOM, FILE_ROOM, TOLD_ROOM = 8448, 2048, 120
# no line that a run needs is longer, the page says
LONGEST_LINE = 36
DUE_NUMBERS = (0, 14, *range(41, 51))
# those of upstrokes: a text without an opening is none of them
SINGLE_NUMBERS = (0, 14, *range(42, 51))
# The page says nothing of how 14 is told, so only the form of it is held: a text at the front, and nothing touched behind it.
TOLD_FOURTEEN = re.compile(rb'refusal 0 ([0-9]{1,2})\n(.{120})\n', re.DOTALL)


class Case:
    """One request: what it is of, its bytes, the bytes due, the number answered, whether it is of an up stroke only, and the lines that tell a refusal."""

    def __init__(self, what, request, due, number, only_up, told=()):
        self.what, self.request, self.due, self.number, self.only_up, self.told = what, request, due, number, only_up, told


def listing_case(what, data, content, room):
    """A run file whose listing is due in a buffer of that length."""
    (number, length), after = text.printed(content, lent(room))
    due = b'listing %d %d\n' % (number, length) + after + b'\n'
    return Case('the listing of %s with room %d' % (what, room), file_request(LISTING, data, room), due, number, single(data))


def place_case(what, data, room):
    """A run file of which it is due which record its place means, in a buffer of that length."""
    told = place.Places(data)
    (number, length), after = text.printed(text.joined(told.lines()), lent(room))
    due = b'place %d %d\n' % (number, length) + after + b'\n'
    return Case('the place of %s with room %d' % (what, room), file_request(PLACE, data, room), due, number or told.number, single(data), told.lines())


def of_upstrokes(given):
    """Whether a text is opened as one of an up stroke only; most have not the word, which is soon seen."""
    return b'upstrokes' in given and text.Text(given).strokes == 1


def typed_case(what, given, room, heard):
    """A text whose run file, or whose refusal, is due in a buffer of that length."""
    (number, line, length), after = text.put(*heard, lent(room))
    due, lines = b'typed %d %d %d\n' % (number, line, length) + after + b'\n', []
    if number in text.SAID:
        content = text.refusal(number, line, text.more_told(given, number, line))
        lines = content.split(b'\n')
        (short, told), refusal = text.printed(content, lent(TOLD_ROOM))
        due += b'refusal %d %d\n' % (short, told) + refusal + b'\n'
    return Case('text %s with room %d' % (what, room), file_request(TYPED, given, room), due, number, of_upstrokes(given), lines)


class Material:
    """The files and texts with what the second program says of them."""

    def __init__(self):
        self.files, self.texts = list(make_sheets.files()), list(make_texts.texts())
        self.answers = [answer(data) for _, data in self.files]
        self.listings = [text.listed(*answered) for answered in self.answers]
        self.heard = [text.heard(given) for _, given in self.texts]

    def listing_cases(self):
        """Every file with a buffer that holds its listing, just so or with a little more."""
        for which, ((name, data), content) in enumerate(zip(self.files, self.listings)):
            yield listing_case('file ' + name, data, content, len(content) + which % 3)

    def text_cases(self):
        """Every text: a good one with a buffer that holds its run file, a refused one with any buffer, for it is refused before 14."""
        for which, ((name, given), heard) in enumerate(zip(self.texts, self.heard)):
            room = (0, 2, 60, FILE_ROOM)[which % 4] if heard[0] else len(file_of(heard[2])) + which % 3
            yield typed_case(name, given, room, heard)

    def place_cases(self):
        """Every file that is refused, and of every tenth file also one that is accepted, with a buffer that holds what is due, one byte less, or more."""
        for which, (name, data) in enumerate([*self.files, *(('of number %d' % k, data) for k, data in enumerate(make_files.files()))]):
            if len(data) <= 4096 and (answer(data)[0] or which % 10 == 0):
                yield place_case('file ' + name, data, max(0, len(place.told(data)) + which % 4 - 1))

    def tight_cases(self):
        """Every fiftieth listing and every tenth good text with a buffer of one byte less, of nearly none, and of all that may be lent."""
        for (name, data), content in list(zip(self.files, self.listings))[::50]:
            for room in (len(content) - 1, 0, 1, LISTING_ROOM):
                yield listing_case('file ' + name, data, content, room)
        good = [(name, given, heard) for (name, given), heard in zip(self.texts, self.heard) if heard[0] == 0]
        for name, given, heard in good[::10]:
            for room in (len(file_of(heard[2])) - 1, 0, 3, FILE_ROOM):
                yield typed_case(name, given, room, heard)


def difference(got, due):
    """The first difference of two answers in words: their first lines, or the place of a byte."""
    lines = [part.split(b'\n')[0][:60] for part in (got, due)]
    if lines[0] != lines[1]:
        return 'printed %r, due %r' % tuple(lines)
    at = next((at for at, (a, b) in enumerate(zip(got, due)) if a != b), min(len(got), len(due)))
    return '%r, then at byte %d printed %r, due %r' % (lines[0], at, got[at:at + 20], due[at:at + 20])


def told_fourteen(printed, at):
    """Where the telling of 14 ends that begins at a place, or None if it has not its form."""
    found = TOLD_FOURTEEN.match(printed, at)
    length = int(found.group(1)) if found else 0
    return found.end() if 0 < length <= TOLD_ROOM and found.group(2)[length:] == lent(TOLD_ROOM - length) else None


def compare_cases(cases, printed):
    """What was printed for each case up to the first that differs, and that difference."""
    at, answers = 0, []
    for case in cases:
        got = printed[at:at + len(case.due)]
        at += len(case.due)
        if got != case.due:
            return answers, ['%s: %s' % (case.what, difference(got, case.due))]
        if case.number == 14 and case.due.startswith(b'typed'):
            end = told_fourteen(printed, at)
            if end is None:
                return answers, ['%s: 14 is told as %r' % (case.what, printed[at:at + 120])]
            at = end
        answers.append(got)
    return answers, [] if at == len(printed) else ['texts printed more than is due: %r' % printed[at:at + 60]]


def asked(run, cases):
    return compare_cases(cases, run('texts', b''.join(case.request for case in cases)))


def at_front(got):
    """The bytes that a printed answer says stand at the front of its buffer."""
    first, rest = got.split(b'\n', 1)
    return rest[:int(first.split(b' ')[-1])]


def normalised(given):
    """The record lines of a text in order, their words parted by one space and their numbers without zeros before them."""
    out = []
    for line in given.split(b'\n'):
        words = [word for word in re.split(rb'[ \t\r]+', line) if word]
        if words and words[0] != b'note':
            out.append(b' '.join(b'%d' % int(word) if word.lstrip(b'-').isdigit() else word for word in words))
    return sorted(out)


def listings_typed(made, answers):
    """Each listing that the program made of a good file, as a text: the file of the run in travel order is due."""
    for (name, _), answered, got in zip(made.files, made.answers, answers):
        if answered[0] == 0:
            yield typed_case('that is the listing of file ' + name, at_front(got), len(file_of(answered[2])) + 2, answered)


def files_listed(made, answers):
    """Each run file that the program made of a good text, and its listing."""
    for (name, _), (number, _, run), got in zip(made.texts, made.heard, answers):
        if number == 0:
            content = text.listed(0, 0, run)
            yield listing_case('the run file of text ' + name, at_front(got), content, len(content) + 2)


def round_trips(run, made, answers):
    """Both ways by running, on what the program itself printed: how many, and what is wrong."""
    count = len(made.files)
    back = list(listings_typed(made, answers))
    forth = list(files_listed(made, answers[count:]))
    got, wrong = asked(run, back + forth)
    good = [(name, given) for (name, given), (number, _, _) in zip(made.texts, made.heard) if number == 0]
    for (name, given), listing in zip(good, got[len(back):]):
        if normalised(at_front(listing)) != normalised(text.unmarked(given)):
            wrong.append('the listing of what text %s gives has other records than the text' % name)
    return len(back), len(forth), wrong


# The programs themselves

NAMED_TEXTS = ('sample', 'sample in reverse', 'carriage returns', 'no last line feed', 'dressed 0', 'dressed 1', "a text of b''", 'the longest run in the widest words', 'every record twice and nothing', '65536 bytes with a line feed behind', '65536 bytes with no line feed behind', '65537 bytes with a line feed behind', '65536 line feeds', 'sample with a byte-order mark', '65536 bytes behind a byte-order mark', '65537 bytes behind a byte-order mark', 'upstrokes of the sample', 'upstrokes of the sample in reverse', 'upstrokes with a down line', 'upstrokes with an opening of cycles', 'upstrokes behind an opening of cycles', 'upstrokes without a reading of the second cycle', 'upstrokes with one letter less', 'cycles of the up stroke alone', 'the longest run in the widest words, upstrokes')
NAMED_FILES = ('sample', 'a1', 'a4', 'c2', 'zeros', 'negative', 'empty', 'm of 11', 'widest scatter, 10 cycles, 1', 'longest with 1000 bytes behind', 'rubbish of 4096 bytes', 'sample, up only', 'a1, up only', 'm of 11, up only', 'sample, up only, of 12 points', 'sample, up only, with a down reading', 'sample opened as an up stroke only', 'sample, up only, opened as both strokes', 'longest, up only, with 1000 bytes behind')


def chosen_texts(made):
    """About fifty texts: named ones, the first and the last of each number, and two that are far too long."""
    by_name, numbers = dict(made.texts), [number for number, _, _ in made.heard]
    out = [(name, by_name[name]) for name in NAMED_TEXTS]
    for number in sorted(set(numbers)):
        out += [made.texts[numbers.index(number)], made.texts[len(numbers) - 1 - numbers[::-1].index(number)]]
    sample = by_name['sample']
    out.append(('sample with line feeds up to 70000 bytes', sample.ljust(70000, b'\n')))
    out.append(('sample with notes up to 200000 bytes', make_texts.filled(text.lines_of(sample), 200000, b'\n')))
    return out


def typed_faults(run, chosen):
    """The program `typed`: the run file on standard output, or nothing there and the refusal on standard error."""
    for name, given in chosen:
        (number, line, length), after = text.typed(given, lent(FILE_ROOM))
        due = (b'', text.refusal(number, line, text.more_told(given, number, line))) if number else (after[:length], b'')
        got = run('typed', given, errors=True)
        for what, printed, right in zip(('prints', 'says on standard error'), got, due):
            if printed != right:
                yield 'typed of text %s %s other bytes than are due: %s' % (name, what, difference(printed, right))


def chosen_files(made):
    """Nearly sixty files: named ones, one of each refusal, of both strokes and of an up stroke only, shuffled ones, and ones of 5,000 bytes."""
    where = named_files(made.files)
    picked = [where[name] for name in NAMED_FILES]
    for number in range(1, 11):
        of_number = [which for which, answered in enumerate(made.answers) if answered[0] == number]
        picked += [next(which for which in of_number if single(made.files[which][1]) == only_up) for only_up in (False, True)]
    shuffles = [which for which, (name, _) in enumerate(made.files) if name.endswith(', shuffled')]
    out = [made.files[which] for which in picked + shuffles[::len(shuffles) // 10]]
    for name in ('sample', 'longest without its close'):
        out.append((name + ' filled up to 5000 bytes', made.files[where[name]][1].ljust(5000, b'\0')))
    return out


def listing_faults(run, chosen):
    """The program `listing`, a file on its standard input."""
    for name, data in chosen:
        got, due = run('listing', data), text.listing(data)
        if got != due:
            yield 'listing of file %s: %s' % (name, difference(got, due))


def place_faults(run, chosen):
    """The program `place`, a file on its standard input."""
    for name, data in chosen:
        got, due = run('place', data), place.told(data)
        if got != due:
            yield 'place of file %s: %s' % (name, difference(got, due))


def wide_faults(cases):
    """Each line that tells a refusal fits forty cells."""
    for case in cases:
        for line in case.told:
            if cells(line.decode('ascii')) > CELLS:
                yield '%s: %r has %d cells' % (case.what, line, cells(line.decode('ascii')))


# The page

def indented(page, heading):
    """The first indented block under a heading, as a text."""
    found = re.search(r'^## %s\n(?:[^ #\n].*\n|\n)*((?:    .*\n)+)' % heading, page, re.MULTILINE)
    return re.sub(r'^    ', '', found.group(1), flags=re.MULTILINE).encode('utf-8') if found else b''


def example_faults(run, example):
    """The page's example is the paper's run: its run file, the sheet of that, and its listing."""
    data, due = worked_runs.part(os.path.join(ROOT, 'runs'), 'sample', '.run'), worked_runs.part(os.path.join(ROOT, 'runs'), 'sample', '.sheet')
    right = file_of(answer(data)[2])
    (number, line, length), after = text.typed(example, lent(FILE_ROOM))
    if number:
        yield "the second program refuses the page's example: %d at line %d" % (number, line)
    if after[:length] != right:
        yield "the second program makes another run of the page's example than runs/sample.run"
    got = run('typed', example)
    if got != right:
        yield "typed makes another run file of the page's example than runs/sample.run: %s" % difference(got, right)
    if run('sheet', got) != due:
        yield "the sheet of the page's example is not runs/sample.sheet"
    if normalised(run('listing', got)) != normalised(example):
        yield "the listing of the page's example has other records"


def table_faults(page):
    """The page's table of refusals, and the refusal that it shows, are those of the second program."""
    rows = {int(number): said.encode('utf-8') for number, said in re.findall(r'^\| (\d+) \| ([^|]*?) \|', page, re.MULTILINE)}
    if sorted(rows) != list(range(41, 51)):
        yield 'the page has refusals %s' % sorted(rows)
    for number in range(41, 51):
        if text.refusal(number, 7) != b'refused %d line 7\n%s\n' % (number, rows.get(number, b'')):
            yield 'the page says %r for %d, and the second program %r' % (rows.get(number), number, text.refusal(number, 7))
    if indented(page, 'Refusals') != text.refusal(46, 7, [b'line 3 told it first']):
        yield 'the page shows another refusal than that of 46 at line 7, told first in line 3'


def line_faults(listings):
    longest = max(len(line) for content in listings for line in content.split(b'\n'))
    if longest != LONGEST_LINE:
        yield 'the longest line of a listing has %d characters, where the page says %d' % (longest, LONGEST_LINE)


def page_faults(run, made):
    with open(os.path.join(ROOT, 'docs', 'TEXT.md'), encoding='utf-8') as file:
        page = file.read()
    yield from example_faults(run, indented(page, 'An example'))
    yield from table_faults(page)
    yield from line_faults(made.listings)


def met(cases, answers, numbers=DUE_NUMBERS):
    """How often each number was answered of a text, of a listing and of a place; a file that was refused counts by its refusal."""
    typed, listed, placed = dict.fromkeys(numbers, 0), dict.fromkeys((*range(11), 14), 0), dict.fromkeys((*range(11), 14), 0)
    for case in cases:
        if case.due.startswith(b'typed'):
            typed[case.number] += 1
        elif case.due.startswith(b'place'):
            placed[case.number] += 1
        elif case.number:
            listed[case.number] += 1
    for number, _, _ in answers:
        listed[number] += 1
    return {'texts': typed, 'listings': listed, 'places': placed}


def all_met(cases, made):
    """The counts by what is asked, and the same of an up stroke only."""
    singles = [answered for (_, data), answered in zip(made.files, made.answers) if single(data)]
    only_up = met([case for case in cases if case.only_up], singles, SINGLE_NUMBERS)
    return {**met(cases, made.answers), **{name + ' of an up stroke only': counts for name, counts in only_up.items()}}


def missing(counted):
    for name, counts in counted.items():
        yield from ('no %s were answered with %d' % (name, number) for number, count in counts.items() if not count)


def compare(run):
    made = Material()
    cases = [*made.listing_cases(), *made.text_cases(), *made.tight_cases(), *made.place_cases()]
    answers, wrong = asked(run, cases)
    back = forth = 0
    if not wrong:
        back, forth, wrong = round_trips(run, made, answers)
    texts, files = chosen_texts(made), chosen_files(made)
    wrong += [*typed_faults(run, texts), *listing_faults(run, files), *place_faults(run, files), *page_faults(run, made), *wide_faults(cases)]
    counted = all_met(cases, made)
    wrong += missing(counted)
    more, told = wrong_texts.told_apart(made.texts)
    more_places, told_places = wrong_places.told_apart(made.files)
    first = ['texts: %d texts and %d files, %d listings typed again, %d typed texts listed, %d texts and %d files by the programs themselves' % (len(made.texts), len(made.files), back, forth, len(texts), len(files))]
    first += ['%s met: %s' % (name, counts_text(counts)) for name, counts in counted.items()]
    return len(cases) + back + forth + len(texts) + 2 * len(files), wrong + more + more_places, first + told + told_places
