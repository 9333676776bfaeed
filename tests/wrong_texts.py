"""The readings of docs/TEXT.md that go wrong, each as a method that differs from the right one in that alone, and for each the text that tells it apart."""
import re
from functools import cached_property

from make_texts import MARK
from second.runfile import all_places
from second.text import FORMS, LENGTH, LONGEST, RECORDS, Text, apart_pair, heard, more_told, patterns


class PairedByPlace(Text):
    @cached_property
    def run(self):
        """The jth up reading of the text belongs to the jth point, cycle after cycle, and so does the jth down reading."""
        y = {}
        for stroke in (0, 1):
            values = [value for _, place, value in self.told if place[:2] == ('reading', stroke)]
            y.update({(stroke, j // self.m, j % self.m): value for j, value in enumerate(values)})
        return super().run.but(y=y)


class FromOne(Text):
    def place(self, name, numbers):
        """The first point is 1 and the first cycle is 1; 0 is then no point of any run."""
        return super().place(name, [(v - 1) % 256 for v in numbers])


class PointForCycle(Text):
    def place(self, name, numbers):
        """The first number of a reading is its cycle, and the second its point."""
        return super().place(name, numbers if name == 'point' else [numbers[1], numbers[0], numbers[2]])


class LastOfTwo(Text):
    @cached_property
    def first(self):
        return {place: (line, value) for line, place, value in self.told}


class PointsSorted(Text):
    @cached_property
    def run(self):
        """The points by rising input, each with its readings."""
        run = super().run
        order = sorted(run.x, key=run.x.get)
        y = {(s, c, order.index(i)): value for (s, c, i), value in run.y.items()}
        return run.but(x={j: run.x[i] for j, i in enumerate(order)}, y=y)


class MissingAsZero(Text):
    def missing(self):
        return {place for place in super().missing() if place[0] == 'point'}


class OneWalk(Text):
    def complaints(self):
        """Each line is judged whole before the next one."""
        return [(FORMS if turn == RECORDS else turn, line, order, number) for turn, line, order, number in super().complaints()]


class RecordsFirst(Text):
    def complaints(self):
        """The records are judged before the lines that are not understood."""
        return [(FORMS - 1 if turn == RECORDS else turn, line, order, number) for turn, line, order, number in super().complaints()]


class LimitsBeforePlaces(Text):
    def record_faults(self):
        return [(turn, line, -order if number == 45 else order, number) for turn, line, order, number in super().record_faults()]


class TwiceBeforeLimits(Text):
    def record_faults(self):
        return [(turn, line, -order if number == 46 else order, number) for turn, line, order, number in super().record_faults()]


class SpeakingLinesAlone(Text):
    def complaints(self):
        """Empty lines and notes are not counted."""
        speaking = [line for line, name, _ in self.spoken if name != 'idle']
        return [(turn, len([at for at in speaking if at <= line]), order, number) for turn, line, order, number in super().complaints()]


class PointBefore(Text):
    def line_of_point(self, i):
        return super().line_of_point(max(0, i - 1))


class FirstPartAlone(Text):
    def __init__(self, text):
        Text.__init__(self, text[:LONGEST])


class LengthLast(Text):
    def length_faults(self):
        return []

    def complaints(self):
        return super().complaints() or list(Text.length_faults(self))


class SpacesAlone(Text):
    forms = patterns(parting=b' ')


class EveryBlank(Text):
    forms = patterns(parting=rb'\s')


class AnyCase(Text):
    forms = patterns(flags=re.IGNORECASE)


class LongSmalls(Text):
    forms = patterns(small=rb'([0-9]{1,3})')


class LongNumbers(Text):
    forms = patterns(number=rb'(-?[0-9]{1,8})')


class PlusSigns(Text):
    forms = patterns(number=rb'([-+]?[0-9]{1,7})')


class MarkIsAWord(Text):
    def __init__(self, text):
        """A byte-order mark is the beginning of the first word."""
        Text.__init__(self, MARK + text if text.startswith(MARK) else text)


class EveryMark(Text):
    def __init__(self, text):
        Text.__init__(self, text.replace(MARK, b''))


class MarkCounts(Text):
    def length_faults(self):
        """The mark is counted for the length."""
        return [(LENGTH, self.given[:LONGEST].count(b'\n') + 1, 0, 48)] if len(self.given) > LONGEST else []

    def __init__(self, text):
        self.given = text
        Text.__init__(self, text)


class ByListing(Text):
    def order(self):
        """What is missing is looked for as a listing goes: the down stroke with its lowest input first."""
        return sorted(all_places(self.m, self.n, self.strokes), key=lambda p: (0, p[1]) if p[0] == 'point' else (1, p[2], p[1], p[3]))


class ReadingsFirst(Text):
    def order(self):
        """What is missing is looked for among the readings, and then among the points."""
        return sorted(super().order(), key=lambda p: p[0] == 'point')


class LowerFirst(Text):
    def pair(self, i):
        s, high, low = super().pair(i)
        return s, low, high


class DownFirst(Text):
    def pair(self, i):
        """The down stroke is looked at first."""
        turned = self.run.but(y={(1 - s, c, j): y for (s, c, j), y in self.run.y.items()})
        s, high, low = apart_pair(turned, i)
        return 1 - s, high, low


class FurthestApart(Text):
    def pair(self, i):
        """The highest and the lowest reading of the stroke that lies apart."""
        s, _, _ = super().pair(i)
        cycles = sorted(range(self.run.n), key=lambda c: self.run.y[s, c, i])
        return s, cycles[-1], cycles[0]


# Readings of upstrokes

class KnowsNoUpstrokes(Text):
    """The third word of an opening is cycles alone, as it was before C-13."""

    forms = {name: pattern for name, pattern in Text.forms.items() if name != 'upstrokes'}


class UpstrokesAsCycles(Text):
    """A run of upstrokes has both strokes all the same."""

    def __init__(self, text):
        Text.__init__(self, text)
        self.strokes = 2 if self.openings else 0


class DownLeftOut(Text):
    """A down line in a text of upstrokes is passed over, as a note is."""

    def __init__(self, text):
        Text.__init__(self, text)
        self.told = [(line, place, value) for line, place, value in self.told if self.strokes == 2 or place[:2] != ('reading', 1)]


class DownNotUnderstood(Text):
    """A down line in a text of upstrokes is 42."""

    def form_faults(self):
        yield from super().form_faults()
        for line, name, _ in self.spoken:
            if name == 'down' and self.strokes == 1:
                yield FORMS, line, 0, 42


class OpeningsApart(Text):
    """An opening of cycles and one of upstrokes are no two of the same; the first one counts."""

    def form_faults(self):
        for fault in super().form_faults():
            alike = [line for line, _, _, strokes in self.openings if strokes == self.strokes]
            if fault[3] != 46 or fault[1] in alike[1:]:
                yield fault


class LastOpening(Text):
    """The last opening counts, and those before it are passed over."""

    def __init__(self, text):
        Text.__init__(self, text)
        if self.openings:
            self.openings = self.openings[-1:]
            self.m, self.n, self.strokes = self.openings[0][1:]


class TwoUpstrokesACycle(Text):
    """A number of upstrokes is taken for a number of all strokes: two are a cycle."""

    def __init__(self, text):
        Text.__init__(self, text)
        if self.strokes == 1:
            self.n = self.n // 2


class AnyEnding(Text):
    """upstroke and upstrokes are one word."""

    forms = {**Text.forms, 'upstrokes': re.compile(Text.forms['upstrokes'].pattern.replace(b'upstrokes', b'upstrokes?'))}


class OddThirdWord(Text):
    """Of an opening whose third word is not cycles that word is told, though it may be upstrokes."""

    def odd(self, line):
        words = line.split()
        return b'word 3 is not understood' if words[:1] == [b'points'] and words[2:3] == [b'upstrokes'] else super().odd(line)


class WordsFromZero(Text):
    def odd(self, line):
        return re.sub(rb'[0-9]+', lambda found: b'%d' % (int(found.group()) - 1), super().odd(line))


class EveryWordIsThere(Text):
    def odd(self, line):
        """A line that ends too early has a word that is not understood."""
        return super().odd(line).replace(b'missing', b'not understood')


# What is done wrongly, the method, and the text that tells it apart.
WRONG = [
    ('pairing readings by their place in the text', PairedByPlace, 'sample in reverse'),
    ('numbering from 1', FromOne, 'sample'),
    ('taking the point for the cycle', PointForCycle, 'sample'),
    ('taking the last of two equal readings', LastOfTwo, 'sample with a reading twice'),
    ('sorting points by input', PointsSorted, 'sample with two inputs exchanged'),
    ('reading a missing reading as 0', MissingAsZero, 'sample without a reading'),
    ('judging each line whole before the next', OneWalk, 'sample with a place outside, then a line not understood'),
    ('judging records before lines that are not understood', RecordsFirst, 'sample with a line not understood, then a place outside'),
    ('limits before places', LimitsBeforePlaces, 'sample with a place outside and its reading beyond'),
    ('told before, before limits', TwiceBeforeLimits, 'sample with a reading twice and beyond'),
    ('counting only the lines that say something', SpeakingLinesAlone, 'sample with a line not understood behind notes'),
    ('naming the line of the point before', PointBefore, 'sample with two inputs alike'),
    ('reading only the first 65536 bytes', FirstPartAlone, '65537 bytes with a line feed behind'),
    ('telling the length last', LengthLast, 'a line not understood in a text too long'),
    ('words parted by spaces alone', SpacesAlone, 'sample with tabs between words'),
    ('words parted by every blank of ASCII', EveryBlank, 'sample with form feeds between words'),
    ('words in any letters', AnyCase, 'sample with capital letters'),
    ('points of three digits', LongSmalls, 'sample with a point of three digits'),
    ('readings of eight digits', LongNumbers, 'sample with a reading of eight digits'),
    ('a plus sign', PlusSigns, 'sample with a plus sign'),
    ('taking a byte-order mark for a word', MarkIsAWord, 'sample with a byte-order mark'),
    ('taking off every byte-order mark', EveryMark, 'sample with two byte-order marks'),
    ('counting the byte-order mark for the length', MarkCounts, '65536 bytes behind a byte-order mark'),
    ('telling what is missing by the order of a listing', ByListing, 'sample without the down stroke of its second cycle'),
    ('telling a missing reading before a missing point', ReadingsFirst, 'points alone but for one'),
    ('telling the lower of two lines first', LowerFirst, 'sample with scatter at the last point'),
    ('telling of the down stroke first', DownFirst, 'sample with both strokes apart at the last point'),
    ('telling the two that lie furthest apart', FurthestApart, 'three cycles that lie apart'),
    ('knowing no upstrokes', KnowsNoUpstrokes, 'upstrokes of the sample'),
    ('wanting the down stroke of upstrokes', UpstrokesAsCycles, 'upstrokes of the sample'),
    ('passing over a down line of upstrokes', DownLeftOut, 'upstrokes with a down line'),
    ('understanding no down line of upstrokes', DownNotUnderstood, 'upstrokes with a down line'),
    ('limits before strokes', LimitsBeforePlaces, 'upstrokes with a down line and its reading beyond'),
    ('taking an opening of each kind', OpeningsApart, 'upstrokes with an opening of cycles'),
    ('taking the last of two openings', LastOpening, 'upstrokes with an opening of cycles'),
    ('counting two upstrokes as a cycle', TwoUpstrokesACycle, 'upstrokes of the sample'),
    ('upstroke for upstrokes', AnyEnding, 'upstrokes with one letter less'),
    ('telling the third word of upstrokes', OddThirdWord, 'upstrokes with too large a number of them'),
    ('telling what is missing of upstrokes by both strokes', UpstrokesAsCycles, 'upstrokes without a reading of the second cycle'),
    ('counting words from 0', WordsFromZero, 'sample with a line that ends too early'),
    ('taking a word that is missing for one that is there', EveryWordIsThere, 'sample with a line that ends too early'),
]


def told(answer):
    """What was answered of a text, all that a run file has of it, and what more is told."""
    (number, line, run), more = answer
    return number, line, run.m, run.n, run.strokes, run.inputs(), run.readings(), more


def answered(given, method=Text):
    number, line, run = heard(given, method)
    return (number, line, run), more_told(given, number, line, method)


def sentence(what, name, right, other):
    shown = [' '.join(['%d at line %d' % answer[:2]] + [line.decode('ascii') for line in more]) if answer[0] else 'accepted' for answer, more in (other, right)]
    if shown[0] == shown[1]:
        return '%s differs at text %s: another run' % (what, name)
    return '%s differs at text %s: %s, where %s is due' % (what, name, *shown)


def told_apart(texts):
    """What no text tells from the page, and for each wrong method the text at which it differs."""
    wrong, told_of = [], []
    by_name = dict(texts)
    for what, method, name in WRONG:
        if name not in by_name:
            wrong.append('there is no text %s to tell %s from the page' % (name, what))
            continue
        right, other = answered(by_name[name]), answered(by_name[name], method)
        if told(right) == told(other):
            wrong.append('the text %s does not tell %s from the page' % (name, what))
        else:
            told_of.append(sentence(what, name, right, other))
    return wrong, told_of
