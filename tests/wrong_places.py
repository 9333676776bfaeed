"""Wrong methods of telling which record a place means, each with a file that tells it from the right one."""
from second.place import Places
from second.runfile import OPENINGS


class FromZero(Places):
    """Records are counted from 0."""

    def __init__(self, data):
        super().__init__(data)
        self.found = [(k - 1, record) for k, record in self.found]
        self.entries = [(k - 1, place, value) for k, place, value in self.entries]
        self.first = {place: k - 1 for place, k in self.first.items()}


class BehindTheOpening(Places):
    """The opening is not counted."""

    def refused(self):
        number, words = super().refused()
        return max(1, number - 1), words


class ByEightBytes(Places):
    """Every record is taken to have eight bytes."""

    def refused(self):
        return self.place // 8 + 1, super().refused()[1]


class LastTold(Places):
    """The last record at the place is named, not the first."""

    def __init__(self, data):
        super().__init__(data)
        self.first = {place: k for k, place, _ in self.entries}


class PointAsRecord(Places):
    """Under 9 and 10 the point's index is taken for a record's number."""

    def refused(self):
        return (self.place + 1, b'point %d' % self.place) if self.number >= 9 else super().refused()


class CloseItself(Places):
    """Under 8 the close is named, not what stands behind it."""

    def refused(self):
        return (len(self.found), b'close') if self.number == 8 else super().refused()


class KnowsNoFive(Places):
    """An opening of an up stroke only is told as a kind that may not stand there."""

    def refused(self):
        number, words = super().refused()
        return (1, b'kind 5') if number == 1 and words.startswith(b'points') and OPENINGS[self.found[0][1][1]] == 1 else (number, words)


class EveryOpeningOfCycles(Places):
    """An opening of an up stroke only is told as one of both strokes."""

    def refused(self):
        number, words = super().refused()
        return number, words.replace(b'upstrokes', b'cycles')


class DownAsStroke(Places):
    """A down reading that the run has no stroke for is told as a stroke that no run has."""

    def refused(self):
        number, words = super().refused()
        return number, b'stroke 1' if words.startswith(b'down') and self.sizes()[2] == 1 else words


class MissingOfBothStrokes(Places):
    """What is missing is looked for on both strokes of every run."""

    def sizes(self):
        m, n, _ = super().sizes()
        return m, n, 2


class LaterOpeningAsOpening(Places):
    """A second opening is told as an opening, not as a kind that may not stand there."""

    def refused(self):
        number, words = super().refused()
        return number, b'points' if words in (b'kind 1', b'kind 5') and number > 1 else words


# What is done wrongly, the method, and the file that tells it apart.
WRONG = [
    ('counting records from 0', FromZero, 'x of 30001'),
    ('leaving the opening out of the count', BehindTheOpening, 'x of 30001'),
    ('taking every record for eight bytes', ByEightBytes, 'x of 30001'),
    ('naming the last record at the place', LastTold, 'longest with a second reading and rubbish'),
    ('taking a point for a record', PointAsRecord, 'scatter of 10001'),
    ('naming the close under 8', CloseItself, 'longest with 1 bytes behind'),
    ('knowing no opening of kind 5', KnowsNoFive, 'sample, up only, of 12 points'),
    ('telling every opening as one of cycles', EveryOpeningOfCycles, 'sample, up only, of 12 points'),
    ('telling a down reading as a stroke that no run has', DownAsStroke, 'sample, up only, with a down reading'),
    ('looking for the down stroke of every run', MissingOfBothStrokes, 'sample, up only, without the second cycle'),
    ('telling a second opening as an opening', LaterOpeningAsOpening, 'sample with an opening of an up stroke only'),
]


def shown(lines):
    return ' / '.join(line.decode('ascii') for line in lines)


def told_apart(files):
    """What no file tells from the right method, and for each wrong one the file at which it differs."""
    wrong, told_of = [], []
    by_name = dict(files)
    for what, method, name in WRONG:
        if name not in by_name:
            wrong.append('there is no file %s to tell %s from what is due' % (name, what))
            continue
        right, other = Places(by_name[name]).lines(), method(by_name[name]).lines()
        if right == other:
            wrong.append('the file %s does not tell %s from what is due' % (name, what))
        else:
            told_of.append('%s differs at file %s: %s, where %s is due' % (what, name, shown(other), shown(right)))
    return wrong, told_of
