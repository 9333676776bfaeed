"""How many cells a line has in braille: UEB, uncontracted, by its rules for the signs that the bench and its work sheets use. `make heard` holds this count to liblouis, whose table en-ueb-g1 has these rules."""
import re

CELLS = 40
DIGITS = '0123456789'
# a number, or several with one space between them, which share one number sign; a dot or a comma only between digits; a word of capitals; or one sign
PART = re.compile(r'[0-9]+(?:[., ][0-9]+)*|[A-Z]+|.')
ONE_CELL = set("abcdefghijklmnopqrstuvwxyz :;,.'-")
TWO_CELLS = set('*=+/()')
# what is marked in other ways and not counted here
UNCOUNTED = [
    (re.compile(r'(?:[A-Z]+[^A-Za-z]+){2}[A-Z]'), 'three words of capitals in a row'),
    (re.compile(r'[A-Z]{2}[a-z]'), 'a small letter behind several capitals'),
    (re.compile(r'[0-9][.,][a-z]'), 'a letter behind the dot of a number'),
]


class NotCounted(Exception):
    """A line has something of which this page does not say how many cells it has."""


def part_cells(part, behind_number):
    if part[0] in DIGITS:
        return 1 + len(part)
    if 'A' <= part[0] <= 'Z':
        return len(part) + (1 if len(part) == 1 else 2)
    if part in ONE_CELL:
        # the letters a to j are the signs of digits, so behind a number they are marked
        return 2 if behind_number and part in 'abcdefghij' else 1
    if part in TWO_CELLS:
        return 2
    raise NotCounted('the sign %s' % ascii(part))


def cells(line):
    """The cells of a line. A number has one more than its digits, for the number sign; a capital has one more, and a word of capitals two."""
    for form, what in UNCOUNTED:
        if form.search(line):
            raise NotCounted(what)
    count, behind_number = 0, False
    for part in PART.findall(line):
        count += part_cells(part, behind_number)
        behind_number = part[0] in DIGITS
    return count
