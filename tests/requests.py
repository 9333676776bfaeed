"""What the programs of the comparison are sent, in numbers of 8 bytes, low byte first. The first requests are those of the program `answers`, as the head of crates/answers/src/main.rt says; the last three are those of the program `texts`, which are sent as a file is."""
READ, WRITE, SHEET, INDICES, CLOSE = range(5)
LISTING, TYPED, PLACE = range(3)


def word(value):
    return value.to_bytes(8, 'little')


def signed(values):
    """Numbers that may be negative: each is sent more by 2 to the 63rd."""
    return b''.join(word(v + 2**63) for v in values)


def file_request(kind, data, room):
    return word(kind) + word(room) + word(len(data)) + data


def run_request(kind, run, room):
    return word(kind) + word(room) + word(run.m) + word(run.n) + word(run.strokes) + signed(run.inputs() + run.readings())


def lent(room):
    """What a buffer of that length holds when it is lent."""
    return bytes([170]) * room
