"""Messages as frames of bytes, as docs/FORMATS.md has them."""
from collections import namedtuple

MOST_BYTES = 134217728
# the newest of the two ways to write a message; under the first one, holdings have no columns, and stand for all
WIRE = 2
ALL_COLUMNS = list(range(12))

# to the server
Hello = namedtuple('Hello', 'client number wire', defaults=[WIRE])
Resume = namedtuple('Resume', 'client number version holdings wire', defaults=[WIRE])
Ask = namedtuple('Ask', 'number fresh parts')
Write = namedtuple('Write', 'number sql')
# to the client
Welcome = namedtuple('Welcome', 'number version kept')
Notice = namedtuple('Notice', 'version tells')
Rows = namedtuple('Rows', 'number part rows')
Reply = namedtuple('Reply', 'number version')
Written = namedtuple('Written', 'number version')
Refused = namedtuple('Refused', 'number why place')
Lapse = namedtuple('Lapse', 'version')
# in them: a rect is a span for each column, and a span None for all values, (lo, hi) of numbers or of texts, hi None where there is none,
# or NULL_SPAN; a cell that is NULL is None
NULL_SPAN = 'null', 'null'
Holding = namedtuple('Holding', 'table columns rects')
Part = namedtuple('Part', 'table columns rects')
Tell = namedtuple('Tell', 'table key after')

KINDS = {0x01: Hello, 0x02: Resume, 0x03: Ask, 0x04: Write, 0x11: Welcome, 0x12: Notice, 0x13: Rows, 0x14: Reply, 0x15: Written,
         0x16: Refused, 0x17: Lapse}
FROM_CLIENTS = (Hello, Resume, Ask, Write)


# ---- writing

def number(value, size):
    return value.to_bytes(size, 'big', signed=value < 0)


def text(value):
    return number(len(value), 1) + value


def span_bytes(span):
    if span is None:
        return b'\x00'
    if span == NULL_SPAN:
        return b'\x04'
    lo, hi = span
    if isinstance(lo, int):
        return b'\x01' + number(lo, 8) + number(hi, 8)
    return b'\x03' + text(lo) if hi is None else b'\x02' + text(lo) + text(hi)


def rects_bytes(rects):
    return number(len(rects), 4) + b''.join(number(len(rect), 1) + b''.join(map(span_bytes, rect)) for rect in rects)


def cell_bytes(cell):
    if cell is None:
        return b'\x02'
    return b'\x00' + number(cell, 8) if isinstance(cell, int) else b'\x01' + text(cell)


def row_bytes(row):
    return number(len(row), 1) + b''.join(map(cell_bytes, row))


def part_bytes(part):
    """Those of an asked part, or of what is held."""
    return number(part.table, 1) + number(sum(1 << column for column in part.columns), 2) + rects_bytes(part.rects)


def holding_bytes(held, wire):
    return part_bytes(held) if wire == 2 else number(held.table, 1) + rects_bytes(held.rects)


def tell_bytes(tell):
    after = b'\x00' if tell.after is None else b'\x01' + row_bytes(tell.after)
    return number(tell.table, 1) + cell_bytes(tell.key) + after


def fields(message):
    kind = type(message)
    if kind is Hello:
        return number(message.wire, 1) + number(message.client, 1) + number(message.number, 8)
    if kind is Resume:
        begin = fields(Hello(message.client, message.number, message.wire)) + number(message.version, 8)
        return begin + number(len(message.holdings), 4) + b''.join(holding_bytes(held, message.wire) for held in message.holdings)
    if kind is Ask:
        return number(message.number, 8) + number(message.fresh, 1) + number(len(message.parts), 1) + b''.join(map(part_bytes, message.parts))
    if kind is Write:
        return number(message.number, 8) + number(len(message.sql), 4) + message.sql
    if kind is Welcome:
        return number(message.number, 8) + number(message.version, 8) + number(message.kept, 1)
    if kind is Notice:
        return number(message.version, 8) + number(len(message.tells), 4) + b''.join(map(tell_bytes, message.tells))
    if kind is Rows:
        return number(message.number, 8) + number(message.part, 1) + number(len(message.rows), 2) + b''.join(map(row_bytes, message.rows))
    if kind is Refused:
        return number(message.number, 8) + number(message.why, 1) + number(message.place, 4)
    return b''.join(number(value, 8) for value in message)


def frame(message):
    """The frame of a message; bytes stay as they are."""
    if isinstance(message, bytes):
        return message
    kind = next(byte for byte, kind in KINDS.items() if kind is type(message))
    body = number(kind, 1) + fields(message)
    return number(len(body), 4) + body


def spelled(messages):
    return b''.join(map(frame, messages))


# ---- reading

class Short(Exception):
    """More bytes have to come."""


class Fault(Exception):
    """No frame begins so. It says what is wrong, as an error line does."""


class Fields:
    """Reads the fields of one frame from the left. At the first that is outside the rules it names the place."""

    def __init__(self, whole):
        self.bytes, self.at = whole, 5

    def take(self, size):
        if self.at + size > len(self.bytes):
            raise Fault('field %d' % self.at)
        self.at += size
        return self.bytes[self.at - size:self.at]

    def number(self, size, least=0, most=None):
        place, value = self.at, int.from_bytes(self.take(size), 'big')
        if value < least or (most is not None and value > most):
            raise Fault('field %d' % place)
        return value

    def signed(self):
        return int.from_bytes(self.take(8), 'big', signed=True)

    def text(self):
        """A bound of texts."""
        return self.take(self.number(1, 0, 121))

    def utf8(self, size):
        place, value = self.at, self.take(size)
        try:
            value.decode('utf-8')
        except UnicodeDecodeError:
            raise Fault('field %d' % place) from None
        return value

    def many(self, size, least, most, item):
        return [item() for _ in range(self.number(size, least, most))]

    def span(self):
        """Of two ends the second is at fault where it does not lie behind the first."""
        kind = self.number(1, 0, 4)
        if kind in (0, 4):
            return NULL_SPAN if kind else None
        if kind == 3:
            return self.text(), None
        end = self.signed if kind == 1 else self.text
        lo, place, hi = end(), self.at, end()
        if lo > hi or (kind == 2 and lo == hi):
            raise Fault('field %d' % place)
        return lo, hi

    def rect(self):
        return tuple(self.many(1, 1, 12, self.span))

    def rects(self):
        return self.many(4, 1, 16384, self.rect)

    def cell(self, last=2):
        kind = self.number(1, 0, last)
        if kind == 2:
            return None
        return self.signed() if kind == 0 else self.utf8(self.number(1, 0, 120))

    def key(self):
        """A cell that is not NULL."""
        return self.cell(1)

    def row(self):
        return tuple(self.many(1, 1, 12, self.cell))

    def columns(self):
        columns = self.number(2, 0, 4095)
        return [column for column in ALL_COLUMNS if columns >> column & 1]

    def holding(self, wire):
        return Holding(self.number(1, 0, 15), self.columns() if wire == 2 else ALL_COLUMNS, self.rects())

    def part(self):
        return Part(self.number(1), self.columns(), self.rects())

    def tell(self):
        table, key = self.number(1), self.key()
        return Tell(table, key, self.row() if self.number(1, 0, 1) else None)

    def message(self, kind):
        if kind in (Hello, Resume):
            wire, client, request = self.number(1, 1, WIRE), self.number(1, 1, 64), self.number(8)
            if kind is Hello:
                return Hello(client, request, wire)
            return Resume(client, request, self.number(8), self.many(4, 1, 1024, lambda: self.holding(wire)), wire)
        if kind is Ask:
            return Ask(self.number(8), self.number(1, 0, 1) == 1, self.many(1, 1, 4, self.part))
        if kind is Write:
            return Write(self.number(8), self.utf8(self.number(4, 0, 65536)))
        if kind is Welcome:
            return Welcome(self.number(8), self.number(8), self.number(1, 0, 1) == 1)
        if kind is Notice:
            return Notice(self.number(8), self.many(4, 0, 10000, self.tell))
        if kind is Rows:
            return Rows(self.number(8), self.number(1, 0, 3), self.many(2, 1, 256, self.row))
        if kind is Refused:
            return Refused(self.number(8), self.number(1, 1, 33), self.number(4))
        return kind(*[self.number(8) for _ in kind._fields])


def read(stream):
    """The first message of a stream, and how many bytes it has."""
    if len(stream) < 4:
        raise Short
    length = int.from_bytes(stream[:4], 'big')
    if length == 0:
        raise Fault('field 0')
    if length > MOST_BYTES:
        raise Fault('long %d' % length)
    if len(stream) == 4:
        raise Short
    if stream[4] not in KINDS:
        raise Fault('kind %d' % stream[4])
    if len(stream) < length + 4:
        raise Short
    fields_of = Fields(stream[:length + 4])
    message = fields_of.message(KINDS[stream[4]])
    if fields_of.at < length + 4:
        raise Fault('field %d' % fields_of.at)
    return message, length + 4
