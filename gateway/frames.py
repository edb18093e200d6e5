"""Messages as frames of bytes, as docs/FORMATS.md has them: each kind is a list of fields, and a field can be read and spelled."""
from typing import Any, Callable, NamedTuple, Union

MOST_BYTES = 134217728
# the newest of the two ways to write a message; under the first one, holdings have no columns, and stand for all
WIRE = 2
ALL_COLUMNS = list(range(12))

# NULL is None
Cell = Union[None, int, bytes]
# a span is None for all values, or its two ends; a text has no upper end where the second is None; NULL alone is a span of its own
Span = Union[None, tuple]
NULL_SPAN = 'null', 'null'
Rect = tuple


class Fault(Exception):
    """No frame begins so; the text says why, as the error line of `client` does."""


class Reader:
    """The bytes of one whole frame, and how far they are read."""

    def __init__(self, whole: bytes, at: int):
        self.whole, self.at = whole, at

    def take(self, size: int) -> bytes:
        if self.at + size > len(self.whole):
            raise Fault('field %d' % self.at)
        self.at += size
        return self.whole[self.at - size:self.at]


class Field(NamedTuple):
    """How a value is read, and how it is spelled."""
    read: Callable[[Reader], Any]
    spell: Callable[[Any], bytes]


# ---- fields

def number(size: int, least: int = 0, most: int = 2 ** 64) -> Field:
    def read(reader: Reader) -> int:
        at, value = reader.at, int.from_bytes(reader.take(size), 'big')
        if not least <= value <= most:
            raise Fault('field %d' % at)
        return value
    return Field(read, lambda value: value.to_bytes(size, 'big'))


def many(count: Field, item: Field) -> Field:
    return Field(lambda reader: [item.read(reader) for _ in range(count.read(reader))],
                 lambda items: count.spell(len(items)) + b''.join(map(item.spell, items)))


def one(kind: type, *fields: Field) -> Field:
    """Fields one after another, as a value of this kind."""
    return Field(lambda reader: kind(*[field.read(reader) for field in fields]),
                 lambda value: b''.join(field.spell(part) for field, part in zip(fields, value)))


def text(size: Field, is_utf8: bool) -> Field:
    def read(reader: Reader) -> bytes:
        length, at = size.read(reader), reader.at
        value = reader.take(length)
        if is_utf8:
            try:
                value.decode()
            except UnicodeDecodeError:
                raise Fault('field %d' % at) from None
        return value
    return Field(read, lambda value: size.spell(len(value)) + value)


SIGNED = Field(lambda reader: int.from_bytes(reader.take(8), 'big', signed=True), lambda value: value.to_bytes(8, 'big', signed=True))
FLAG = Field(lambda reader: number(1, 0, 1).read(reader) == 1, lambda value: b'\1' if value else b'\0')
LONG, BYTE = number(8), number(1)
SHORT_TEXT = text(number(1, 0, 120), True)
BOUND = text(number(1, 0, 121), False)


def read_cell(reader: Reader, last: int = 2) -> Cell:
    kind = number(1, 0, last).read(reader)
    return None if kind == 2 else (SHORT_TEXT if kind else SIGNED).read(reader)


def spell_cell(cell: Cell) -> bytes:
    if cell is None:
        return b'\2'
    return b'\0' + SIGNED.spell(cell) if isinstance(cell, int) else b'\1' + SHORT_TEXT.spell(cell)


CELL = Field(read_cell, spell_cell)
# a key is not NULL
KEY = Field(lambda reader: read_cell(reader, 1), spell_cell)
ROW = many(number(1, 1, 12), CELL)


def read_span(reader: Reader) -> Span:
    kind = number(1, 0, 4).read(reader)
    if kind in (0, 4):
        return NULL_SPAN if kind else None
    if kind == 3:
        return BOUND.read(reader), None
    end = SIGNED if kind == 1 else BOUND
    low, at, high = end.read(reader), reader.at, end.read(reader)
    if low > high or kind == 2 and low == high:
        raise Fault('field %d' % at)
    return low, high


def spell_span(span: Span) -> bytes:
    if span is None:
        return b'\0'
    if span == NULL_SPAN:
        return b'\4'
    low, high = span
    if isinstance(low, int):
        return b'\1' + SIGNED.spell(low) + SIGNED.spell(high)
    return b'\3' + BOUND.spell(low) if high is None else b'\2' + BOUND.spell(low) + BOUND.spell(high)


SPANS = many(number(1, 1, 12), Field(read_span, spell_span))
RECT = Field(lambda reader: tuple(SPANS.read(reader)), SPANS.spell)
RECTS = many(number(4, 1, 16384), RECT)
COLUMNS = Field(lambda reader: [c for c, bits in enumerate([number(2, 0, 4095).read(reader)] * 12) if bits >> c & 1],
                lambda columns: sum(1 << c for c in columns).to_bytes(2, 'big'))


# ---- what stands in messages

class Holding(NamedTuple):
    table: int
    columns: list
    rects: list


class Part(NamedTuple):
    table: int
    columns: list
    rects: list


class Tell(NamedTuple):
    table: int
    key: Cell
    after: Union[None, list]


TABLE_HELD = number(1, 0, 15)
# by the wire
HOLDING = {1: Field(lambda reader: Holding(TABLE_HELD.read(reader), ALL_COLUMNS, RECTS.read(reader)),
                    lambda held: TABLE_HELD.spell(held.table) + RECTS.spell(held.rects)),
           2: one(Holding, TABLE_HELD, COLUMNS, RECTS)}
PART = one(Part, BYTE, COLUMNS, RECTS)
MAYBE_ROW = Field(lambda reader: ROW.read(reader) if FLAG.read(reader) else None, lambda row: b'\0' if row is None else b'\1' + ROW.spell(row))
TELL = one(Tell, BYTE, KEY, MAYBE_ROW)


# ---- messages

class Hello(NamedTuple):
    wire: int
    client: int
    number: int


class Resume(NamedTuple):
    wire: int
    client: int
    number: int
    version: int
    holdings: list


class Ask(NamedTuple):
    number: int
    fresh: bool
    parts: list


class Write(NamedTuple):
    number: int
    sql: bytes


class Welcome(NamedTuple):
    number: int
    version: int
    kept: bool


class Notice(NamedTuple):
    version: int
    tells: list


class Rows(NamedTuple):
    """Rows of a part of an ask; `spelled` has so many of them, one after another, as PostgreSQL spelled them."""
    number: int
    part: int
    count: int
    spelled: bytes


class Reply(NamedTuple):
    number: int
    version: int


class Written(NamedTuple):
    number: int
    version: int


class Refused(NamedTuple):
    number: int
    why: int
    place: int


class Lapse(NamedTuple):
    version: int


def read_rows(reader: Reader) -> Rows:
    of, part, count = LONG.read(reader), number(1, 0, 3).read(reader), number(2, 1, 256).read(reader)
    begin = reader.at
    for _ in range(count):
        ROW.read(reader)
    return Rows(of, part, count, reader.whole[begin:reader.at])


def read_resume(reader: Reader) -> Resume:
    wire, client, of, version = WIRES.read(reader), CLIENT.read(reader), LONG.read(reader), LONG.read(reader)
    return Resume(wire, client, of, version, many(MANY_HELD, HOLDING[wire]).read(reader))


def spell_resume(resume: Resume) -> bytes:
    return b''.join(field.spell(part) for field, part in zip(RESUME, resume[:-1])) + many(MANY_HELD, HOLDING[resume.wire]).spell(resume.holdings)


ROWS = Field(read_rows, lambda rows: LONG.spell(rows.number) + bytes([rows.part]) + rows.count.to_bytes(2, 'big') + rows.spelled)
WIRES, CLIENT, MANY_HELD = number(1, 1, WIRE), number(1, 1, 64), number(4, 1, 1024)
RESUME = WIRES, CLIENT, LONG, LONG
KINDS = {
    0x01: (Hello, one(Hello, WIRES, CLIENT, LONG)),
    0x02: (Resume, Field(read_resume, spell_resume)),
    0x03: (Ask, one(Ask, LONG, FLAG, many(number(1, 1, 4), PART))),
    0x04: (Write, one(Write, LONG, text(number(4, 0, 65536), True))),
    0x11: (Welcome, one(Welcome, LONG, LONG, FLAG)),
    0x12: (Notice, one(Notice, LONG, many(number(4, 0, 10000), TELL))),
    0x13: (Rows, ROWS),
    0x14: (Reply, one(Reply, LONG, LONG)),
    0x15: (Written, one(Written, LONG, LONG)),
    0x16: (Refused, one(Refused, LONG, number(1, 1, 33), number(4))),
    0x17: (Lapse, one(Lapse, LONG)),
}
KIND_OF = {kind: byte for byte, (kind, _) in KINDS.items()}


def frame(message: NamedTuple) -> bytes:
    """The frame of a message."""
    byte = KIND_OF[type(message)]
    body = KINDS[byte][1].spell(message)
    return (len(body) + 1).to_bytes(4, 'big') + bytes([byte]) + body


def length_of(head: bytes) -> int:
    """How many bytes follow the first four of a frame."""
    length = int.from_bytes(head[:4], 'big')
    if length == 0:
        raise Fault('field 0')
    if length > MOST_BYTES:
        raise Fault('long %d' % length)
    return length


def judge_kind(byte: int) -> None:
    if byte not in KINDS:
        raise Fault('kind %d' % byte)


def message_of(whole: bytes) -> NamedTuple:
    """The message of a whole frame, whose length and kind are judged."""
    reader = Reader(whole, 5)
    message = KINDS[whole[4]][1].read(reader)
    if reader.at < len(whole):
        raise Fault('field %d' % reader.at)
    return message
