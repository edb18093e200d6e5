"""The library as a careless caller uses it: calls out of turn, and bytes that no server sends. Each must end in a refusal, and the client
must stand behind it."""
import ctypes
import random

from naworuke import library as lib

SCHEMA = b'CREATE TABLE t (k INT PRIMARY KEY CHECK (k BETWEEN 0 AND 99), a INT, s TEXT)\nCREATE TABLE u (n INT PRIMARY KEY)\n'
TEXTS = [b'SELECT k FROM t WHERE a < 5', b'SELECT * FROM t JOIN u ON a = n', b'SELECT s FROM t', b'DELETE FROM t', b'SELECT', b'', b'\xff', b"'",
         b'x' * 65537, b'SELECT k FROM nowhere', b'CREATE TABLE v (a INT PRIMARY KEY)', b'\0']
WITH_TEXT = ('query', 'write', 'explain')
WITHOUT = ('cut', 'resume', 'take')


def number(value, size=8):
    return value.to_bytes(size, 'big')


def frame(kind, *fields):
    body = bytes([kind]) + b''.join(fields)
    return number(len(body), 4) + body


ROW = bytes([3]) + b'\0' + number(7) + b'\0' + number(3) + b'\1\2ab'


class Client:
    """A client of the library, with each of its calls."""

    def __init__(self, calls, **setting):
        self.calls, self.told, self.handle = calls, lib.Told(), lib.Handle()
        words = {'client': 1, 'rows': 100, 'regions': 8, 'policy': 0, **setting}
        self.opened = calls['open'](SCHEMA, len(SCHEMA), lib.Setting(**words), self.handle, self.told)

    def __enter__(self):
        return self

    def __exit__(self, *fault):
        if self.opened == lib.DONE:
            self.calls['free'](self.handle)

    def say(self, name, *words):
        outcome = self.calls[name](self.handle, *words, self.told)
        assert outcome == self.told.outcome <= lib.BAD_CREATE
        return outcome

    def text(self, name, text):
        return self.say(name, text, len(text))

    def feed(self, data):
        assert self.calls['feed'](self.handle, data, len(data)) == lib.DONE

    def sent(self):
        size = self.calls['sent'](self.handle, ctypes.create_string_buffer(1), 0)
        room = ctypes.create_string_buffer(size + 1)
        assert self.calls['sent'](self.handle, room, size) == size
        return room.raw[:size]

    def shows(self):
        """What can be read at any time is read."""
        self.sent()
        region, cell, room = lib.Region(), ctypes.c_int64(), ctypes.create_string_buffer(3)
        for name in ('version', 'kept', 'waits', 'rows'):
            self.calls[name](self.handle)
        regions = self.calls['regions'](self.handle)
        assert not self.calls['region_at'](self.handle, regions, region)
        assert self.calls['cell'](self.handle, 2 ** 64 - 1, 0, cell, room, 3) == 0
        assert self.calls['pack'](self.handle) == lib.DONE
        assert self.calls['text'](self.handle, room, 0) >= 0

    def begin(self):
        """A session, and an ask that is out."""
        self.say('resume')
        self.feed(frame(0x11, number(0), number(0), b'\0'))
        while self.say('take') != lib.WANTING:
            pass


def out_of_turn(calls, count, seed=1):
    """Calls in any order, with texts that are nothing, and never a server: nothing is ever answered."""
    draw = random.Random(seed)
    with Client(calls) as client:
        for _ in range(count):
            name = draw.choice(WITH_TEXT + WITHOUT + ('evict',))
            if name in WITH_TEXT:
                outcome = client.text(name, draw.choice(TEXTS))
            else:
                outcome = client.say(name, *([draw.choice([0, 1, 2 ** 63])] if name == 'evict' else []))
            assert outcome not in (lib.ANSWERED, lib.APPLIED, lib.WRITTEN, lib.WELCOMED, lib.NO_MEMORY), outcome
            client.shows()
    for setting in ({'client': 0}, {'client': 65}, {'rows': 200001}, {'regions': 1025}, {'policy': 2}):
        with Client(calls, **setting) as client:
            assert client.opened == lib.OUT_OF_RANGE


def honest(draw):
    """What a server could send for a fresh ask of table t."""
    notice = frame(0x12, number(1), number(1, 4), bytes([0]), b'\0' + number(7), b'\1' + ROW)
    rows = frame(0x13, number(1), b'\0', number(1, 2), ROW)
    return draw.choice([[], [notice]]) + [rows, frame(0x14, number(1), number(draw.choice([0, 1, 2])))]


def mutated(draw, frames):
    """The frames with something wrong in them: bits, bytes, an end, a frame twice, or none."""
    data = bytearray(b''.join(frames))
    for _ in range(draw.choice([1, 1, 1, 2, 5])):
        place, kind = draw.randrange(len(data)), draw.randrange(6)
        if kind < 3:
            data[place] ^= 1 << draw.randrange(8)
        elif kind == 3:
            data[place] = draw.choice([0, 1, 127, 128, 255])
        elif kind == 4:
            data[place:place] = draw.choice(frames)
        else:
            del data[place:place + draw.choice([1, 4, 9])]
        if not data:
            return b'\0'
    return bytes(data)


def mutated_frames(calls, count, seed=1):
    """How often what came was refused; else it was taken, or more was waited for."""
    draw, refused = random.Random(seed), 0
    for _ in range(count):
        with Client(calls) as client:
            client.begin()
            client.text('query', b'SELECT k, a, s FROM t WHERE k < 50')
            client.feed(mutated(draw, honest(draw)))
            outcome = lib.SENT
            while outcome not in (lib.WANTING, lib.BAD_FRAME, lib.BAD_MESSAGE):
                outcome = client.say('take')
                assert outcome != lib.NO_MEMORY
            refused += outcome != lib.WANTING
            if outcome == lib.BAD_MESSAGE:
                assert client.calls['regions'](client.handle) == 0 and client.say('cut') == lib.ALREADY_CUT
            else:
                client.say('cut')
            client.shows()
            assert client.say('resume') == lib.SENT and client.sent()[4] in (1, 2)
    return refused
