"""The gateway's parts without PostgreSQL: frames and rules against those of tests/links, bounds of texts and blocks against walks over all."""
import collections
import itertools
import random

from links import ROOT  # it makes the modules of tests/links known

import frames as judge
import model
from gateway import frames, ranges, rules, schema, texts

TEXTS = [b'', b'a', b"b'c", 'é'.encode(), b'x' * 120]


# ---- frames

class Maker:
    """Random messages, as tests/links has them."""

    def __init__(self, seed):
        self.random = random.Random(seed)

    def number(self):
        return self.random.choice([0, 1, 255, 2 ** 32, 2 ** 63 - 1, 2 ** 64 - 1])

    def signed(self):
        return self.random.choice([0, -1, 1, -2 ** 40, 2 ** 40 - 1, -2 ** 63, 2 ** 63 - 1])

    def some(self, make, most):
        return [make() for _ in range(self.random.randint(1, most))]

    def span(self):
        kind = self.random.randrange(5)
        if kind in (0, 4):
            return judge.NULL_SPAN if kind else None
        if kind == 1:
            return tuple(sorted([self.signed(), self.signed()]))
        low, high = self.random.choice([(b'', b'a'), (b'a', b'a\0'), (b'\xff', b'\xff' * 121)])
        return (low, high) if kind == 2 else (self.random.choice([low, high]), None)

    def rects(self):
        return self.some(lambda: tuple(self.some(self.span, 12)), 3)

    def cell(self):
        return self.random.choice([self.signed(), self.random.choice(TEXTS), None])

    def key(self):
        return self.random.choice([self.signed(), self.random.choice(TEXTS)])

    def row(self):
        return tuple(self.some(self.cell, 12))

    def columns(self):
        return sorted(self.random.sample(range(12), 3))

    def part(self):
        return judge.Part(self.random.choice([0, 255]), self.columns(), self.rects())

    def resume(self, wire):
        def held():
            return judge.Holding(self.random.choice([0, 15]), self.columns() if wire == 2 else judge.ALL_COLUMNS, self.rects())

        return judge.Resume(self.random.choice([1, 64]), self.number(), self.number(), self.some(held, 3), wire)

    def message(self):
        pick, number = self.random.choice, self.number
        return pick([
            lambda: judge.Hello(pick([1, 64]), number(), pick([1, 2])),
            lambda: self.resume(pick([1, 2])),
            lambda: judge.Ask(number(), pick([True, False]), self.some(self.part, 4)),
            lambda: judge.Write(number(), pick(TEXTS)),
            lambda: judge.Welcome(number(), number(), pick([True, False])),
            lambda: judge.Notice(number(), self.some(lambda: judge.Tell(pick([0, 255]), self.key(), pick([None, self.row()])), 3)),
            lambda: judge.Rows(number(), pick([0, 3]), self.some(self.row, 4)),
            lambda: judge.Reply(number(), number()), lambda: judge.Written(number(), number()),
            lambda: judge.Refused(number(), pick([1, 33]), pick([0, 2 ** 32 - 1])), lambda: judge.Lapse(number())])()


def ours(whole):
    """What the gateway reads of the bytes, spelled again; or its fault."""
    try:
        if len(whole) < 4 or len(whole) < frames.length_of(whole) + 4 and len(whole) == 4:
            return 'short'
        frames.judge_kind(whole[4])
        if len(whole) < frames.length_of(whole) + 4:
            return 'short'
        return frames.frame(frames.message_of(whole[:frames.length_of(whole) + 4]))
    except frames.Fault as fault:
        return str(fault)


def theirs(whole):
    try:
        message, size = judge.read(whole)
        return judge.frame(message) if size else None
    except judge.Short:
        return 'short'
    except judge.Fault as fault:
        return str(fault)


def mutated(chance, whole):
    """The bytes, and some with a slip."""
    yield whole
    for _ in range(20):
        at = chance.randrange(len(whole))
        yield whole[:at] + bytes([whole[at] ^ chance.choice([1, 2, 128, 255])]) + whole[at + 1:]
    yield whole[:chance.randrange(len(whole))]
    yield whole[:3] + bytes([whole[3] + 1 & 255]) + whole[4:] + b'\0'


def frames_fault(count):
    maker = Maker(1)
    for _ in range(count):
        for whole in mutated(maker.random, judge.frame(maker.message())):
            if ours(whole) != theirs(whole):
                return '%s: %s, wanted %s' % (whole.hex(), ours(whole), theirs(whole))
    return None


# ---- bounds and blocks

def texts_fault():
    """For each bytes, the texts that do not lie below them are those that do not lie below the text."""
    points = ['\x01', 'a', '\x7f', '\x80', '\u07ff', '\u0800', '\ud7ff', '\ue000', '\uffff', '\U00010000', '\U0010ffff']
    known = [''.join(some).encode() for size in range(3) for some in itertools.product(points, repeat=size)]
    for some in itertools.product([b'', b'\0', b'a', b'\x7f', b'\x80', b'\xc3', b'\xed\xa0', b'\xef\xbf\xc0', b'\xf4\x90', b'\xff'], repeat=3):
        bound = b''.join(some)
        least = texts.least_text(bound)
        if any((text >= bound) != (least is not None and text >= least.encode()) for text in known):
            return '%r: %r' % (bound, least)
    return None


def ranges_fault():
    """An index finds the owners that a walk over all rects finds, also after some are gone."""
    chance, index, kept = random.Random(2), ranges.Index(), []
    ends = [-2 ** 40, -5, 0, 1, 2, 3, 7, 8, 100, 2 ** 40 - 1]
    words = [b'', b'a', b'ab', b'abcde', b'abcdef', b'abcdeg', b'b', b'\xff' * 6]
    for owner in range(80):
        number = tuple(sorted(chance.choices(ends, k=2))) if chance.random() < 0.7 else None
        low, high = sorted(chance.sample(words, 2))
        kept.append(((number, chance.choice([None, (low, high), (high, None)])), owner))
        index.add(*kept[-1])
        if chance.random() < 0.4:
            index.remove(*kept.pop(chance.randrange(len(kept))))
        for row in itertools.product(ends + [4], words):
            if index.owners(list(row)) != {of for rect, of in kept if ranges.has(rect, row)}:
                return '%s: %s' % (row, index.owners(list(row)))
    return None


# ---- rules

class Beside:
    """The gateway's rules and the server of tests/links, for the same requests of several sessions."""

    def __init__(self, seed):
        self.random = random.Random(seed)
        log = self.random.choice([0, 1, 3, 8, 100])
        tables = schema.read(model.SCHEMA.encode())
        self.wanted, self.server = model.Model([], log), rules.Server(tables, rules.Log(log, 0, 0))
        self.sessions = collections.defaultdict(lambda: (None, None))

    def write(self):
        """A version that another program makes."""
        key, row = self.random.randrange(6), None
        if self.random.random() < 0.7:
            row = (key, self.random.randrange(30, 40), self.random.choice([b'a', b'b', b'c']))
        before = self.wanted.versions[-1].get(key)
        if before is None and row is None:
            return
        self.wanted.change(key, row)
        if row is None:
            del self.wanted.versions[-1][key]
        changes = [rules.Change(0, key, before, row)] if before != row else []
        self.server.extend([(self.wanted.version, changes)])

    def part(self):
        """A part that suits: its columns are those that its rect constrains, the key, and perhaps others."""
        low = self.random.randrange(30, 40)
        ages = self.random.choice([None, (low, min(39, low + self.random.randrange(4)))])
        rect = None, ages, self.random.choice([None, (b'b', None), (b'', b'b')])
        columns = [c for c, span in enumerate(rect) if c == 0 or span is not None or self.random.random() < 0.3]
        return judge.Part(0, columns, [rect])

    def held(self, wire):
        part = self.part()
        return judge.Holding(0, part.columns if wire == 2 else judge.ALL_COLUMNS, part.rects)

    def request(self, session):
        number = self.random.randrange(9)
        if session is None:
            version, wire = self.random.randrange(self.wanted.version + 2), self.random.choice([1, 2])
            greetings = judge.Hello(1, number, wire), judge.Resume(1, number, version, [self.held(wire) for _ in range(2)], wire)
            return self.random.choice(greetings)
        return judge.Ask(number, self.random.random() < 0.2, [self.part()])

    def fault(self):
        """What one step more does otherwise, or None."""
        self.write()
        name = self.random.randrange(3)
        theirs_, ours_ = self.sessions[name]
        if self.random.random() < 0.1 and ours_:
            self.server.clear(ours_)
            self.sessions[name] = None, None
            return None
        request = self.request(theirs_)
        theirs_, wanted = self.wanted.take(theirs_, request)
        message = frames.message_of(judge.frame(request))
        if rules.misfit(self.server.tables, ours_, message):
            return 'refuses %s' % (message,)
        version = self.server.log.newest
        if isinstance(request, judge.Ask):
            got = self.server.ask(ours_, message, version) + [frames.Reply(request.number, version)]
            wanted = [each for each in wanted if not isinstance(each, judge.Rows)]
        else:
            ours_, got = (self.server.resume if isinstance(request, judge.Resume) else self.server.hello)(message, version)
        self.sessions[name] = theirs_, ours_
        return None if list(map(frames.frame, got)) == list(map(judge.frame, wanted)) else '%s: %s, wanted %s' % (request, got, wanted)


def rules_fault(seed):
    beside = Beside(seed)
    return next(filter(None, (beside.fault() for _ in range(60))), None)


def results():
    yield 'frames', frames_fault(400)
    yield 'bounds of texts', texts_fault()
    yield 'blocks', ranges_fault()
    for seed in range(100):
        yield 'rules, seed %d' % seed, rules_fault(seed)


assert ROOT
