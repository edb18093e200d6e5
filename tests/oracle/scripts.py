"""Random scripts for one client, whose messages are delivered at once."""
import collections
import random

from cells import NULL
from client import Limits
from conditions import Both, COMPARISONS, IsNull, Not, after_prefix, begins, between, compares, one_of
from events import Asks, Exec, Explains, Plain
from queries import query_of
from statements import Delete, Insert, Update
from tables import Column, Table
from world import Options

TEXTS = ['', 'a', 'ab', 'abc', 'b', "b'c", 'd']
# these differ in their fourth byte, or behind it
WORDS = ['abca', 'abcma', 'abcmk', 'abcmz', 'abcz']


def text_values():
    literals = [text.encode() for text in TEXTS + WORDS]
    ends = {b''} | set(literals) | {text + b'\0' for text in literals} | {after_prefix(text) for text in literals if text}
    return sorted(ends)


def numbers(name, first, last, is_nullable=False):
    return Column(name, range(first, last + 1), last, is_nullable)


TABLES = [
    Table('reading', [numbers('id', 0, 7), numbers('place', -2, 2), numbers('level', 0, 3)], 0),
    Table('label', [Column('title', text_values()), numbers('no', 10, 15)], 1),
    Table('board', [numbers('x', 0, 139), numbers('y', 0, 559)], 0),
    Table('tally', [numbers('n', 0, 599), numbers('odd', 0, 1)], 0),
    Table('shelf', [numbers('code', 0, 7), numbers('room', 10, 15)], 0),
]
READING, LABEL, BOARD, TALLY, SHELF = range(5)

CREATES = [
    'CREATE TABLE reading (id INT PRIMARY KEY CHECK (id BETWEEN 0 AND 7), place INT CHECK (place BETWEEN -2 AND 2), '
    'level INT CHECK (level BETWEEN 0 AND 3))',
    'CREATE TABLE label (title TEXT, no INT PRIMARY KEY CHECK (no BETWEEN 10 AND 15))',
    'CREATE TABLE board (x INT PRIMARY KEY CHECK (x BETWEEN 0 AND 139), y INT CHECK (y BETWEEN 0 AND 559))',
    'CREATE TABLE tally (n INT PRIMARY KEY CHECK (n BETWEEN 0 AND 599), odd INT CHECK (odd BETWEEN 0 AND 1))',
    'CREATE TABLE shelf (code INT PRIMARY KEY CHECK (code BETWEEN 0 AND 7), room INT CHECK (room BETWEEN 10 AND 15))',
]

# the same, and one with nullable columns
NULL_TABLES = TABLES + [Table('guess', [numbers('id', 0, 7), numbers('seat', 0, 5, True), Column('word', text_values(), None, True)], 0)]
GUESS = len(TABLES)
NULL_CREATES = CREATES + ['CREATE TABLE guess (id INT PRIMARY KEY CHECK (id BETWEEN 0 AND 7), seat INT NULL CHECK (seat BETWEEN 0 AND 5), word TEXT NULL)']

# a script: its options, its events, and whether it is over the tables with nullable columns too
Script = collections.namedtuple('Script', 'options events has_nulls', defaults=[False])
MUCH_LOG = 100000


def tables_of(script):
    return NULL_TABLES if script.has_nulls else TABLES


def creates_of(script):
    return NULL_CREATES if script.has_nulls else CREATES


def lines_of(script):
    return creates_of(script) + [event.line() for event in script.events]


class Maker:
    """Makes scripts of a seed; with nulls they are about nullable columns, mostly."""

    def __init__(self, seed, has_nulls=False):
        self.random = random.Random('nulls %s' % seed if has_nulls else seed)
        self.has_nulls, self.tables = has_nulls, NULL_TABLES if has_nulls else TABLES

    def cell(self, column):
        if column.is_text:
            return self.random.choice(TEXTS).encode()
        slip = self.random.random() < 0.04
        return column.own[-1] + 1 if slip else self.random.choice(column.own)

    def stored(self, column):
        """A cell of a row; at times NULL, and rarely where it may not be."""
        is_null = self.has_nulls and self.random.random() < (0.3 if column.is_nullable else 0.02)
        return NULL if is_null else self.cell(column)

    def test(self, number):
        c = self.random.randrange(len(self.tables[number].columns))
        column = self.tables[number].columns[c]
        if self.has_nulls and self.random.random() < 0.2:
            return IsNull(c, column.name, self.random.random() < 0.5)
        kind = self.random.choice(['word', 'word', 'between', 'in', 'like'])
        if kind == 'like' and column.is_text:
            return begins(c, column.name, self.random.choice([text for text in TEXTS if text]).encode())
        one, two = self.cell(column), self.cell(column)
        if kind == 'between':
            return between(c, column.name, one, two)
        if kind == 'in':
            return one_of(c, column.name, [self.cell(column) for _ in range(self.random.randint(1, 3))])
        return compares(c, column.name, self.random.choice(list(COMPARISONS)), one)

    def condition(self, number, depth=2):
        kind = self.random.random()
        if depth == 0 or kind < 0.5:
            return self.test(number)
        if kind < 0.6:
            return Not(self.condition(number, depth - 1))
        word = self.random.choice(['AND', 'OR'])
        return Both(word, self.condition(number, depth - 1), self.condition(number, depth - 1))

    def maybe_condition(self, number):
        return self.condition(number) if self.random.random() < 0.85 else None

    def insert(self, number):
        return Insert(self.tables, number, [tuple(map(self.stored, self.tables[number].columns)) for _ in range(self.random.randint(1, 3))])

    def update(self, number):
        columns = self.tables[number].columns
        c = self.random.choice([c for c in range(len(columns)) if c != self.tables[number].key])
        return Update(self.tables, number, [(c, self.stored(columns[c]))], self.maybe_condition(number))

    def query(self, number):
        columns = self.tables[number].columns
        outputs = [self.random.randrange(len(columns)) for _ in range(self.random.randint(1, len(columns)))]
        return query_of(self.tables, number, outputs, self.maybe_condition(number))

    def event(self):
        kind = self.random.random()
        number = self.random.choice([GUESS, GUESS, LABEL] if self.has_nulls else [READING, READING, LABEL])
        if kind < 0.15:
            return Exec(self.insert(number))
        if kind < 0.3:
            return Exec(self.update(number))
        if kind < 0.35:
            return Exec(Delete(self.tables, number, self.condition(number)))
        if kind < 0.5:
            return Plain('push', 1)
        return Explains(1, self.query(number)) if kind < 0.55 else Asks(1, self.query(number))

    def script(self):
        choose = self.random.choice
        limits = Limits(choose([10000, 0, 3, 6, 12]), choose([64, 0, 1, 3, 6]), choose(['recency', 'distance']))
        return Script(Options(1, MUCH_LOG, limits, True), [self.event() for _ in range(self.random.randint(10, 60))], self.has_nulls)

    def lists(self):
        """Four queries of 64 values of y each, and one of 64 of x among them or behind, no two values side by side: they cut the board into
        more than 16,384 rects."""
        lists = [one_of(1, 'y', values) for values in self.values_of_y()]
        lists.insert(self.random.choice([1, 4]), self.list_of_x(64))
        return [Asks(1, board_query(one)) for one in lists]

    def values_of_y(self):
        rows = self.random.sample(range(2, 558, 2), 256)
        return [rows[64 * n:64 * n + 64] for n in range(4)]

    def list_of_x(self, count):
        return one_of(0, 'x', self.random.sample(range(0, 140, 2), count))

    def board_event(self):
        kind = self.random.random()
        if kind < 0.4:
            return Exec(self.insert(BOARD))
        if kind < 0.6:
            return Plain('push', 1)
        if kind < 0.9:
            return self.random.choice([Asks, Explains])(1, query_of(TABLES, BOARD, [self.random.randrange(2)], self.test(BOARD)))
        return self.event()

    def cutting_script(self):
        """A script whose load is too high at some queries, and far below at others."""
        events = [event for query in self.lists() for event in [self.board_event(), query]]
        limits = Limits(10000, 64, self.random.choice(['recency', 'distance']))
        return Script(Options(1, MUCH_LOG, limits, True), events + [self.board_event() for _ in range(3)] + self.lists()[:1])

    def crowded_script(self):
        """A script in which covered queries come while the load is too high, and one that is not covered while the link is cut.

        The lists of y take few rects. The query inside of one is covered by it, and with its values of x the load is too high. The long
        list of x takes too many rects beside what is held. Over the cut link it is not asked, and nothing is dropped for it; behind the
        resume it is asked, and all may be dropped first.
        """
        values = self.values_of_y()
        asked = [board_query(one_of(1, 'y', some)) for some in values]
        inside = board_query(Both('AND', self.list_of_x(17), compares(1, 'y', '=', values[0][0])))
        beside = board_query(self.list_of_x(64))
        events = [event for query in asked for event in (Exec(self.insert(BOARD)), Asks(1, query))]
        for one in [inside, self.random.choice(asked), 'cut', beside, self.random.choice(asked), 'resume', beside, beside]:
            events += [Plain(one, 1)] if isinstance(one, str) else [Explains(1, one), Asks(1, one)]
        limits = Limits(10000, 64, self.random.choice(['recency', 'distance']))
        return Script(Options(1, MUCH_LOG, limits, True), events)

    def worded_script(self):
        """A script of queries by words that only their fourth bytes tell apart, or those behind, under a limit by distance."""
        titles = [self.random.choice(WORDS).encode() for _ in range(10, 16)]
        events = [Exec(Insert(TABLES, LABEL, [(title, no)])) for no, title in enumerate(titles, 10)]
        events += [Asks(1, query_of(TABLES, LABEL, [0], self.word_condition())) for _ in range(40)]
        return Script(Options(1, MUCH_LOG, Limits(10000, self.random.choice([2, 3]), 'distance'), True), events)

    def word_condition(self):
        """A word, or the words between two; at times some of them alone."""
        one, two = sorted(word.encode() for word in self.random.sample(WORDS, 2))
        test = self.random.choice([compares(0, 'title', '=', one), compares(0, 'title', '=', two), between(0, 'title', one, two)])
        return Both('AND', test, self.test(LABEL)) if self.random.random() < 0.3 else test


def board_query(condition):
    return query_of(TABLES, BOARD, [0, 1], condition)
