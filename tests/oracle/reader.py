"""Reads the scripts of worked rows, as far as their texts have no fault."""
import functools
import re

from cells import NULL
from conditions import Both, COMPARISONS, IsNull, Not, begins, between, compares, one_of
from events import Asks, Evicts, Exec, Explains, PLAIN, Plain, Writes
from lines import CREATE, is_silent, split
from queries import Part, Query, bits
from statements import Delete, Insert, Update
from tables import Column, Table

TOKEN = re.compile(r"\s*(?:([A-Za-z_]\w*|\d+|<=|>=|<>|!=|[(),;.*=<>-])|'((?:''|[^'])*)')")
FIRST_NUMBER, LAST_NUMBER = -2 ** 40, 2 ** 40 - 1


class Unread(Exception):
    """A text that is not read here."""


def tokens_of(text):
    """Words and marks in small letters, and texts as bytes."""
    tokens, place = [], 0
    while text[place:].strip():
        match = TOKEN.match(text, place)
        if not match:
            raise Unread(text)
        word, quoted = match.groups()
        tokens.append(word.lower() if quoted is None else quoted.replace("''", "'").encode())
        place = match.end()
    return tokens


class Reader:
    """Reads one text from its tokens."""

    def __init__(self, text, tables):
        self.tokens, self.tables, self.scope = tokens_of(text), tables, []  # the numbers of the tables that are named

    def skip(self, *words):
        """Goes behind these words, where they come next."""
        comes = self.tokens[:len(words)] == list(words)
        self.tokens = self.tokens[len(words):] if comes else self.tokens
        return comes

    def need(self, *words):
        if not self.skip(*words):
            raise Unread(words)

    def next(self):
        if not self.tokens:
            raise Unread('the end')
        return self.tokens.pop(0)

    def list_of(self, read):
        found = [read()]
        while self.skip(','):
            found.append(read())
        return found

    def end(self):
        self.skip(';')
        if self.tokens:
            raise Unread(self.tokens[0])

    # ---- CREATE

    def create(self):
        self.need('create', 'table')
        name = self.next()
        self.need('(')
        columns = self.list_of(self.created)
        self.need(')')
        self.end()
        return Table(name, [column for column, _ in columns], [is_key for _, is_key in columns].index(True))

    def created(self):
        name, kind, is_key, is_nullable, domain = self.next(), self.next(), False, False, (FIRST_NUMBER, LAST_NUMBER)
        while self.tokens[0] not in (',', ')'):
            if self.skip('primary', 'key'):
                is_key = True
            elif self.skip('null'):
                is_nullable = True
            elif not self.skip('not', 'null'):
                self.need('check', '(', name, 'between')
                domain = self.range()
                self.need(')')
        values, highest = ([b''], None) if kind == 'text' else ([domain[0]], domain[1])
        return Column(name, values, highest, is_nullable), is_key

    def range(self):
        low = self.literal()
        self.need('and')
        return low, self.literal()

    # ---- names and literals

    def find_table(self):
        name = self.next()
        found = [n for n, table in enumerate(self.tables) if table.name == name and n not in self.scope]
        if not found:
            raise Unread(name)
        self.scope += found
        return found[0]

    def name(self):
        """The name of a column, and that of its table where it stands in front."""
        name = self.next()
        return (name, self.next()) if self.skip('.') else (None, name)

    def place_of(self, name):
        """Which of the named tables has the column, and as which one."""
        front, column = name
        tables = [self.tables[number] for number in self.scope]
        found = [(part, [c.name for c in table.columns].index(column)) for part, table in enumerate(tables)
                 if front in (None, table.name) and column in [c.name for c in table.columns]]
        if len(found) != 1:
            raise Unread(name)
        return found[0]

    def column(self):
        return self.place_of(self.name())

    def literal(self):
        negative, token = self.skip('-'), self.next()
        if isinstance(token, bytes) and not negative:
            return token
        if isinstance(token, bytes) or not token.isdigit() or int(token) > LAST_NUMBER:
            raise Unread(token)
        return -int(token) if negative else int(token)

    def literal_for(self, column):
        literal = self.literal()
        if isinstance(literal, bytes) != column.is_text:
            raise Unread(literal)
        return literal

    def cell_for(self, column):
        return NULL if self.skip('null') else self.literal_for(column)

    # ---- conditions

    def where(self):
        condition = self.condition() if self.skip('where') else None
        self.end()
        return condition

    def condition(self):
        return self.joined('or', lambda: self.joined('and', self.unit))

    def joined(self, word, read):
        condition = read()
        while self.skip(word):
            condition = Both(word.upper(), condition, read())
        return condition

    def unit(self):
        if self.skip('not'):
            return Not(self.unit())
        if self.skip('('):
            condition = self.condition()
            self.need(')')
            return condition
        part, c = self.column()
        column = self.tables[self.scope[part]].columns[c]
        if self.skip('is'):
            return self.null_test(part, c, column)
        is_contrary = self.skip('not')
        test = self.test(c, column)
        test.part = part
        return Not(test) if is_contrary else test

    def null_test(self, part, c, column):
        test = IsNull(c, column.name, self.skip('not'))
        self.need('null')
        test.part = part
        return test

    def test(self, c, column):
        if self.skip('between'):
            low = self.literal_for(column)
            self.need('and')
            return between(c, column.name, low, self.literal_for(column))
        if self.skip('in', '('):
            cells = self.list_of(lambda: self.literal_for(column))
            self.need(')')
            return one_of(c, column.name, cells)
        if self.skip('like'):
            return begins(c, column.name, self.prefix_for(column))
        word = self.next().replace('!=', '<>')
        if word not in COMPARISONS:
            raise Unread(word)
        return compares(c, column.name, word, self.literal_for(column))

    def prefix_for(self, column):
        text = self.literal_for(column)
        if not isinstance(text, bytes) or text.find(b'%') != len(text) - 1 or b'_' in text:
            raise Unread(text)
        return text[:-1]

    # ---- queries

    def query(self):
        self.need('select')
        names = [] if self.skip('*') else self.list_of(self.name)
        self.need('from')
        self.find_table()
        joins = []
        while self.skip('join') or self.skip('inner', 'join'):
            joins.append(self.join())
        outputs = [self.place_of(name) for name in names] or self.all_places()
        conditions = conjuncts(self.where())
        parts = [self.part(part, outputs + joins, conditions) for part in range(len(self.scope))]
        return Query('', parts, joins, outputs)

    def join(self):
        """The column of an earlier table that equals the key of this one."""
        key = len(self.scope), self.tables[self.find_table()].key
        self.need('on')
        one = self.column()
        self.need('=')
        two = self.column()
        if key not in (one, two):
            raise Unread('no key')
        return two if one == key else one

    def all_places(self):
        return [(part, c) for part, number in enumerate(self.scope) for c in range(len(self.tables[number].columns))]

    def part(self, part, places, conditions):
        """What the query asks of one table: the conditions that name it."""
        ours = [condition for condition in conditions if part in named(condition)]
        if any(len(named(condition)) > 1 for condition in ours):
            raise Unread('mixed')
        condition = functools.reduce(lambda one, two: Both('AND', one, two), ours) if ours else None
        return Part(self.tables, self.scope[part], bits(c for of, c in places if of == part), condition)

    # ---- statements

    def statement(self):
        if self.skip('insert', 'into'):
            return self.insert(self.find_table())
        if self.skip('update'):
            return self.update(self.find_table())
        self.need('delete', 'from')
        table = self.find_table()
        return Delete(self.tables, table, self.where())

    def insert(self, table):
        order = [c for _, c in self.all_places()]
        if self.skip('('):
            order = [c for _, c in self.list_of(self.column)]
            self.need(')')
        self.need('values')
        rows = self.list_of(lambda: self.row(order))
        self.end()
        return Insert(self.tables, table, rows)

    def row(self, order):
        self.need('(')
        cells = {}
        for n, c in enumerate(order):
            if n:
                self.need(',')
            cells[c] = self.cell_for(self.tables[self.scope[0]].columns[c])
        self.need(')')
        return tuple(cells[c] for c in sorted(cells))

    def update(self, table):
        self.need('set')
        cells = self.list_of(lambda: self.set_cell(self.tables[table]))
        return Update(self.tables, table, cells, self.where())

    def set_cell(self, table):
        """The column that is set, and its new cell."""
        _, c = self.column()
        self.need('=')
        if c == table.key:
            raise Unread('the key is set')
        return c, self.cell_for(table.columns[c])


def conjuncts(condition):
    """The conditions that the outermost ANDs join."""
    if isinstance(condition, Both) and condition.word == 'AND':
        return conjuncts(condition.one) + conjuncts(condition.two)
    return [condition] if condition else []


def named(condition):
    """Which of the named tables a condition names."""
    return {test.part for test in condition.tests()}


# ---- scripts

def event_of(line, tables):
    """The event of a line that has no fault."""
    word, _, rest = line.partition(' ')
    if word == 'exec':
        return Exec(Reader(rest, tables).statement())
    client, _, text = rest.partition(' ')
    if word in PLAIN:
        return Plain(word, int(client))
    if word == 'evict':
        return Evicts(int(client), int(text))
    if word == 'query':
        return Asks(int(client), Reader(text, tables).query())
    if word == 'explain':
        return Explains(int(client), Reader(text, tables).query())
    if word == 'write':
        return Writes(int(client), Reader(text, tables).statement())
    raise Unread(word)


def read_script(script):
    """The tables of a script, and its events with the numbers of their lines."""
    tables, events = [], []
    for number, line in enumerate(split(script), 1):
        if is_silent(line):
            continue
        if CREATE.match(line):
            tables.append(Reader(line.decode(), tables).create())
        else:
            events.append((number, event_of(line.decode(), tables)))
    divide([event.query for _, event in events if isinstance(event, (Asks, Explains))])
    return tables, events


def divide(queries):
    """Gives each column the values that the tests of the queries tell apart."""
    for query in queries:
        for part in query.parts:
            for test in part.tests():
                column = part.definition.columns[test.column]
                column.divide(sorted(set(column.own) | {end for end in test.ends if column.fault(end) is None}))
