"""The SQL of statements: tokens, the grammar, and the fault of a text outside of it, as docs/FORMATS.md has them."""
import re
from typing import Callable, NamedTuple, Optional, Union

MOST_BYTES, MOST_WORD, MOST_DIGITS, MOST_LEVELS = 65536, 64, 18, 64
LEAST_NUMBER, MOST_NUMBER = -2 ** 40, 2 ** 40 - 1
RESERVED = set('AND BETWEEN CHECK CREATE DELETE FROM IN INNER INSERT INT INTEGER INTO IS JOIN KEY LIKE NOT NULL ON OR PRIMARY SELECT SET '
               'TABLE TEXT UPDATE VALUES WHERE'.split())
BLANKS = re.compile(rb'[ \t\r\n]*')
TOKEN = re.compile(rb"(?P<word>[A-Za-z_]\w*)|(?P<number>[0-9]+)|'(?P<text>(?:[^']|'')*+)'|(?P<mark><=|>=|<>|!=|[(),;.*\-=<>])", re.ASCII)
COMPARISONS = ('=', '<>', '<', '<=', '>', '>=')

# the number of each fault on the wire
WHY = {word: number for number, word in enumerate(
    'long-text bad-token grammar deep unknown-table unknown-column ambiguous wrong-type out-of-domain not-key-join repeated wrong-count mixed '
    'too-wide too-many-tables not-a-write not-a-query duplicate-key domain-cell long-cell key-change table-full too-many-changes '
    'duplicate-name too-many-columns no-key bad-domain bad-header bad-record bad-number bad-utf8 bad-null null-cell'.split(), 1)}


class Refusal(Exception):
    """A statement is refused, by this fault at this place."""

    def __init__(self, word: str, at: int):
        super().__init__('%s %d' % (word, at))
        self.word, self.at = word, at


class Token(NamedTuple):
    """A reserved word, a name, a number, a text, a mark, or the end; of a word, a mark and the end the value is the token itself."""
    kind: str
    value: Union[str, int, bytes]
    at: int


# ---- what statements say

class Name(NamedTuple):
    text: str
    at: int


class Reference(NamedTuple):
    table: Optional[str]
    column: str
    at: int


class Literal(NamedTuple):
    """A number, a text, or None where it is NULL, as a value may be."""
    value: Union[None, int, bytes]
    at: int


class Test(NamedTuple):
    """A test of a column by a word: a comparison, BETWEEN, IN or LIKE, or IS, which is of NULL."""
    reference: Reference
    word: str
    literals: list


class Not(NamedTuple):
    inner: object


class Joined(NamedTuple):
    """Conditions joined by AND or OR."""
    word: str
    members: list


class ColumnRules(NamedTuple):
    name: str
    is_text: bool
    rules: list


class Create(NamedTuple):
    name: str
    columns: list


class Select(NamedTuple):
    """Only that it is in the grammar."""


class Insert(NamedTuple):
    table: Name
    columns: Optional[list]
    rows: list


class Update(NamedTuple):
    table: Name
    places: list
    condition: object


class Delete(NamedTuple):
    table: Name
    condition: object


class Row(NamedTuple):
    literals: list
    at: int


class Cursor:
    """Reads the tokens of a text from the left, one ahead."""

    def __init__(self, text: bytes):
        self.text, self.behind = text, 0
        self.next = self.read()

    def read(self) -> Token:
        at = BLANKS.match(self.text, self.behind).end()
        if at == len(self.text):
            return Token('end', 'end', at)
        found = TOKEN.match(self.text, at)
        kind = found.lastgroup if found else None
        value = found.group(kind) if found else b''
        if not found or len(value) > {'word': MOST_WORD, 'number': MOST_DIGITS}.get(kind, MOST_BYTES):
            return Token('bad', 'bad', at)
        self.behind = found.end()
        return self.token(kind, value, at)

    @staticmethod
    def token(kind: str, value: bytes, at: int) -> Token:
        if kind == 'text':
            return Token('text', value.replace(b"''", b"'"), at)
        if kind == 'number':
            return Token('number', int(value), at)
        word = value.decode()
        if kind == 'word' and word.upper() not in RESERVED:
            return Token('name', word.lower(), at)
        return Token('word', word.upper(), at)

    def fail(self) -> None:
        raise Refusal('bad-token' if self.next.kind == 'bad' else 'grammar', self.next.at)

    def take(self) -> Token:
        token, self.next = self.next, self.read()
        return token

    def comes(self, *words: str) -> bool:
        return self.next.kind == 'word' and self.next.value in words

    def maybe(self, word: str) -> bool:
        comes = self.comes(word)
        if comes:
            self.take()
        return comes

    def need(self, *words: str) -> Token:
        """These words or marks, one behind the other; the first of them."""
        first = self.next
        for word in words:
            if not self.comes(word):
                self.fail()
            self.take()
        return first

    def one_of(self, *kinds: str) -> Token:
        if self.next.kind not in kinds:
            self.fail()
        return self.take()

    def list_of(self, read: Callable) -> list:
        found = [read()]
        while self.maybe(','):
            found.append(read())
        return found

    def enclosed(self, read: Callable):
        self.need('(')
        found = read()
        self.need(')')
        return found

    # ---- names and literals

    def name(self) -> Name:
        token = self.one_of('name')
        return Name(token.value, token.at)

    def reference(self) -> Reference:
        first = self.name()
        return Reference(first.text, self.name().text, first.at) if self.maybe('.') else Reference(None, first.text, first.at)

    def number(self) -> int:
        return -self.one_of('number').value if self.maybe('-') else self.one_of('number').value

    def literal(self) -> Literal:
        at = self.next.at
        return Literal(self.number(), at) if self.comes('-') else Literal(self.one_of('number', 'text').value, at)

    def value(self) -> Literal:
        at = self.next.at
        return Literal(None, at) if self.maybe('NULL') else self.literal()

    # ---- conditions

    def where(self) -> object:
        return self.condition(MOST_LEVELS) if self.maybe('WHERE') else None

    def condition(self, levels: int) -> object:
        return self.joined('OR', lambda: self.joined('AND', lambda: self.unit(levels)))

    def joined(self, word: str, read: Callable) -> object:
        members = [read()]
        while self.maybe(word):
            members.append(read())
        return members[0] if len(members) == 1 else Joined(word, members)

    def unit(self, levels: int) -> object:
        if self.comes('NOT', '(') and levels == 0:
            raise Refusal('deep', self.next.at)
        if self.maybe('NOT'):
            return Not(self.unit(levels - 1))
        if self.comes('('):
            return self.enclosed(lambda: self.condition(levels - 1))
        return self.test(self.reference())

    def test(self, reference: Reference) -> object:
        if self.maybe('NOT'):
            if not self.comes('BETWEEN', 'IN', 'LIKE'):
                self.fail()
            return Not(self.test(reference))
        if self.maybe('IS'):
            is_contrary, test = self.maybe('NOT'), Test(reference, 'IS', [])
            self.need('NULL')
            return Not(test) if is_contrary else test
        if self.maybe('BETWEEN'):
            low = self.literal()
            self.need('AND')
            return Test(reference, 'BETWEEN', [low, self.literal()])
        if self.maybe('IN'):
            return Test(reference, 'IN', self.enclosed(lambda: self.list_of(self.literal)))
        if self.maybe('LIKE'):
            return Test(reference, 'LIKE', [self.prefix()])
        if not self.comes('!=', *COMPARISONS):
            self.fail()
        return Test(reference, self.take().value.replace('!=', '<>'), [self.literal()])

    def prefix(self) -> Literal:
        token = self.next
        if token.kind != 'text' or b'_' in token.value or token.value.find(b'%') != len(token.value) - 1:
            self.fail()
        return Literal(self.take().value[:-1], token.at)

    # ---- statements

    def statement(self) -> object:
        readers = {'CREATE': self.create, 'SELECT': self.select, 'INSERT': self.insert, 'UPDATE': self.update, 'DELETE': self.delete}
        if not self.comes(*readers):
            self.fail()
        found = readers[self.take().value]()
        self.maybe(';')
        if self.next.kind != 'end':
            self.fail()
        return found

    def select(self) -> Select:
        if not self.maybe('*'):
            self.list_of(self.reference)
        self.need('FROM')
        self.name()
        while self.comes('JOIN', 'INNER'):
            self.need(*(['INNER', 'JOIN'] if self.comes('INNER') else ['JOIN']))
            self.name()
            self.need('ON')
            self.reference()
            self.need('=')
            self.reference()
        self.where()
        return Select()

    def insert(self) -> Insert:
        self.need('INTO')
        table = self.name()
        columns = self.enclosed(lambda: self.list_of(self.name)) if self.comes('(') else None
        self.need('VALUES')
        return Insert(table, columns, self.list_of(self.row))

    def row(self) -> Row:
        at = self.next.at
        return Row(self.enclosed(lambda: self.list_of(self.value)), at)

    def update(self) -> Update:
        table = self.name()
        self.need('SET')
        return Update(table, self.list_of(self.place), self.where())

    def place(self) -> tuple:
        name = self.name()
        self.need('=')
        return name, self.value()

    def delete(self) -> Delete:
        self.need('FROM')
        return Delete(self.name(), self.where())

    # ---- CREATE

    def create(self) -> Create:
        self.need('TABLE')
        return Create(self.name().text, self.enclosed(lambda: self.list_of(self.column)))

    def column(self) -> ColumnRules:
        name = self.name().text
        if not self.comes('INT', 'INTEGER', 'TEXT'):
            self.fail()
        is_text, left, rules = self.take().value == 'TEXT', ['PRIMARY', 'NULL', 'NOT', 'CHECK'], []
        while self.comes(*left):
            gone = ('NULL', 'NOT') if self.comes('NULL', 'NOT') else (self.next.value,)
            left = [word for word in left if word not in gone]
            rules.append(self.rule())
        return ColumnRules(name, is_text, rules)

    def rule(self) -> tuple:
        """The word of a rule; of a CHECK its name and its ends, too."""
        word = self.take().value
        if word == 'CHECK':
            return (word, *self.enclosed(self.check))
        if word == 'NULL':
            return (word,)
        self.need('KEY' if word == 'PRIMARY' else 'NULL')
        return (word,)

    def check(self) -> tuple:
        name = self.name().text
        self.need('BETWEEN')
        low = self.number()
        self.need('AND')
        return name, low, self.number()


def judge(create: Create) -> None:
    """Refuses a CREATE that is in the grammar and says no table."""
    for column in create.columns:
        for _, name, low, high in [rule for rule in column.rules if rule[0] == 'CHECK']:
            if name != column.name or column.is_text or not LEAST_NUMBER <= low <= high <= MOST_NUMBER:
                raise Refusal('bad-domain', 0)
    if any(('PRIMARY',) in column.rules and ('NULL',) in column.rules for column in create.columns):
        raise Refusal('bad-null', 0)
    if sum(('PRIMARY',) in column.rules for column in create.columns) != 1:
        raise Refusal('no-key', 0)


def read(text: bytes) -> object:
    """The statement of a text, or its fault."""
    if len(text) > MOST_BYTES:
        raise Refusal('long-text', MOST_BYTES)
    statement = Cursor(text).statement()
    if isinstance(statement, Create):
        judge(statement)
    return statement
