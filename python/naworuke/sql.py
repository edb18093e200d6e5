"""What the package reads of SQL itself: parameters, the names of a schema, and those of a query's columns."""
import functools
import re

from .faults import DataError, InterfaceError, ProgrammingError

TOKEN = re.compile(r"[A-Za-z_][A-Za-z_0-9]*|[0-9]+|'(?:[^']|'')*'|<=|>=|<>|!=|[(),;.*\-=<>?]|[ \t\r\n]+|.", re.S)
MOST_DIGITS = 18


def tokens(text):
    """The tokens of a text, one behind the other, with the blanks between them."""
    return TOKEN.findall(text)


# ---- parameters

def quoted(value):
    """A number, a text or None as SQL. A quote in a text is doubled; all other characters stand for themselves."""
    if value is None:
        return 'NULL'
    if isinstance(value, int):
        if len(str(abs(value))) > MOST_DIGITS:
            raise DataError('a number has at most %d digits' % MOST_DIGITS)
        return str(int(value))
    if isinstance(value, str):
        try:
            value.encode('utf-8')
        except UnicodeEncodeError as fault:
            raise DataError('no UTF-8: %s' % fault) from fault
        return "'" + value.replace("'", "''") + "'"
    raise InterfaceError('a parameter is an int, a str or None, not %s' % type(value).__name__)


@functools.lru_cache(1000)
def pieces_of(text):
    """The pieces of a text between its ?s, those that stand in texts left out."""
    pieces = ['']
    for token in tokens(text):
        if token == '?':
            pieces.append('')
        else:
            pieces[-1] += token
    return pieces


def filled(text, parameters):
    """The text with a literal in place of each ? that stands outside of texts."""
    if not parameters and '?' not in text:
        return text
    pieces, literals = pieces_of(text), list(map(quoted, parameters))
    if len(pieces) != len(literals) + 1:
        raise ProgrammingError('%d parameters, and %d are there' % (len(pieces) - 1, len(literals)))
    # blanks keep a literal from growing together with what stands beside it
    return pieces[0] + ''.join(' %s %s' % both for both in zip(literals, pieces[1:]))


# ---- names

def words(text):
    return [token for token in tokens(text) if not token.isspace()]


def tables_of(schema):
    """The tables of CREATE lines, in order: a name, and its columns' names, each with True for a text."""
    tables = []
    for line in schema.splitlines():
        found = words(line)
        if found and found[0].upper() == 'CREATE' and len(found) > 3:
            tables.append((found[2].lower(), columns_of(found[4:])))
    return tuple(tables)


def columns_of(found):
    columns, depth, first = [], 0, True
    for word, behind in zip(found, found[1:]):
        if depth == 0 and first:
            columns.append((word.lower(), behind.upper() == 'TEXT'))
        first = depth == 0 and word == ','
        depth += (word == '(') - (word == ')')
    return tuple(columns)


@functools.lru_cache(1000)
def outputs_of(text, tables):
    """The names of the columns of a query that was understood, each with True for a text."""
    found = [word.lower() for word in words(text)]
    end = found.index('from')
    named = dict(tables)
    joined = [behind for word, behind in zip(found[end:], found[end + 1:]) if word in ('from', 'join')]
    if found[1] == '*':
        return [column for table in joined for column in named[table]]
    return [output_of(reference, joined, named) for reference in ' '.join(found[1:end]).replace(' . ', '.').split(' , ')]


def output_of(reference, joined, named):
    table, dot, column = reference.rpartition('.')
    for name in [table] if dot else joined:
        for other, is_text in named[name]:
            if other == column:
                return column, is_text
    raise ProgrammingError('no column %s' % reference)
