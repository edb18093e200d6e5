"""Conditions: what they say, their text, and their width.

A condition is true, false or, as None, unknown.
"""
import operator

from cells import NULL

COMPARISONS = {'=': operator.eq, '<>': operator.ne, '<': operator.lt, '<=': operator.le, '>': operator.gt, '>=': operator.ge}


def literal_of(value):
    """A cell as SQL writes it."""
    if value is NULL:
        return 'NULL'
    return "'%s'" % value.decode().replace("'", "''") if isinstance(value, bytes) else str(value)


def shown(value):
    """A cell as a trace writes it."""
    if value is NULL:
        return 'null'
    if isinstance(value, bytes) and not all(32 <= byte <= 126 for byte in value):
        return "x'%s'" % value.hex()
    return literal_of(value)


def after_prefix(text):
    """The least text above all that begin with the text."""
    return text[:-1] + bytes([text[-1] + 1])


def around(cells):
    """The cells, and the next value above each."""
    return [end for cell in cells for end in (cell, cell + b'\0' if isinstance(cell, bytes) else cell + 1)]


class Test:
    """A test of one column, with its width and that of its contrary, and the values at which it may begin or end to be true. It says nothing
    of NULL."""

    def __init__(self, column, text, widths, ends, is_true):
        self.column, self.columns, self.text, self.widths, self.ends = column, 1 << column, text, widths, ends
        self.is_true = is_true

    def holds(self, values):
        return None if values[self.column] is NULL else self.is_true(values[self.column])

    def tests(self):
        return [self]

    def width(self, is_contrary):
        return self.widths[is_contrary]


def compares(column, name, word, cell):
    widths = {'=': (1, 2), '<>': (2, 1)}.get(word, (1, 1))
    return Test(column, '%s %s %s' % (name, word, literal_of(cell)), widths, around([cell]), lambda value: COMPARISONS[word](value, cell))


def between(column, name, one, two):
    text = '%s BETWEEN %s AND %s' % (name, literal_of(one), literal_of(two))
    return Test(column, text, (1, 2), around([one, two]), lambda value: one <= value <= two)


def one_of(column, name, cells):
    text, few = '%s IN (%s)' % (name, ', '.join(map(literal_of, cells))), set(cells)
    return Test(column, text, (len(cells), len(cells) + 1), around(cells), lambda value: value in few)


class IsNull(Test):
    """Whether a column has NULL, or has it not."""

    def __init__(self, column, name, is_contrary=False):
        super().__init__(column, '%s IS %sNULL' % (name, 'NOT ' * is_contrary), (1, 1), [], None)
        self.is_contrary = is_contrary

    def holds(self, values):
        return (values[self.column] is NULL) != self.is_contrary


def begins(column, name, prefix):
    ends = [prefix, after_prefix(prefix)] if prefix else [prefix]
    return Test(column, '%s LIKE %s' % (name, literal_of(prefix + b'%')), (1, 2), ends, lambda value: value.startswith(prefix))


class Both:
    """Two conditions joined by AND or OR."""

    def __init__(self, word, one, two):
        self.word, self.one, self.two = word, one, two
        self.columns = one.columns | two.columns
        self.text = '(%s) %s (%s)' % (one.text, word, two.text)

    def holds(self, values):
        said, decides = (self.one.holds(values), self.two.holds(values)), self.word == 'OR'
        return decides if decides in said else None if None in said else not decides

    def tests(self):
        return self.one.tests() + self.two.tests()

    def width(self, is_contrary):
        one, two = self.one.width(is_contrary), self.two.width(is_contrary)
        return one * two if (self.word == 'AND') != is_contrary else one + two


class Not:
    """The contrary of a condition."""

    def __init__(self, inner):
        self.inner, self.columns, self.text = inner, inner.columns, 'NOT (%s)' % inner.text

    def holds(self, values):
        said = self.inner.holds(values)
        return None if said is None else not said

    def tests(self):
        return self.inner.tests()

    def width(self, is_contrary):
        return self.inner.width(not is_contrary)


def where(condition):
    return ' WHERE ' + condition.text if condition else ''
