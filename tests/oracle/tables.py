"""Tables so small that their points can be listed.

A value of a column stands for all values from itself to below the next one: the tests of a script tell only finitely many apart.
"""
import bisect
import collections
import functools
import itertools
import math

from cells import NULL


class Column:
    """A column with its values, ascending; where it is nullable, NULL is the last. A column of numbers has a highest number, a column of texts
    none."""

    # how many bytes of a text tell where it lies
    bytes_told = 4
    # which value NULL counts as where a place is told by numbers
    null_counts_as = 0

    def __init__(self, name, values, highest=None, is_nullable=False):
        self.name, self.highest, self.is_nullable = name, highest, is_nullable
        self.is_text = highest is None
        self.divide(values)

    def divide(self, values):
        """Takes these values, and NULL where it may be."""
        self.own = values
        self.values = [*values, NULL] if self.is_nullable else values

    def place(self, cell):
        """The value that stands for a cell."""
        return self.values[bisect.bisect_right(self.values, cell) - 1]

    def above(self, value):
        """The next of the values but NULL, or None."""
        place = bisect.bisect_right(self.own, value)
        return self.own[place] if place < len(self.own) else None

    def number_of(self, text):
        """The number of a text's first bytes."""
        return int.from_bytes(text[:self.bytes_told].ljust(self.bytes_told, b'\0'), 'big')

    def first(self, value):
        """The lower end of what the value stands for, as a number; that of NULL is the first value's."""
        value = self.own[self.null_counts_as] if value is NULL else value
        return self.number_of(value) if self.is_text else value

    def last(self, value):
        """The upper end of what the value stands for, as a number; that of NULL is its lower end."""
        if value is NULL:
            return self.first(value)
        above = self.above(value)
        if self.is_text:
            return 256 ** self.bytes_told if above is None else self.number_of(above)
        return self.highest if above is None else above - 1

    def fault(self, cell):
        """Why the column cannot hold a cell, or None."""
        if cell is NULL:
            return None if self.is_nullable else 'null-cell'
        return None if self.is_text or self.own[0] <= cell <= self.highest else 'domain-cell'


class Table:
    """A table with its points."""

    def __init__(self, name, columns, key):
        self.name, self.columns, self.key = name, columns, key

    @functools.cached_property
    def points(self):
        return list(itertools.product(*(column.values for column in self.columns)))

    def place(self, row):
        """The point that stands for a row."""
        return tuple(column.place(cell) for column, cell in zip(self.columns, row))

    def called(self, columns):
        """The table's name and those of some columns, as a trace has them. Columns are a number of bits."""
        return '%s (%s)' % (self.name, ','.join(column.name for c, column in enumerate(self.columns) if columns >> c & 1))

    def centre(self, points):
        """The sum of both ends of the hull, for each column."""
        return [min(column.first(p[c]) for p in points) + max(column.last(p[c]) for p in points)
                for c, column in enumerate(self.columns)]

    def essential(self, points):
        """The columns in which alone a point inside and one outside differ."""
        def has_all(c):
            lines = collections.Counter(p[:c] + p[c + 1:] for p in points)
            return set(lines.values()) <= {len(self.columns[c].values)}

        return sum(1 << c for c in range(len(self.columns)) if not has_all(c))

    def grid(self, tests):
        """The product of one plus the number of a column's ends: the values at which a test becomes true or false as the value rises, and
        the place before NULL where a nullable column is tested."""
        ends = [set() for _ in self.columns]
        for test in tests:
            column = self.columns[test.column]
            values = column.own
            ends[test.column] |= {NULL} if column.is_nullable else set()
            truths = [test.holds({test.column: value}) for value in values]
            ends[test.column] |= {value for value, before, now in zip(values[1:], truths, truths[1:]) if before != now}
        return math.prod(1 + len(places) for places in ends)
