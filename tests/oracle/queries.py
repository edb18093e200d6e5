"""Queries: what they ask of each table, and what they answer."""
import functools

from conditions import shown, where

MOST_WIDTH = 64


class Part:
    """What a query asks of one table: rows that meet a condition, or all, with some columns. Columns are a number of bits."""

    def __init__(self, tables, number, columns, condition):
        self.table, self.definition, self.condition = number, tables[number], condition
        self.need = 1 << self.definition.key | columns | (condition.columns if condition else 0)

    def holds(self, values):
        return self.condition is None or self.condition.holds(values)

    @functools.cached_property
    def points(self):
        return {point for point in self.definition.points if self.holds(point)}

    def tests(self):
        return self.condition.tests() if self.condition else []

    def width(self):
        return self.condition.width(False) if self.condition else 1


class Query:
    """A query of one or more parts, in the order of FROM.

    Each part behind the first is joined by its table's key, which equals a column of an earlier part: (part, column). The outputs are such
    pairs too.
    """

    def __init__(self, text, parts, joins, outputs):
        self.text, self.parts, self.joins, self.outputs = text, parts, joins, outputs

    def fault(self):
        wide = [part.width() for part in self.parts if part.width() > MOST_WIDTH]
        return 'too-wide %d' % wide[0] if wide else None

    def rows(self, tables):
        """The rows of the answer over these tables, as a trace shows them."""
        first = tables[self.parts[0].table]
        for key in sorted(first):
            rows = self.joined(first[key], tables)
            if rows is not None and all(part.holds(row) for part, row in zip(self.parts, rows)):
                yield ', '.join(shown(rows[part][c]) for part, c in self.outputs)

    def joined(self, row, tables):
        """The row of each part that belongs to this one of the first, or None."""
        rows = [row]
        for (left, column), part in zip(self.joins, self.parts[1:]):
            found = tables[part.table].get(rows[left][column])
            if found is None:
                return None
            rows.append(found)
        return rows


def bits(columns):
    return sum(1 << c for c in set(columns))


def query_of(tables, number, outputs, condition):
    """A query of one table."""
    definition = tables[number]
    names = ', '.join(definition.columns[c].name for c in outputs)
    text = 'SELECT %s FROM %s%s' % (names, definition.name, where(condition))
    return Query(text, [Part(tables, number, bits(outputs), condition)], [], [(0, c) for c in outputs])


def joined_query(tables, chain, conditions, outputs):
    """A query of a chain of tables, (table, column of the one before it that equals its key), with a condition or None for each."""
    joins = [(n, column) for n, (_, column) in enumerate(chain[1:])]
    columns = [bits([c for part, c in outputs + joins if part == n]) for n in range(len(chain))]
    parts = [Part(tables, table, *said) for (table, _), said in zip(chain, zip(columns, conditions))]
    text = 'SELECT %s FROM %s' % (', '.join(name_of(parts[part], c) for part, c in outputs), parts[0].definition.name)
    for (left, c), part in zip(joins, parts[1:]):
        text += ' JOIN %s ON %s = %s' % (part.definition.name, name_of(parts[left], c), name_of(part, part.definition.key))
    said = ' AND '.join('(%s)' % condition.text for condition in conditions if condition)
    return Query(text + (' WHERE ' + said if said else ''), parts, joins, outputs)


def name_of(part, c):
    return '%s.%s' % (part.definition.name, part.definition.columns[c].name)


class BadQuery:
    """A text that asks nothing of the tables, with its fault."""

    parts = []

    def __init__(self, text, fault):
        self.text, self.why = text, fault

    def fault(self):
        return self.why
