"""Statements: what they change, and why they are refused."""
from conditions import literal_of, where


class Insert:
    """Rows for the table with this number among the tables."""

    def __init__(self, tables, number, rows):
        self.table, self.definition, self.rows = number, tables[number], rows

    @property
    def text(self):
        rows = ', '.join('(%s)' % ', '.join(map(literal_of, row)) for row in self.rows)
        return 'INSERT INTO %s VALUES %s' % (self.definition.name, rows)

    def carry_out(self, rows):
        """Changes these rows by their keys, or tells the fault."""
        for n, row in enumerate(self.rows):
            for c, cell in enumerate(row):
                fault = self.definition.columns[c].fault(cell)
                if fault:
                    return '%s %d' % (fault, c)
            if row[self.definition.key] in rows:
                return 'duplicate-key %d' % n
            rows[row[self.definition.key]] = row
        return None


class Update:
    """New cells in the rows that meet the condition: (column, cell), one behind the other."""

    def __init__(self, tables, number, cells, condition):
        self.table, self.definition, self.cells, self.condition = number, tables[number], cells, condition

    @property
    def text(self):
        said = ', '.join('%s = %s' % (self.definition.columns[c].name, literal_of(cell)) for c, cell in self.cells)
        return 'UPDATE %s SET %s%s' % (self.definition.name, said, where(self.condition))

    def carry_out(self, rows):
        for c, cell in self.cells:
            fault = self.definition.columns[c].fault(cell)
            if fault:
                return '%s %d' % (fault, c)
        for key, row in rows.items():
            if self.condition is None or self.condition.holds(row):
                new = dict(self.cells)
                rows[key] = tuple(new.get(c, cell) for c, cell in enumerate(row))
        return None


class Delete:
    """The rows that meet the condition go."""

    def __init__(self, tables, number, condition):
        self.table, self.definition, self.condition = number, tables[number], condition

    @property
    def text(self):
        return 'DELETE FROM %s%s' % (self.definition.name, where(self.condition))

    def carry_out(self, rows):
        for key in [key for key, row in rows.items() if self.condition is None or self.condition.holds(row)]:
            del rows[key]
        return None


class BadStatement:
    """A text that changes nothing in the tables, with its fault."""

    def __init__(self, text, fault):
        self.table, self.text, self.fault = 0, text, fault

    def carry_out(self, rows):
        return self.fault
