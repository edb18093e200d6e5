"""The tables of a schema file."""
import re
from typing import NamedTuple

from . import sql

MOST_TABLES, MOST_COLUMNS, MOST_TEXT = 16, 12, 120
CREATE = re.compile(rb' *create(?![A-Za-z0-9_])', re.IGNORECASE)


class Bad(Exception):
    """The schema file is not one; the text is the error line of `serve`."""


class Column(NamedTuple):
    """A column of texts, or of numbers between two."""
    name: str
    is_text: bool
    low: int
    high: int

    def fault_of(self, value) -> str:
        """Why a value of the column's kind, or NULL, can't stand in it, or nothing."""
        if value is None:
            return 'null-cell'
        if self.is_text:
            return 'long-cell' if len(value) > MOST_TEXT else ''
        return '' if self.low <= value <= self.high else 'domain-cell'


class Table(NamedTuple):
    name: str
    columns: list
    key: int

    def place_of(self, name: str) -> int:
        """Which column has the name; -1 where none has."""
        return next((c for c, column in enumerate(self.columns) if column.name == name), -1)


def table_of(create: sql.Create, before: list) -> Table:
    """The table of a CREATE, behind these tables."""
    names = [column.name for column in create.columns]
    repeated = [c for c, name in enumerate(names) if name in names[:c]]
    if create.name in [table.name for table in before]:
        raise sql.Refusal('duplicate-name', 0)
    if repeated:
        raise sql.Refusal('duplicate-name', repeated[0])
    if len(before) == MOST_TABLES:
        raise sql.Refusal('too-many-tables', MOST_TABLES)
    if len(names) > MOST_COLUMNS:
        raise sql.Refusal('too-many-columns', len(names))
    nullable = [c for c, column in enumerate(create.columns) if ('NULL',) in column.rules]
    if nullable:
        raise sql.Refusal('bad-null', nullable[0])
    keys = [c for c, column in enumerate(create.columns) if ('PRIMARY',) in column.rules]
    return Table(create.name, list(map(column_of, create.columns)), keys[0])


def column_of(column: sql.ColumnRules) -> Column:
    low, high = next((rule[2:] for rule in column.rules if rule[0] == 'CHECK'), (sql.LEAST_NUMBER, sql.MOST_NUMBER))
    return Column(column.name, column.is_text, low, high)


def read(text: bytes) -> list:
    """The tables of the CREATE lines of a schema file."""
    tables, faults = [], []
    for number, line in enumerate(text.split(b'\n'), 1):
        line = line[:-1] if line.endswith(b'\r') else line
        judge_line(number, line)
        if CREATE.match(line):
            try:
                tables.append(table_of(sql.read(line), tables))
            except sql.Refusal as refusal:
                faults.append('schema %d %s' % (number, refusal))
    if faults:
        raise Bad(faults[0])
    return tables


def judge_line(number: int, line: bytes) -> None:
    """A line is blank, a comment or a CREATE."""
    try:
        line.decode()
    except UnicodeDecodeError as fault:
        raise Bad('line %d %d' % (number, fault.start)) from None
    if line.strip(b' ') and not line.startswith(b'#') and not CREATE.match(line):
        raise Bad('line %d 0' % number)
