"""Statements bound to the tables: what they write, or the first fault that docs/FORMATS.md names."""
from typing import NamedTuple, Union

from . import sql
from .schema import MOST_TEXT, Table
from .sql import Refusal


class Test(NamedTuple):
    """A test of the column with this number: a comparison, BETWEEN, IN or LIKE of these values, or IS, which is of NULL."""
    column: int
    word: str
    values: list


class Insert(NamedTuple):
    """Rows for the table with this number, their cells by column."""
    table: int
    rows: list


class Update(NamedTuple):
    """New values, as pairs of column and value, in the rows that meet the condition, or in all."""
    table: int
    places: list
    condition: object


class Delete(NamedTuple):
    table: int
    condition: object


Write = Union[Insert, Update, Delete]


def bind(statement: object, tables: list) -> Write:
    """What a statement writes to the tables."""
    if isinstance(statement, (sql.Select, sql.Create)):
        raise Refusal('not-a-write', 0)
    number = next((n for n, table in enumerate(tables) if table.name == statement.table.text), None)
    if number is None:
        raise Refusal('unknown-table', statement.table.at)
    table = tables[number]
    if isinstance(statement, sql.Insert):
        order = order_of(statement, table)
        return Insert(number, [bound_row(row, order, table) for row in statement.rows])
    if isinstance(statement, sql.Update):
        places = bound_places(statement.places, table)
        return Update(number, places, bound_condition(statement.condition, table))
    return Delete(number, bound_condition(statement.condition, table))


def order_of(statement: sql.Insert, table: Table) -> list:
    """The columns that the values of a row are for."""
    if statement.columns is None:
        return list(range(len(table.columns)))
    order = []
    for name in statement.columns:
        place = table.place_of(name.text)
        if place < 0:
            raise Refusal('unknown-column', name.at)
        if place in order:
            raise Refusal('repeated', name.at)
        order.append(place)
    if len(order) < len(table.columns):
        raise Refusal('wrong-count', statement.table.at)
    return order


def bound_row(row: sql.Row, order: list, table: Table) -> list:
    if len(row.literals) != len(order):
        raise Refusal('wrong-count', row.at)
    for place, literal in zip(order, row.literals):
        judge_type(literal, table.columns[place].is_text)
    cells = dict(zip(order, (literal.value for literal in row.literals)))
    return [cells[place] for place in sorted(cells)]


def bound_places(places: list, table: Table) -> list:
    bound = []
    for name, literal in places:
        place = table.place_of(name.text)
        if place < 0:
            raise Refusal('unknown-column', name.at)
        if place == table.key:
            raise Refusal('key-change', name.at)
        if place in [before for before, _ in bound]:
            raise Refusal('repeated', name.at)
        judge_type(literal, table.columns[place].is_text)
        bound.append((place, literal.value))
    return bound


def judge_type(literal: sql.Literal, is_text: bool) -> None:
    if literal.value is not None and isinstance(literal.value, bytes) != is_text:
        raise Refusal('wrong-type', literal.at)


def judge_domain(literal: sql.Literal) -> None:
    """A value that no column can hold is refused."""
    value = literal.value
    fits = len(value) <= MOST_TEXT if isinstance(value, bytes) else sql.LEAST_NUMBER <= value <= sql.MOST_NUMBER
    if not fits:
        raise Refusal('out-of-domain', literal.at)


# ---- conditions

def bound_condition(condition: object, table: Table) -> object:
    if condition is None:
        return None
    if isinstance(condition, sql.Not):
        return sql.Not(bound_condition(condition.inner, table))
    if isinstance(condition, sql.Joined):
        return sql.Joined(condition.word, [bound_condition(member, table) for member in condition.members])
    return bound_test(condition, table)


def bound_test(test: sql.Test, table: Table) -> Test:
    reference = test.reference
    if reference.table not in (None, table.name):
        raise Refusal('unknown-table', reference.at)
    place = table.place_of(reference.column)
    if place < 0:
        raise Refusal('unknown-column', reference.at)
    for literal in test.literals:
        judge_type(literal, table.columns[place].is_text)
        judge_domain(literal)
    return Test(place, test.word, [literal.value for literal in test.literals])
