"""The published tables: asks, writes and what is new, each in one snapshot or transaction of PostgreSQL."""
import asyncio
import contextlib
from typing import AsyncIterator, NamedTuple, Optional

import psycopg

from . import bind, sql
from .frames import Rows
from .publish import LOCK, cell, publish, quoted
from .rules import Change
from .texts import above_prefix, least_text

ROWS_OF_A_MESSAGE, MOST_ROWS, MOST_CHANGES = 256, 65536, 10000
# a version that logged more is looked at in the database first
MOST_LOGGED = 20000
# What is newer than a version, and how far back the log reaches; and a piece of the rows of an asked part, by key. They stand in one statement,
# which has one snapshot.
NEWS = """SELECT 0 AS kind, v.version AS number, c.seq, CASE WHEN logged > {most} THEN -1 ELSE c.place END::bigint AS count,
        c.before, c.after, NULL::bytea AS spelled
    FROM naworuke.version v LEFT JOIN naworuke.change c ON c.version = v.version AND logged <= {most} WHERE v.version > %d
    UNION ALL SELECT 1, floor, NULL, NULL, NULL, NULL, NULL FROM naworuke.state""".format(most=MOST_LOGGED)
# what a version of many logged changes comes to, as far as a log may keep it; and how far back the log reaches by then
MANY = """SELECT place::bigint, old, new FROM (SELECT place, (array_agg(before ORDER BY seq))[1] AS old, (array_agg(after ORDER BY seq DESC))[1] AS new
        FROM naworuke.change WHERE version = %d GROUP BY place, coalesce(after, before) ->> (%s)) AS net WHERE old::text IS DISTINCT FROM new::text
    UNION ALL SELECT -1, NULL, to_json(floor) FROM naworuke.state LIMIT %d"""
ROWS = """SELECT %d, piece, NULL, count(*), NULL, NULL, string_agg(spelled, ''::bytea ORDER BY key)
    FROM (SELECT %s AS key, %s AS spelled, (row_number() OVER (ORDER BY %s) - 1) / %d AS piece FROM %s WHERE %s) AS rows GROUP BY piece"""
FIRST_PART, MANY_LOGGED = 2, -1
SETTINGS = '-c jit=off -c standard_conforming_strings=on -c client_encoding=UTF8'


class Down(Exception):
    """The database cannot be reached, or ended what was under way."""


class Undone(Exception):
    """The database would not do what the rules demand; nothing was done."""


class News(NamedTuple):
    """Versions with their changes, ascending, and the version up to which the log was dropped."""
    floor: int
    versions: list


class Asked(NamedTuple):
    version: int
    news: News
    rows: list


# ---- SQL

def literal(value) -> str:
    return "'%s'" % value.replace("'", "''") if isinstance(value, str) else '(%d)' % value


def from_text(column, low: bytes) -> str:
    """That a text does not lie below these bytes."""
    least = least_text(low)
    return 'false' if least is None else '%s >= %s' % (cell(column), literal(least))


def below_text(column, high: Optional[bytes]) -> str:
    least = None if high is None else least_text(high)
    return 'true' if least is None else '%s < %s' % (cell(column), literal(least))


def span_sql(column, span: tuple) -> str:
    low, high = span
    if column.is_text:
        return '%s AND %s' % (from_text(column, low), below_text(column, high))
    return '%s BETWEEN %d AND %d' % (cell(column), low, high)


def rect_sql(table, rect: tuple) -> str:
    spans = [span_sql(column, span) for column, span in zip(table.columns, rect) if span is not None]
    return ' AND '.join(spans) or 'true'


def test_sql(column, test: bind.Test) -> str:
    """A test by its values; texts by the ranges of bytes that it means. No column has NULL."""
    values = test.values
    if test.word == 'IS':
        return 'false'
    if not column.is_text:
        words = {'BETWEEN': ' AND '.join(map(literal, values)), 'IN': '(%s)' % ', '.join(map(literal, values))}
        return '%s %s %s' % (cell(column), test.word, words.get(test.word, literal(values[0])))
    behind = [value + b'\0' for value in values]
    if test.word in ('=', '<>', 'IN'):
        found = ' OR '.join('(%s AND %s)' % (from_text(column, low), below_text(column, high)) for low, high in zip(values, behind))
        return 'NOT (%s)' % found if test.word == '<>' else found
    ranges = {'<': (None, values[0]), '<=': (None, behind[0]), '>': (behind[0], None), '>=': (values[0], None),
              'BETWEEN': (values[0], behind[-1]), 'LIKE': (values[0], above_prefix(values[0]))}
    low, high = ranges[test.word]
    return '%s AND %s' % ('true' if low is None else from_text(column, low), below_text(column, high))


def condition_sql(table, condition) -> str:
    if condition is None:
        return 'true'
    if isinstance(condition, sql.Not):
        return 'NOT (%s)' % condition_sql(table, condition.inner)
    if isinstance(condition, sql.Joined):
        return (' %s ' % condition.word).join('(%s)' % condition_sql(table, member) for member in condition.members)
    return test_sql(table.columns[condition.column], condition)


def spelled_sql(columns: list) -> str:
    """A row as the bytes of a frame."""
    cells = ["'\\x01'::bytea || substr(int4send(octet_length({0})), 4) || convert_to({0}, 'UTF8')" if column.is_text
             else "'\\x00'::bytea || int8send({0}::bigint)" for column in columns]
    return ' || '.join(["'\\x%02x'::bytea" % len(columns)] + [each.format(quoted(column.name)) for each, column in zip(cells, columns)])


def rows_sql(place: int, table, relation: str, part) -> str:
    """The rows of the asked part in this place, in pieces as they stand in messages."""
    where = ' OR '.join('(%s)' % rect_sql(table, rect) for rect in part.rects)
    key, spelled = cell(table.columns[table.key]), spelled_sql([table.columns[c] for c in part.columns])
    return ROWS % (FIRST_PART + place, key, spelled, key, ROWS_OF_A_MESSAGE, relation, where)


# ---- news

def row_of(cells: Optional[list]) -> Optional[list]:
    """A logged row; texts as bytes."""
    return None if cells is None else [value.encode() if isinstance(value, str) else value for value in cells]


def versions_of(tables: list, logged: list) -> list:
    """Logged changes by version. Of several changes of one key in a version the first old and the last new row count."""
    versions: dict = {}
    for version, place, before, after in logged:
        changes = versions.setdefault(version, {})
        if place is not None:
            before, after = row_of(before), row_of(after)
            of = place, (before if after is None else after)[tables[place].key]
            changes[of] = (changes[of][0] if of in changes else before), after
    return [(version, [Change(*of, *changes[of]) for of in sorted(changes) if changes[of][0] != changes[of][1]])
            for version, changes in versions.items()]


# ---- the store

class Store:
    """Published tables, over so many connections."""

    def __init__(self, url: str, tables: list, connections: int):
        self.url, self.tables, self.connections = url, tables, connections
        self.relations, self.free, self.all = [], asyncio.Queue(), []
        self.woken, self.why_down = asyncio.Event(), ''

    async def open(self, is_anew: bool, first: Optional[int]) -> None:
        self.relations = await asyncio.to_thread(publish, self.url, self.tables, is_anew, first)
        for _ in range(self.connections):
            self.free.put_nowait(await self.dial())

    async def dial(self) -> psycopg.AsyncConnection:
        connection = await psycopg.AsyncConnection.connect(self.url, autocommit=True, options=SETTINGS, application_name='naworuke gateway')
        self.all.append(connection)
        return connection

    async def close(self) -> None:
        for connection in self.all:
            with contextlib.suppress(Exception):
                await connection.close()

    @contextlib.asynccontextmanager
    async def connection(self) -> AsyncIterator[psycopg.AsyncConnection]:
        """A connection that is free. One that is broken goes back too, so nobody waits for it: whoever takes it is told."""
        connection = await self.free.get()
        try:
            yield connection
        except psycopg.Error as fault:
            if connection.broken or connection.closed or isinstance(fault, psycopg.errors.OperatorIntervention):
                self.give_up(fault)
                raise Down(str(fault)) from fault
            await self.roll_back(connection)
            raise Undone(str(fault).split('\n')[0]) from fault
        except BaseException:
            await self.roll_back(connection)
            raise
        finally:
            self.free.put_nowait(connection)

    @staticmethod
    async def roll_back(connection: psycopg.AsyncConnection) -> None:
        """Nothing of what was begun stays; what cannot be rolled back is given up with its connection."""
        try:
            await connection.execute('ROLLBACK')
        except BaseException:
            await connection.close()

    async def news(self, known: int) -> News:
        async with self.connection() as base:
            return (await self.look(base, known, [])).news

    async def ask(self, ask, known: int) -> Asked:
        """The rows of an ask, and what is newer than the known version, in one snapshot."""
        async with self.connection() as base:
            return await self.look(base, known, ask.parts, ask.number)

    async def look(self, base: psycopg.AsyncConnection, known: int, parts: list, number: int = 0) -> Asked:
        queries = [NEWS % known] + [rows_sql(place, self.tables[part.table], self.relations[part.table], part) for place, part in enumerate(parts)]
        found = await base.execute(' UNION ALL '.join(queries) + ' ORDER BY kind, number, seq', prepare=False, binary=True)
        logged, floor, rows = [], 0, []
        for kind, at, _, count, before, after, spelled in await found.fetchall():
            if kind == 0:
                logged.append((at, count, before, after))
            elif kind == 1:
                floor = at
            else:
                rows.append(Rows(number, kind - FIRST_PART, count, spelled))
        versions = versions_of(self.tables, [each for each in logged if each[1] != MANY_LOGGED])
        for version in [at for at, place, _, _ in logged if place == MANY_LOGGED]:
            changes, floor = await self.many(base, version, floor)
            versions.append((version, changes))
        versions.sort(key=lambda each: each[0])
        return Asked(versions[-1][0] if versions else known, News(floor, versions), rows)

    async def many(self, base: psycopg.AsyncConnection, version: int, floor: int) -> tuple:
        """The changes of a version that logged many, or None where they are more than a log keeps; and how far back the log reaches by now."""
        keys = 'CASE place %s END' % ' '.join('WHEN %d THEN %d' % (place, table.key) for place, table in enumerate(self.tables))
        found = await (await base.execute(MANY % (version, keys, MOST_CHANGES + 2), prepare=False, binary=True)).fetchall()
        told = [each[2] for each in found if each[0] < 0]
        if not told or len(found) > MOST_CHANGES + 1:
            return None, floor
        changes = versions_of(self.tables, [(version, *each) for each in found if each[0] >= 0])
        return (changes[0][1] if changes else []), max(floor, told[0])

    # ---- writes

    async def write(self, write: bind.Write, known: int) -> News:
        """Carries a statement out; the last version of the news is its own. Or it is refused, and nothing is done."""
        async with self.connection() as base:
            await base.execute('BEGIN')
            await base.execute('SELECT pg_advisory_xact_lock(%s)', [LOCK])
            do = {bind.Insert: self.insert, bind.Update: self.update, bind.Delete: self.delete}[type(write)]
            await do(base, self.tables[write.table], self.relations[write.table], write)
            news = (await self.look(base, known, [])).news
            await base.execute('COMMIT')
            return news

    async def insert(self, base, table, relation: str, insert: bind.Insert) -> None:
        await self.judge_rows(base, table, relation, insert.rows)
        there = await self.number(base, 'SELECT count(*) FROM (SELECT FROM %s LIMIT %d) AS few' % (relation, MOST_ROWS + 1))
        if there + len(insert.rows) > MOST_ROWS:
            raise sql.Refusal('table-full', MOST_ROWS)
        judge_changes(len(insert.rows))
        kinds = ', '.join('%s::text[]' if column.is_text else '%s::bigint[]' for column in table.columns)
        await base.execute('INSERT INTO %s (%s) SELECT * FROM unnest(%s)' % (relation, ', '.join(quoted(c.name) for c in table.columns), kinds),
                           [list(map(storable, cells)) for cells in zip(*insert.rows)])

    async def judge_rows(self, base, table, relation: str, rows: list) -> None:
        """Row by row: first the cells, then the key."""
        key = table.columns[table.key]
        keys = [storable(row[table.key]) for row in rows if not key.fault_of(row[table.key])]
        kind = 'text' if key.is_text else 'bigint'
        found = await base.execute('SELECT %s FROM %s WHERE %s = ANY(%%s::%s[])' % (quoted(key.name), relation, cell(key), kind), [keys])
        taken = {row_of(row)[0] for row in await found.fetchall()}
        for number, row in enumerate(rows):
            judge_cells(table, enumerate(row))
            if row[table.key] in taken:
                raise sql.Refusal('duplicate-key', number)
            taken.add(row[table.key])

    async def update(self, base, table, relation: str, update: bind.Update) -> None:
        judge_cells(table, update.places)
        condition, values = condition_sql(table, update.condition), [storable(value) for _, value in update.places]
        columns = [table.columns[place] for place, _ in update.places]
        differs = ' OR '.join('%s <> %s' % (cell(column), literal(value)) for column, value in zip(columns, values))
        judge_changes(await self.number(base, 'SELECT count(*) FROM %s WHERE (%s) AND (%s)' % (relation, condition, differs)))
        places = ', '.join('%s = %s' % (quoted(column.name), literal(value)) for column, value in zip(columns, values))
        await base.execute('UPDATE %s SET %s WHERE (%s) AND (%s)' % (relation, places, condition, differs))

    async def delete(self, base, table, relation: str, delete: bind.Delete) -> None:
        condition = condition_sql(table, delete.condition)
        judge_changes(await self.number(base, 'SELECT count(*) FROM %s WHERE %s' % (relation, condition)))
        await base.execute('DELETE FROM %s WHERE %s' % (relation, condition))

    @staticmethod
    async def number(base, query: str) -> int:
        return (await (await base.execute(query)).fetchone())[0]

    # ---- the log

    async def trim(self, floor: int) -> None:
        """Drops the versions up to this one, in the database too."""
        async with self.connection() as base:
            async with base.transaction():
                await base.execute('UPDATE naworuke.state SET floor = greatest(floor, %s)', [floor])
                await base.execute('DELETE FROM naworuke.change WHERE version <= %s', [floor])
                await base.execute('DELETE FROM naworuke.version WHERE version <= %s AND version < (SELECT max(version) FROM naworuke.version)', [floor])

    async def wakes(self) -> AsyncIterator[None]:
        """Once at first, and then whenever a version may be made; until the database is down."""
        base = await self.dial()
        await base.execute('LISTEN naworuke')
        listening = asyncio.create_task(self.listen(base))
        try:
            while not self.why_down:
                self.woken.clear()
                yield None
                await self.woken.wait()
        finally:
            listening.cancel()
        raise Down(self.why_down)

    async def listen(self, base: psycopg.AsyncConnection) -> None:
        try:
            async for _ in base.notifies():
                self.woken.set()
        except psycopg.Error as fault:
            self.give_up(fault)

    def give_up(self, fault: Exception) -> None:
        """The database is down: all is opened anew."""
        self.why_down = str(fault) or 'it is down'
        self.woken.set()


def judge_changes(count: int) -> None:
    if count > MOST_CHANGES:
        raise sql.Refusal('too-many-changes', count)


def judge_cells(table, places) -> None:
    """The first of these pairs of column and value that cannot stand there is refused."""
    for place, value in places:
        fault = table.columns[place].fault_of(value)
        if fault:
            raise sql.Refusal(fault, place)


def storable(value):
    """A value as PostgreSQL takes it: it has no text with a byte 0."""
    if isinstance(value, bytes) and b'\0' in value:
        raise Undone('PostgreSQL holds no text with a byte 0')
    return value.decode() if isinstance(value, bytes) else value
