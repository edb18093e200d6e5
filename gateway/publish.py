"""Publishing: the tables of a schema file as tables of PostgreSQL whose changes are logged, whoever writes them.

A version is a row of naworuke.version, made by the first statement of a transaction that writes a published table, and its changes are rows
of naworuke.change. The statement takes a lock that its transaction holds to its end, so versions stand in the order of commits. Numbers may
be left out: a transaction that is rolled back takes its number with it.
"""
import time
from typing import Optional

import psycopg

from .schema import MOST_TEXT, Column, Table

LOCK = 0x6e61776f72756b65
NUMBERS, TEXTS = ('smallint', 'integer', 'bigint'), ('text', 'character varying')
# no system identifier or timeline is two histories' own; the database's number tells copies within one system apart
IDENTITY = """SELECT system_identifier || '/' || substr(pg_walfile_name(pg_current_wal_insert_lsn()), 1, 8) || '/' || oid
    FROM pg_control_system(), pg_database WHERE datname = current_database()"""

KEPT = f"""
CREATE SCHEMA IF NOT EXISTS naworuke;
CREATE TABLE IF NOT EXISTS naworuke.state (one boolean PRIMARY KEY CHECK (one), identity text NOT NULL, tables text NOT NULL, floor bigint NOT NULL);
CREATE TABLE IF NOT EXISTS naworuke.version (version bigint PRIMARY KEY, logged bigint NOT NULL DEFAULT 0);
CREATE TABLE IF NOT EXISTS naworuke.change (seq bigserial PRIMARY KEY, version bigint NOT NULL, place smallint NOT NULL, before json, after json);
CREATE INDEX IF NOT EXISTS change_version ON naworuke.change (version);
CREATE SEQUENCE IF NOT EXISTS naworuke.versions MINVALUE 0;

CREATE OR REPLACE FUNCTION naworuke.begin_version() RETURNS trigger LANGUAGE plpgsql SECURITY DEFINER SET search_path = pg_catalog, pg_temp AS $$
DECLARE number bigint;
BEGIN
    IF coalesce(current_setting('naworuke.version', true), '') = '' THEN
        PERFORM pg_advisory_xact_lock({LOCK});
        IF current_setting('synchronous_commit') = 'off' THEN
            PERFORM set_config('synchronous_commit', 'on', true);
        END IF;
        number := nextval('naworuke.versions');
        INSERT INTO naworuke.version VALUES (number);
        PERFORM set_config('naworuke.version', number::text, true);
        PERFORM pg_notify('naworuke', '');
    END IF;
    RETURN NULL;
END $$;
"""

# what a table of this number logs; old_rows and new_rows are what a statement took away and brought
LOGGED = """
CREATE OR REPLACE FUNCTION naworuke.changed_{number}() RETURNS trigger LANGUAGE plpgsql SECURITY DEFINER SET search_path = pg_catalog, pg_temp AS $$
DECLARE of bigint := current_setting('naworuke.version'); count bigint;
BEGIN
    IF TG_OP = 'INSERT' THEN
        INSERT INTO naworuke.change (version, place, before, after) SELECT of, {number}, NULL, {new} FROM new_rows n;
    ELSIF TG_OP = 'DELETE' THEN
        INSERT INTO naworuke.change (version, place, before, after) SELECT of, {number}, {old}, NULL FROM old_rows o;
    ELSIF TG_OP = 'UPDATE' THEN
        INSERT INTO naworuke.change (version, place, before, after)
            SELECT of, {number}, CASE WHEN o.{key} IS NOT NULL THEN {old} END, CASE WHEN n.{key} IS NOT NULL THEN {new} END
            FROM old_rows o FULL JOIN new_rows n ON {same_key} WHERE {differs};
    ELSIF current_setting('transaction_isolation') <> 'read committed' THEN
        RAISE 'TRUNCATE of a published table needs READ COMMITTED';
    ELSE
        EXECUTE format('INSERT INTO naworuke.change (version, place, before, after) SELECT $1, {number}, {quoted_old}, NULL FROM %s o',
                       TG_RELID::regclass) USING of;
    END IF;
    GET DIAGNOSTICS count = ROW_COUNT;
    UPDATE naworuke.version SET logged = logged + count WHERE version = of;
    RETURN NULL;
END $$;
"""
TRIGGERS = """
CREATE OR REPLACE TRIGGER naworuke_1 BEFORE INSERT OR UPDATE OR DELETE OR TRUNCATE ON {relation} EXECUTE FUNCTION naworuke.begin_version();
CREATE OR REPLACE TRIGGER naworuke_2 BEFORE TRUNCATE ON {relation} EXECUTE FUNCTION naworuke.changed_{number}();
CREATE OR REPLACE TRIGGER naworuke_3 AFTER INSERT ON {relation} REFERENCING NEW TABLE AS new_rows EXECUTE FUNCTION naworuke.changed_{number}();
CREATE OR REPLACE TRIGGER naworuke_4 AFTER DELETE ON {relation} REFERENCING OLD TABLE AS old_rows EXECUTE FUNCTION naworuke.changed_{number}();
CREATE OR REPLACE TRIGGER naworuke_5 AFTER UPDATE ON {relation} REFERENCING OLD TABLE AS old_rows NEW TABLE AS new_rows
    EXECUTE FUNCTION naworuke.changed_{number}();
"""
ALWAYS = 'ALTER TABLE {relation} ENABLE ALWAYS TRIGGER naworuke_%d;'


class Unpublishable(Exception):
    """A table cannot be served; the text says which, and why."""


def quoted(name: str) -> str:
    return '"%s"' % name


def cell(column: Column, row: str = '') -> str:
    """A column in SQL. Texts are compared by their bytes."""
    name = (row + '.' if row else '') + quoted(column.name)
    return name + ' COLLATE "C"' if column.is_text else name


def published(tables: list) -> str:
    """The tables as a text, by which two schema files are told apart."""
    return '\n'.join('%s (%s) %d' % (table.name, ', '.join('%s %s %d %d' % column for column in table.columns), table.key) for table in tables)


# ---- the tables

def relation_of(base: psycopg.Connection, table: Table) -> str:
    """The table's name in PostgreSQL. One that is not there is made."""
    found = base.execute("SELECT to_regclass(%s)::oid", [quoted(table.name)]).fetchone()[0]
    if found is None:
        columns = ['%s %s NOT NULL%s' % (quoted(c.name), 'text COLLATE "C"' if c.is_text else 'bigint', ' PRIMARY KEY' * (n == table.key))
                   for n, c in enumerate(table.columns)]
        base.execute('CREATE TABLE %s (%s)' % (quoted(table.name), ', '.join(columns)))
        found = base.execute("SELECT to_regclass(%s)::oid", [quoted(table.name)]).fetchone()[0]
    judge_relation(base, table, found)
    return base.execute("SELECT format('%%I.%%I', nspname, relname) FROM pg_class c JOIN pg_namespace n ON n.oid = relnamespace WHERE c.oid = %s",
                        [found]).fetchone()[0]


def judge_relation(base: psycopg.Connection, table: Table, relation: int) -> None:
    if base.execute('SELECT relkind FROM pg_class WHERE oid = %s', [relation]).fetchone()[0] not in ('r', 'p'):
        raise Unpublishable('%s is no table' % table.name)
    types = dict(base.execute("SELECT attname, format_type(atttypid, NULL) FROM pg_attribute WHERE attrelid = %s AND attnum > 0 AND NOT attisdropped",
                              [relation]).fetchall())
    for column in table.columns:
        if types.get(column.name) not in (TEXTS if column.is_text else NUMBERS):
            raise Unpublishable('%s.%s is %s' % (table.name, column.name, types.get(column.name, 'not there')))
    keys = base.execute("""SELECT 1 FROM pg_index JOIN pg_attribute ON attrelid = indrelid AND attnum = indkey[0]
        WHERE indrelid = %s AND indisunique AND indpred IS NULL AND indnkeyatts = 1 AND attname = %s""",
                        [relation, table.columns[table.key].name]).fetchall()
    if not keys:
        raise Unpublishable('%s.%s is no key: it has no unique index' % (table.name, table.columns[table.key].name))


def limit_of(column: Column) -> str:
    name = quoted(column.name)
    return 'octet_length(%s) <= %d' % (name, MOST_TEXT) if column.is_text else '%s BETWEEN %d AND %d' % (name, column.low, column.high)


def keep_limits(base: psycopg.Connection, table: Table, relation: str) -> None:
    """Judges the rows that are there, and has PostgreSQL judge all later ones."""
    for column in table.columns:
        name = quoted(column.name)
        bad = base.execute('SELECT %s FROM %s WHERE %s IS NULL OR NOT %s LIMIT 1' % (name, relation, name, limit_of(column))).fetchone()
        if bad:
            limit = 'longer than %d bytes' % MOST_TEXT if column.is_text else 'outside %d to %d' % (column.low, column.high)
            raise Unpublishable('%s.%s has the value %s, which is %s' % (
                table.name, column.name, 'NULL' if bad[0] is None else repr(bad[0]), 'none' if bad[0] is None else limit))
        base.execute('ALTER TABLE %s DROP CONSTRAINT IF EXISTS "naworuke_%s"' % (relation, column.name))
        base.execute('ALTER TABLE %s ADD CONSTRAINT "naworuke_%s" CHECK (%s IS NOT NULL AND %s)' % (relation, column.name, name, limit_of(column)))


def log_changes(base: psycopg.Connection, table: Table, number: int, relation: str) -> None:
    old, new = ['json_build_array(%s)' % ', '.join('%s.%s' % (row, quoted(column.name)) for column in table.columns) for row in 'on']
    differs = '(%s) IS DISTINCT FROM (%s)' % tuple(', '.join(cell(column, row) for column in table.columns) for row in 'on')
    same_key = '%s = %s' % tuple(cell(table.columns[table.key], row) for row in 'on')
    base.execute(LOGGED.format(number=number, key=quoted(table.columns[table.key].name), old=old, new=new, differs=differs, same_key=same_key,
                               quoted_old=old.replace('%', '%%')))
    for part in [relation] + partitions(base, relation):
        base.execute(TRIGGERS.format(number=number, relation=part))
        base.execute(''.join(ALWAYS % n for n in range(1, 6)).format(relation=part))


def partitions(base: psycopg.Connection, relation: str) -> list:
    """The partitions of a table, which can be written under their own names."""
    return [row[0] for row in base.execute("""SELECT format('%%I.%%I', nspname, relname) FROM pg_partition_tree(%s::regclass) p
        JOIN pg_class c ON c.oid = p.relid JOIN pg_namespace n ON n.oid = relnamespace WHERE p.level > 0""", [relation]).fetchall()]


def forget_triggers(base: psycopg.Connection) -> None:
    for name, relation in base.execute("""SELECT tgname, tgrelid::regclass::text FROM pg_trigger
            JOIN pg_proc p ON p.oid = tgfoid WHERE pronamespace = 'naworuke'::regnamespace""").fetchall():
        base.execute('DROP TRIGGER %s ON %s' % (quoted(name), relation))


# ---- the history

def begin_history(base: psycopg.Connection, identity: str, tables: list, first: Optional[int]) -> None:
    """The versions begin anew, above all that this database can have had: no clock's millionth of a second has two of them."""
    newest = base.execute('SELECT coalesce(max(version), -1) FROM naworuke.version').fetchone()[0]
    base_version = max(newest + 1, time.time_ns() // 1000 if first is None else first)
    base.execute('TRUNCATE naworuke.version, naworuke.change, naworuke.state')
    base.execute('INSERT INTO naworuke.state VALUES (true, %s, %s, %s)', [identity, published(tables), base_version])
    base.execute('INSERT INTO naworuke.version VALUES (%s)', [base_version])
    base.execute("SELECT setval('naworuke.versions', %s)", [base_version])


def publish(url: str, tables: list, is_anew: bool = False, first: Optional[int] = None) -> list:
    """Publishes the tables, where they are not yet, and gives their names in PostgreSQL. All of it is done or nothing."""
    with psycopg.connect(url) as base:
        if base.execute('SHOW server_encoding').fetchone()[0] != 'UTF8':
            raise Unpublishable('the encoding of the database is not UTF8')
        base.execute('SELECT pg_advisory_xact_lock(%s)', [LOCK])
        base.execute(KEPT)
        identity = base.execute(IDENTITY).fetchone()[0]
        state = base.execute('SELECT identity, tables FROM naworuke.state').fetchone()
        if state is not None and state[1] != published(tables) and not is_anew:
            raise Unpublishable('other tables are published; --anew publishes these')
        relations = [relation_of(base, table) for table in tables]
        if state is None or is_anew:
            forget_triggers(base)
            for number, (table, relation) in enumerate(zip(tables, relations)):
                keep_limits(base, table, relation)
                log_changes(base, table, number, relation)
        if is_anew or state is None or state[0] != identity:
            begin_history(base, identity, tables, first)
        return relations
