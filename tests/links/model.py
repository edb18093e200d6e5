"""A server of one table by docs/RULES.md, so small that each rule is a line or two."""
import pathlib
import re
import sys

sys.path.append(str(pathlib.Path(__file__).resolve().parent.parent / 'oracle'))

from forgotten import last_dropped
from frames import (ALL_COLUMNS, FROM_CLIENTS, Ask, Fault, Hello, Lapse, Notice, Part, Reply, Resume, Rows, Short, Tell, Welcome, Write, Written, read,
                    spelled)

ROWS_OF_A_FRAME = 256
UPDATE = re.compile(rb'UPDATE p SET age = (\d+) WHERE id = (\d+)')

# the table p: a number that is its key, a number, a text
SCHEMA = 'CREATE TABLE p (id INT PRIMARY KEY CHECK (id BETWEEN 0 AND 999), age INT CHECK (age BETWEEN 0 AND 150), name TEXT)\n'
DOMAINS = [(0, 999), (0, 150), None]
KEY = 0


def fits(rect):
    """Whether a rect is one of the table: a span for each column, of its kind and inside its domain."""
    return len(rect) == len(DOMAINS) and all(span is None or span_fits(span, domain) for span, domain in zip(rect, DOMAINS))


def span_fits(span, domain):
    lo, hi = span
    if domain is None:
        return isinstance(lo, bytes) and span != (b'', None)
    return isinstance(lo, int) and domain[0] <= lo and hi <= domain[1]


def has(rects, row):
    return any(all(in_span(span, cell) for span, cell in zip(rect, row)) for rect in rects)


def in_span(span, cell):
    if span is None:
        return True
    lo, hi = span
    return lo <= cell <= hi if isinstance(cell, int) else lo <= cell and (hi is None or cell < hi)


def constrained(rects):
    return {column for rect in rects for column, span in enumerate(rect) if span is not None}


def part_suits(part):
    """Whether the server can give an asked part, or keep a client's part of the second wire up to date."""
    return (part.table == 0 and KEY in part.columns and part.columns[-1] < len(DOMAINS) and all(map(fits, part.rects))
            and constrained(part.rects) <= set(part.columns))


def holding_suits(held, wire):
    return part_suits(held) if wire == 2 else held.table == 0 and all(map(fits, held.rects))


def touches(entry, before, after):
    """Whether a row of the entry comes, goes, or changes in the entry's columns."""
    was_inside, is_inside = (row is not None and has(entry.rects, row) for row in (before, after))
    return was_inside != is_inside or was_inside and any(old != new for c, (old, new) in enumerate(zip(before, after)) if c in entry.columns)


class Session:
    """The parts of the table that a client asked for, how it speaks, and the version that the messages to it have reached."""

    def __init__(self, entries, wire, upto):
        self.entries, self.wire, self.upto = entries, wire, upto

    def entry_of(self, part):
        """The first wire has no columns: each asked part stands for all."""
        return part if self.wire == 2 else part._replace(columns=ALL_COLUMNS)


class Model:
    """All versions of the rows by key, and the changes of each as keys with the rows before and after. The log keeps so many changes."""

    def __init__(self, rows, log):
        self.versions, self.changes, self.log = [{}], [[]], log
        for row in rows:
            self.change(row[KEY], row)

    @property
    def version(self):
        return len(self.versions) - 1

    def change(self, key, after):
        before = self.versions[-1].get(key)
        self.versions.append({**self.versions[-1], key: after})
        self.changes.append([(key, before, after)] if before != after else [])

    def write(self, sql):
        age, key = map(int, UPDATE.fullmatch(sql).groups())
        old = self.versions[-1].get(key)
        if old is None:
            self.versions.append(self.versions[-1])
            self.changes.append([])
        else:
            self.change(key, (key, age, old[2]))

    def floor(self):
        """The log has dropped the versions up to this one."""
        return last_dropped(self.changes, self.log)

    def notices(self, entries, above):
        told = [(version, [change for change in self.changes[version] if any(touches(entry, *change[1:]) for entry in entries)])
                for version in range(above + 1, self.version + 1)]
        return [Notice(version, [Tell(0, key, after) for key, _, after in changes]) for version, changes in told if changes]

    def due(self, session):
        if session.entries and session.upto < self.floor():
            session.entries = []
            return [Lapse(self.version)]
        return self.notices(session.entries, session.upto)

    def rows(self, number, place, part):
        rows = [tuple(row[column] for column in part.columns) for _, row in sorted(self.versions[-1].items()) if has(part.rects, row)]
        return [Rows(number, place, rows[first:first + ROWS_OF_A_FRAME]) for first in range(0, len(rows), ROWS_OF_A_FRAME)]

    # ---- one connection

    def misfit(self, session, message):
        """Why a message is refused, or None."""
        if not isinstance(message, FROM_CLIENTS):
            return 'direction'
        if isinstance(message, (Hello, Resume)) != (session is None):
            return 'state'
        if isinstance(message, Ask):
            return None if all(map(part_suits, message.parts)) else 'shape'
        if isinstance(message, Resume):
            return None if all(holding_suits(held, message.wire) for held in message.holdings) else 'shape'
        return None

    def begin(self, message):
        """The session that a greeting opens, and what is sent."""
        if isinstance(message, Hello) or message.version > self.version or message.version < self.floor():
            return Session([], message.wire, self.version), [Welcome(message.number, self.version, False)]
        session = Session([Part(*held) for held in message.holdings], message.wire, self.version)
        return session, self.notices(session.entries, message.version) + [Welcome(message.number, self.version, True)]

    def take(self, session, message):
        """The session behind a request, and what is sent."""
        if isinstance(message, (Hello, Resume)):
            return self.begin(message)
        if isinstance(message, Write):
            self.write(message.sql)
            sent = self.due(session) + [Written(message.number, self.version)]
        else:
            sent = [] if message.fresh else self.due(session)
            session.entries = ([] if message.fresh else session.entries) + [session.entry_of(part) for part in message.parts]
            for place, part in enumerate(message.parts):
                sent += self.rows(message.number, place, part)
            sent.append(Reply(message.number, self.version))
        session.upto = self.version
        return session, sent

    def serve(self, stream):
        """What is sent on a connection that brings these bytes, how it ends, and how many whole frames were read."""
        session, sent, frames = None, [], 0
        while stream:
            try:
                message, size = read(stream)
            except Short:
                return spelled(sent), 'torn', frames
            except Fault:
                return spelled(sent), 'bad', frames
            if self.misfit(session, message):
                return spelled(sent), 'bad', frames + 1
            session, more = self.take(session, message)
            sent, stream, frames = sent + more, stream[size:], frames + 1
        return spelled(sent), 'end', frames
