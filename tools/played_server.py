"""A server by docs/RULES.md, as far as the messages that it sends."""
import collections
import pathlib
import sys

TESTS = pathlib.Path(__file__).resolve().parent.parent / 'tests'
sys.path += [str(TESTS / 'oracle'), str(TESTS / 'links')]

from boxes import box_of, has, joined, spelled, without
from forgotten import last_dropped
from frames import Hello, Lapse, Notice, Reply, Resume, Rows, Tell, Welcome, Write, Written

ROWS_OF_A_FRAME = 256


class Session:
    """The boxes that a client asked for, by their table and columns, and the version that the messages to it have reached."""

    def __init__(self, upto=0):
        self.boxes, self.upto = collections.defaultdict(list), upto

    def subscribe(self, part, boxes):
        place = part.table, tuple(part.columns)
        self.boxes[place] = joined(self.boxes[place] + without(boxes, self.boxes[place]))

    def is_touched(self, table, before, after):
        """Whether a row of what was asked for comes, goes, or changes in the columns that were asked for with it."""
        return any(of == table and (None in (before, after) or any(before[c] != after[c] for c in columns))
                   and any(row is not None and has(boxes, row) for row in (before, after)) for (of, columns), boxes in self.boxes.items())


class Server:
    """The newest rows of each table by their keys, the changes of each version, and a session for each client, or None."""

    def __init__(self, tables, log):
        self.tables, self.log = tables, log
        self.rows = [{} for _ in tables]
        self.changes = [[]]  # each is a table, a key, and its rows before and after
        self.sessions = collections.defaultdict(Session)

    @property
    def version(self):
        return len(self.changes) - 1

    def write(self, statement):
        """Makes the next version; or tells the fault, and changes nothing."""
        before, rows = self.rows[statement.table], dict(self.rows[statement.table])
        fault = statement.carry_out(rows)
        if fault is None:
            keys = [key for key in sorted(before.keys() | rows.keys()) if before.get(key) != rows.get(key)]
            self.changes.append([(statement.table, key, before.get(key), rows.get(key)) for key in keys])
            self.rows[statement.table] = rows
        return fault

    def told(self, session, version):
        return [Tell(table, key, spelled(after)) for table, key, before, after in self.changes[version] if session.is_touched(table, before, after)]

    def notices(self, session):
        told = [(version, self.told(session, version)) for version in range(session.upto + 1, self.version + 1)]
        return [Notice(version, tells) for version, tells in told if tells]

    def due(self, session):
        """What is sent before anything else."""
        if any(session.boxes.values()) and session.upto < self.version and session.upto < last_dropped(self.changes, self.log):
            session.boxes.clear()
            sent = [Lapse(self.version)]
        else:
            sent = self.notices(session)
        session.upto = self.version
        return sent

    def push(self, client):
        session = self.sessions[client]
        is_behind = session.upto < self.version
        sent = self.due(session)
        return sent + [Notice(self.version, [])] * (is_behind and self.version not in [message.version for message in sent])

    def take(self, client, request):
        """What is sent for a request. A refused write is None here."""
        if isinstance(request, (Hello, Resume)):
            return self.begin(client, request)
        session = self.sessions[client]
        if isinstance(request, Write):
            return self.due(session) + [Written(request.number, self.version)]
        if request.fresh:
            self.sessions[client] = session = Session(self.version)
        sent = self.due(session)
        for place, part in enumerate(request.parts):
            boxes = [box_of(rect, self.tables[part.table]) for rect in part.rects]
            session.subscribe(part, boxes)
            sent += self.rows_of(request.number, place, part, boxes)
        return sent + [Reply(request.number, self.version)]

    def begin(self, client, request):
        """Opens a session."""
        self.sessions[client] = session = Session(self.version)
        if isinstance(request, Hello) or request.version < last_dropped(self.changes, self.log):
            return [Welcome(request.number, self.version, False)]
        for held in request.holdings:
            session.subscribe(held, [box_of(rect, self.tables[held.table]) for rect in held.rects])
        session.upto = request.version
        return self.due(session) + [Welcome(request.number, self.version, True)]

    def rows_of(self, number, place, part, boxes):
        rows = [spelled(row[c] for c in part.columns) for row in self.rows[part.table].values() if has(boxes, row)]
        return [Rows(number, place, rows[first:first + ROWS_OF_A_FRAME]) for first in range(0, len(rows), ROWS_OF_A_FRAME)]
