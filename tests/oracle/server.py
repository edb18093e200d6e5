"""The server: all versions, and a session for each client."""
from collections import namedtuple

from forgotten import last_dropped
from messages import Lapse, Notice, Refused, Reply, Rows, Welcome, Written, name_of

ROWS_OF_A_MESSAGE = 256


# points of a table, and columns of it as a number of bits
Entry = namedtuple('Entry', 'table columns points')


class Session:
    """What a client asked for, entry by entry, and the version that the messages to it have reached."""

    def __init__(self, subscription=(), upto=0):
        self.subscription, self.upto = list(subscription), upto


class Server:
    """All versions, the changes of each, and the open sessions by their clients. The log keeps so many changes."""

    def __init__(self, tables, log, clients):
        self.tables, self.log = tables, log
        self.versions = [[{} for _ in tables]]
        self.changes = [[]]
        self.sessions = {client: Session() for client in range(1, clients + 1)}

    @property
    def version(self):
        return len(self.versions) - 1

    # ---- versions

    def write(self, statement):
        """Makes the next version, or tells why the statement is refused."""
        table = statement.table
        before = self.versions[-1][table]
        rows = dict(before)
        fault = statement.carry_out(rows)
        if fault is None:
            keys = sorted(before.keys() | rows.keys())
            self.changes.append([(table, before.get(k), rows.get(k)) for k in keys if before.get(k) != rows.get(k)])
            self.versions.append([rows if t == table else others for t, others in enumerate(self.versions[-1])])
        return fault

    def floor(self):
        """The log has dropped the versions up to this one."""
        return last_dropped(self.changes, self.log)

    # ---- notices

    def touching(self, entries, version):
        """The changes of a version that touch some entry."""
        return [(table, before, after) for table, before, after in self.changes[version]
                if any(entry.table == table and self.touches_entry(entry, before, after) for entry in entries)]

    def touches_entry(self, entry, before, after):
        """Whether a row of the entry comes, goes, or changes in the entry's columns."""
        was_inside, is_inside = self.is_inside(entry, before), self.is_inside(entry, after)
        return was_inside != is_inside or was_inside and self.differ(entry, before, after)

    def is_inside(self, entry, row):
        return row is not None and self.tables[entry.table].place(row) in entry.points

    def differ(self, entry, before, after):
        return any(entry.columns >> c & 1 and old != new for c, (old, new) in enumerate(zip(before, after)))

    def notices(self, entries, version):
        return [Notice(v) for v in range(version + 1, self.version + 1) if self.touching(entries, v)]

    def is_lost(self, session):
        """The log has dropped a version of which the session would have to be told."""
        return bool(session.subscription) and session.upto < self.floor()

    def due(self, session):
        """What is sent before anything else."""
        if self.is_lost(session):
            return self.lapse(session)
        return self.notices(session.subscription, session.upto)

    def lapse(self, session):
        session.subscription = []
        return [Lapse(self.version)]

    def push(self, client):
        """What a push sends; a session that is closed sends None."""
        session = self.sessions[client]
        if session is None:
            return None
        sent = self.due(session)
        if session.upto < self.version and self.version not in [message.version for message in sent]:
            sent.append(Notice(self.version))
        session.upto = self.version
        return sent

    # ---- requests

    def take(self, client, message):
        """What is sent for a request."""
        return getattr(self, 'take_' + name_of(message))(client, message)

    def take_hello(self, client, hello):
        self.sessions[client] = Session((), self.version)
        return [Welcome(hello.number, self.version, False)]

    def take_resume(self, client, resume):
        if resume.version < self.floor():
            return self.take_hello(client, resume)
        self.sessions[client] = Session(resume.entries, self.version)
        return self.notices(resume.entries, resume.version) + [Welcome(resume.number, self.version, True)]

    def take_ask(self, client, ask):
        session = self.sessions[client]
        sent = self.begin(session) if ask.fresh else self.due(session)
        session.subscription += [Entry(part.table, part.columns, part.points) for part in ask.parts]
        session.upto = self.version
        rows = [message for part in ask.parts for message in self.rows(ask.number, part)]
        return sent + rows + [Reply(ask.number, self.version)]

    def begin(self, session):
        """A fresh ask begins the subscription anew, and nothing is due."""
        session.subscription = []
        return []

    def rows(self, number, part):
        table = self.tables[part.table]
        rows = sum(table.place(row) in part.points for row in self.versions[-1][part.table].values())
        return [Rows(number)] * -(-rows // ROWS_OF_A_MESSAGE)

    def take_write(self, client, write):
        session = self.sessions[client]
        fault = self.write(write.statement)
        if fault is not None:
            return [Refused(write.number, fault)]
        sent = self.due(session)
        session.upto = self.version
        return sent + [Written(write.number, self.version)]
