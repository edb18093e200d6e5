"""What a server sends, as docs/RULES.md says it: sessions, notices, lapses and the log. Nothing here reads or writes anything outside.

Versions are made elsewhere, and told in order. A request is answered as of a version that is told, mostly the newest; the rows of an ask
come from the same version, and stand between what `Server.ask` and `frames.Reply` send.
"""
from collections import defaultdict, deque
from typing import NamedTuple, Optional

from .frames import ALL_COLUMNS, WIRE, Ask, Hello, Lapse, Notice, Resume, Tell, Welcome, Write, Written
from .ranges import Index, has_any

MOST_TELLS = 10000
FROM_CLIENTS = (Hello, Resume, Ask, Write)
# so many versions back a request can still be answered as of its own
LATE = 1000


class Late(Exception):
    """So many versions were made while a request was carried out that it cannot be answered by the rules any more."""


class Change(NamedTuple):
    """A key whose row differs from the version before."""
    table: int
    key: object
    before: Optional[list]
    after: Optional[list]

    def columns(self) -> int:
        """The columns in which the rows differ, as a number of bits; all, where one of them is not there."""
        if self.before is None or self.after is None:
            return -1
        return sum(1 << c for c, (old, new) in enumerate(zip(self.before, self.after)) if old != new)


class Log:
    """The changes of the newest versions. After each version, while there are more than the limit, the oldest is dropped."""

    def __init__(self, limit: int, newest: int, floor: int):
        self.limit, self.newest, self.floor = limit, newest, floor
        self.versions, self.kept, self.count = deque(), deque(), 0
        self.floors = deque([(newest, floor)])

    def add(self, version: int, changes: Optional[list]) -> None:
        """One version more. None stands for more changes than any log keeps."""
        self.newest = version
        if changes is None:
            self.kept.clear()
            self.count, self.floor = 0, version
        elif changes:
            self.versions.append((version, changes))
            self.kept.append((version, len(changes)))
            self.count += len(changes)
        while self.count > self.limit:
            self.floor, gone = self.kept.popleft()
            self.count -= gone
        self.floors.append((version, self.floor))
        if len(self.floors) > LATE:
            self.floors.popleft()
        while self.versions and self.versions[0][0] <= self.floors[0][1]:
            self.versions.popleft()

    def lose(self, floor: int) -> None:
        """The database has dropped the versions up to this one, whatever the limit here is."""
        while self.kept and self.kept[0][0] <= floor:
            self.count -= self.kept.popleft()[1]
        self.floor = max(self.floor, floor)
        self.floors.append((self.newest, self.floor))

    def floor_at(self, version: int) -> int:
        """The versions up to this one were dropped when the given one was the newest."""
        for known, floor in reversed(self.floors):
            if known <= version:
                return floor
        raise Late

    def changes(self, above: int, upto: int) -> list:
        """The versions between, each with its changes."""
        return [(version, changes) for version, changes in self.versions if above < version <= upto]


class Session:
    """What a client asked for, the version that the messages to it have reached, and the changes above it that touch.

    What it asked for is rects by their table, each with its columns as a number of bits.
    """

    def __init__(self, upto: int, wire: int = WIRE, owner: object = None):
        self.owner, self.upto, self.wire = owner, upto, wire
        self.entries, self.pending, self.is_full = defaultdict(dict), [], False

    def entries_of(self, parts: list) -> dict:
        """What asked parts or holdings bring, by their tables. The first wire has no columns: a part stands for all."""
        found = defaultdict(dict)
        for part in parts:
            columns = bits(part.columns if self.wire == 2 else ALL_COLUMNS)
            found[part.table].update(dict.fromkeys((rect, columns) for rect in part.rects))
        return found


def bits(columns: list) -> int:
    return sum(1 << c for c in columns)


class Server:
    """The sessions of one gateway over the log. Which sessions a change touches is found by an index for each table."""

    def __init__(self, tables: list, log: Log):
        self.tables, self.log = tables, log
        self.indexes = [Index() for _ in tables]
        self.subscribed: set = set()

    def extend(self, versions: list) -> set:
        """Takes versions with their changes, those that are not known yet; the sessions that they touch."""
        touched = set()
        for version, changes in versions:
            if version > self.log.newest:
                self.log.add(version, changes)
                touched |= self.mark_all() if changes is None else self.mark_touched(version, changes)
        return touched

    def mark_all(self) -> set:
        """Whoever asked for something is lost."""
        for session in self.subscribed:
            session.pending, session.is_full = [], True
        return set(self.subscribed)

    def mark_touched(self, version: int, changes: list) -> set:
        touched = set()
        for change in changes:
            for session in self.touched(change):
                self.mark(session, version, change)
                touched.add(session)
        return touched

    def touched(self, change: Change) -> set:
        """A change touches what has one of its rows, and a column in which they differ. No rect constrains a column that is not asked
        for with it, so a row that comes or goes differs in one."""
        index, differing = self.indexes[change.table], change.columns()
        return {session for row in (change.before, change.after) if row is not None
                for session, columns in index.owners(row) if columns & differing}

    def mark(self, session: Session, version: int, change: Change) -> None:
        """Once more changes wait than the log keeps, the session is lost."""
        session.pending.append((version, change))
        if len(session.pending) > self.log.limit:
            session.pending.clear()
            session.is_full = True

    # ---- subscriptions

    def subscribe(self, session: Session, table: int, entries: dict, version: int) -> None:
        """From this version on; newer ones may be told already."""
        added = [entry for entry in entries if entry not in session.entries[table]]
        session.entries[table].update(dict.fromkeys(added))
        self.subscribed.add(session)
        for rect, columns in added:
            self.indexes[table].add(rect, (session, columns))
        if self.log.newest > version:
            marked = {(of, change.table, change.key) for of, change in session.pending}
            late = [(of, change) for of, change in self.told(table, added, version, self.log.newest) if (of, table, change.key) not in marked]
            session.pending = sorted(session.pending + late, key=place_in_notices)

    def clear(self, session: Session) -> None:
        for table, entries in session.entries.items():
            for rect, columns in entries:
                self.indexes[table].remove(rect, (session, columns))
        session.entries.clear()
        self.subscribed.discard(session)
        session.pending, session.is_full = [], False

    def told(self, table: int, entries: list, above: int, upto: int) -> list:
        """The changes between the versions that touch these entries."""
        return [(version, change) for version, changes in self.log.changes(above, upto) for change in changes
                if change.table == table and touches(entries, change)]

    # ---- what is sent

    def due(self, session: Session, version: int) -> list:
        """What is sent before anything else, as of the version; the session has then reached it."""
        sent = self.lapse(session, version) if self.is_lost(session, version) else self.notices(session, version)
        session.upto = version
        return sent

    def is_lost(self, session: Session, version: int) -> bool:
        is_lost = any(session.entries.values()) and session.upto < self.log.floor_at(version)
        if session.is_full and not is_lost:
            raise Late
        return is_lost

    def lapse(self, session: Session, version: int) -> list:
        self.clear(session)
        return [Lapse(version)]

    def notices(self, session: Session, version: int) -> list:
        due = [pair for pair in session.pending if pair[0] <= version]
        session.pending = session.pending[len(due):]
        return notices(due)

    def hello(self, hello, version: int) -> tuple:
        """A session, and what is sent."""
        return Session(version, hello.wire), [Welcome(hello.number, version, False)]

    def resume(self, resume: Resume, version: int) -> tuple:
        """A session, and what is sent: all is kept where the log reaches back to the client's version."""
        if not self.log.floor_at(version) <= resume.version <= version:
            return self.hello(resume, version)
        session, due = Session(version, resume.wire), []
        for table, entries in session.entries_of(resume.holdings).items():
            due += self.told(table, entries, resume.version, version)
            self.subscribe(session, table, entries, version)
        return session, notices(sorted(due, key=place_in_notices)) + [Welcome(resume.number, version, True)]

    def ask(self, session: Session, ask: Ask, version: int) -> list:
        """What is sent before the rows and the reply."""
        if ask.fresh:
            self.clear(session)
        sent = [] if ask.fresh else self.due(session, version)
        session.upto = version
        for table, entries in session.entries_of(ask.parts).items():
            self.subscribe(session, table, entries, version)
        return sent

    def written(self, session: Session, number: int, version: int) -> list:
        """What is sent for a write that made this version."""
        return self.due(session, version) + [Written(number, version)]

    def push(self, session: Session) -> list:
        """What is due; and behind it the newest version is named, if nothing else does."""
        before, version = session.upto, self.log.newest
        sent = self.due(session, version)
        named = [message.version for message in sent]
        return sent if version in named or before == version else sent + [Notice(version, [])]


def touches(entries: list, change: Change) -> bool:
    differing = change.columns()
    rects = [rect for rect, columns in entries if columns & differing]
    return any(row is not None and has_any(rects, row) for row in (change.before, change.after))


def place_in_notices(pair: tuple) -> tuple:
    version, change = pair
    return version, change.table, change.key


def notices(due: list) -> list:
    """A notice for each version of the changes, which stand by version, table and key."""
    tells = defaultdict(list)
    for version, change in due:
        tells[version].append(Tell(change.table, change.key, change.after))
    return [Notice(version, told) for version, told in tells.items()]


# ---- which messages a server refuses

def misfit(tables: list, session: Optional[Session], message: NamedTuple) -> str:
    """The first reason to refuse a message, or nothing."""
    if not isinstance(message, FROM_CLIENTS):
        return 'direction'
    if isinstance(message, (Hello, Resume)) != (session is None):
        return 'state'
    if isinstance(message, Ask) and not all(part_fits(tables, part) for part in message.parts):
        return 'shape'
    if isinstance(message, Resume) and not all(holding_fits(tables, held, message.wire) for held in message.holdings):
        return 'shape'
    return ''


def part_fits(tables: list, part) -> bool:
    """The table is there, the columns are some of it, its key too, and no other is constrained."""
    if not rects_fit(tables, part.table, part.rects):
        return False
    table = tables[part.table]
    constrained = {column for rect in part.rects for column, span in enumerate(rect) if span is not None}
    return table.key in part.columns and part.columns[-1] < len(table.columns) and constrained <= set(part.columns)


def holding_fits(tables: list, held, wire: int) -> bool:
    return part_fits(tables, held) if wire == 2 else rects_fit(tables, held.table, held.rects)


def rects_fit(tables: list, number: int, rects: list) -> bool:
    if number >= len(tables):
        return False
    columns = tables[number].columns
    return all(len(rect) == len(columns) and all(map(span_fits, columns, rect)) for rect in rects)


def span_fits(column, span) -> bool:
    if span is None:
        return True
    low, high = span
    if column.is_text:
        return isinstance(low, bytes) and span != (b'', None)
    return isinstance(low, int) and column.low <= low and high <= column.high
