"""A connection: a client of the library, and its link to a server."""
import ctypes
import pathlib
import socket
import struct

from . import library as lib
from .cursor import Cursor
from .faults import (DatabaseError, DataError, Error, IntegrityError, InterfaceError, InternalError, NotSupportedError, OperationalError,
                     ProgrammingError, Warning, of_text)
from .sql import filled, tables_of

POLICIES = ('recency', 'distance')
PIECE = 65536
BAD = {lib.BAD_MESSAGE: 'the server sent a message that cannot be', lib.BAD_FRAME: 'the server sent what is no frame'}


def connect(address, schema, client=1, rows=10000, regions=64, policy='recency', timeout=None):
    """Opens a client and its link to the server at HOST:PORT. `schema` has the server's CREATE lines: a text, or the path of a file.

    `client` is the client's number, 1 to 64; `rows` and `regions` say how much it keeps, and `policy` what goes first, 'recency' or
    'distance'. After `timeout` seconds without a byte the link is taken for cut.
    """
    return Connection(address, schema, client, rows, regions, policy, timeout)


class Link:
    """A socket, and how many bytes and rows came over it."""

    def __init__(self, address, timeout):
        host, _, port = address.rpartition(':')
        self.socket = socket.create_connection((host.strip('[]'), int(port)), timeout)
        self.socket.setsockopt(socket.IPPROTO_TCP, socket.TCP_NODELAY, 1)

    def send(self, data):
        self.socket.sendall(data)

    def receive(self):
        data = self.socket.recv(PIECE)
        if not data:
            raise ConnectionError('the server hung up')
        return data

    def close(self):
        self.socket.close()


class Connection:
    """A client that keeps what it was answered, for use by one thread at a time."""

    Warning, Error, InterfaceError, DatabaseError = Warning, Error, InterfaceError, DatabaseError
    DataError, OperationalError, IntegrityError = DataError, OperationalError, IntegrityError
    InternalError, ProgrammingError, NotSupportedError = InternalError, ProgrammingError, NotSupportedError

    def __init__(self, address, schema, client, rows, regions, policy, timeout):
        if isinstance(schema, pathlib.PurePath):
            schema = pathlib.Path(schema).read_text(encoding='utf-8')
        if policy not in POLICIES:
            raise InterfaceError('policy is one of %s' % ', '.join(POLICIES))
        self.address, self.timeout = address, timeout
        self.told, self.handle, self.room = lib.Told(), None, ctypes.create_string_buffer(PIECE)
        self.calls = lib.load()
        self.link, self.is_wanted = None, True
        self.counts = dict.fromkeys(('queries', 'answered', 'asked', 'bytes', 'sent', 'writes', 'resumes'), 0)
        self._open(schema.encode('utf-8'), lib.Setting(client, rows, regions, POLICIES.index(policy)))
        self.tables = tables_of(schema)
        try:
            self.resume()
        except BaseException:
            self.close()
            raise

    # ---- calls of the library

    def _open(self, schema, setting):
        handle = lib.Handle()
        outcome = self.calls['open'](schema, len(schema), setting, handle, self.told)
        told = self.told
        if outcome == lib.OUT_OF_RANGE:
            raise InterfaceError('client, rows or regions is out of its range')
        if outcome == lib.BAD_LINE:
            raise ProgrammingError('schema: line %d %d' % (told.number, told.at))
        if outcome == lib.BAD_CREATE:
            raise ProgrammingError('schema: line %d: %s' % (told.number, of_text(told.why, told.at)))
        if outcome != lib.DONE:
            raise MemoryError()
        self.handle = handle

    def _call(self, name, *words):
        if self.handle is None:
            raise InterfaceError('the connection is closed')
        outcome = self.calls[name](self.handle, *words)
        if outcome == lib.NO_MEMORY:
            self._drop_link()
            raise MemoryError()
        if outcome == lib.WORN:
            raise OperationalError('the client has done all steps that it can')
        return outcome

    def _say(self, name, text):
        """A call with a text, and one that tells."""
        try:
            data = text.encode('utf-8')
        except UnicodeEncodeError as fault:
            raise DataError('no UTF-8: %s' % fault) from fault
        return self._call(name, data, len(data), self.told)

    def _bytes(self, name):
        """The bytes that a call copies out."""
        size = self._number(name, self.room, len(self.room))
        if size > len(self.room):
            self.room = ctypes.create_string_buffer(size)
            self._number(name, self.room, size)
        return ctypes.string_at(self.room, size)

    def _number(self, name, *words):
        if self.handle is None:
            raise InterfaceError('the connection is closed')
        return self.calls[name](self.handle, *words)

    # ---- the link

    def _settle(self):
        """Sends what a call left, and takes what comes until no request is out. Answers the last outcome."""
        outcome = self._send()
        while self.calls['waits'](self.handle):
            outcome = self._call('take', self.told)
            if outcome == lib.WANTING:
                data = self.link.receive()
                self.counts['bytes'] += len(data)
                self._call('feed', data, len(data))
            elif outcome == lib.SENT:
                self._send()
            elif outcome in BAD:
                why = self.told.why
                self._drop_link()
                raise InternalError('%s (%d)' % (BAD[outcome], why))
        return outcome

    def _send(self):
        data = self._bytes('sent')
        self.counts['sent'] += len(data)
        self.link.send(data)
        return lib.SENT

    def _drop_link(self):
        """The link is given up, and the client is told."""
        if self.link is not None:
            self.link.close()
            self.link = None
        return self._number('cut', self.told)

    def _dial(self):
        """A new link and its session; OperationalError where the server cannot be reached."""
        try:
            self.link = Link(self.address, self.timeout)
            self._call('resume', self.told)
            self._settle()
        except (OSError, ValueError) as fault:
            self._drop_link()
            raise OperationalError('no link to %s: %s' % (self.address, fault)) from fault
        self.counts['resumes'] += 1

    # ---- statements

    def _query(self, text):
        """Asks until there is an answer: over a new link where the last one is down, but for one that `cut` gave up."""
        self.counts['queries'] += 1
        for last in (False, True):
            outcome = self._say('query', text)
            if outcome == lib.DOWN and self.is_wanted:
                self._dial()
                outcome = self._say('query', text)
            if outcome == lib.ANSWERED:
                self.counts['answered'] += 1
                return
            if outcome == lib.SENT:
                self.counts['asked'] += 1
                try:
                    outcome = self._settle()
                except OSError as fault:
                    self._drop_link()
                    if last:
                        raise OperationalError('the link failed: %s' % fault) from fault
                    continue
            self._check(outcome, lib.ANSWERED)
            return

    def _write(self, text):
        """Sends a write. Where the link fails meanwhile, nobody knows whether it was done."""
        self.counts['writes'] += 1
        outcome = self._say('write', text)
        if outcome == lib.DOWN and self.is_wanted:
            self._dial()
            outcome = self._say('write', text)
        if outcome == lib.SENT:
            try:
                outcome = self._settle()
            except OSError as fault:
                self._drop_link()
                raise OperationalError('the link failed, and the write may be done: %s' % fault) from fault
        self._check(outcome, lib.WRITTEN)

    def _check(self, outcome, wanted):
        told = self.told
        if outcome in (lib.SQL, lib.REFUSED):
            raise of_text(told.why, told.at)
        if outcome == lib.DOWN:
            raise OperationalError('the link is down, and not all is held')
        if outcome != wanted:
            raise InternalError('outcome %d' % outcome)

    def _rows(self, outputs):
        """The rows of the last answer, of columns of these kinds."""
        count = self._number('rows')
        if count == 0:
            return []
        self._call('pack')
        data = self._bytes('text')
        form = struct.Struct('>I' + 'Bq' * len(outputs))
        # A NULL is shorter than a number.
        if not any(is_text for _, is_text in outputs) and len(data) == count * form.size:
            return [row[2::2] for row in form.iter_unpack(data)]
        return list(unpacked(data))

    # ---- Python's database interface

    def cursor(self):
        self._number('version')
        return Cursor(self)

    def commit(self):
        """Does nothing: the server does each write at once."""
        self._number('version')

    def rollback(self):
        raise NotSupportedError('a write cannot be taken back')

    def close(self):
        if self.handle is not None:
            if self.link is not None:
                self.link.close()
            handle, self.handle, self.link = self.handle, None, None
            self.calls['free'](handle)

    def __enter__(self):
        return self

    def __exit__(self, *fault):
        self.close()

    def __del__(self):
        if getattr(self, 'handle', None) is not None:
            self.close()

    # ---- the cache

    @property
    def version(self):
        """The version of the server's tables of which the held rows are."""
        return self._number('version')

    def held(self):
        """What is held: for each region its table, its columns, when it was last used, and how many rows it has."""
        region, regions = lib.Region(), []
        for number in range(self._number('regions')):
            self._number('region_at', number, region)
            name, columns = self.tables[region.table]
            held = tuple(column for bit, (column, _) in enumerate(columns) if region.columns >> bit & 1)
            regions.append((name, held, region.stamp, region.rows))
        return regions

    def explain(self, text, parameters=()):
        """How a query would be answered, as the lines of docs/EXPLAIN.md."""
        outcome = self._say('explain', filled(text, parameters))
        self._check(outcome, lib.EXPLAINED)
        return [line[2:] for line in self._bytes('text').decode('utf-8').splitlines()]

    def evict(self, number):
        """Drops the region of that number, counted from 0 as in `held`."""
        outcome = self._call('evict', number, self.told)
        if outcome == lib.NO_SUCH:
            raise ProgrammingError('there are %d regions' % self.told.number)
        self._check(outcome, lib.DROPPED)

    def cut(self):
        """Gives up the link until `resume`. What is held answers still."""
        self.is_wanted = False
        self._drop_link()

    def resume(self):
        """Dials, if the link is down. What is held is kept, as far as the server knows what changed since."""
        self.is_wanted = True
        if self.link is None:
            self._dial()

    def stats(self):
        """Counts: queries, those answered without asking, asks, bytes that came and were sent, writes, and sessions
        begun; and how many rows and regions are kept."""
        return dict(self.counts, kept=self._number('kept'), regions=self._number('regions'))


def unpacked(data):
    """Rows from their bytes."""
    at = 0
    while at < len(data):
        count, = struct.unpack_from('>I', data, at)
        at, row = at + 4, []
        for _ in range(count):
            if data[at] == 0:
                row.append(struct.unpack_from('>q', data, at + 1)[0])
                at += 9
            elif data[at] == 2:
                row.append(None)
                at += 1
            else:
                size, = struct.unpack_from('>I', data, at + 1)
                row.append(data[at + 5:at + 5 + size].decode('utf-8'))
                at += 5 + size
        yield tuple(row)
