"""Connections: each reads requests, has them carried out, and sends what the rules say. Any number stand side by side."""
import asyncio
import logging
import time
from typing import NamedTuple, Optional

from . import bind, frames, rules, sql
from .store import Down, News, Store, Undone

LOG = logging.getLogger('gateway')
# a reply is handed over in pieces of so many bytes, each of which the peer has so many seconds to take
PIECE, PATIENCE = 1 << 20, 30
# the log in the database is cut at most once in so many seconds
TRIM_EVERY = 1


class Cut(Exception):
    """The connection ends here; the text says why."""


class Connection:
    """A peer with its session, or none. It is busy while a request of its is carried out."""

    def __init__(self, reader: asyncio.StreamReader, writer: asyncio.StreamWriter, is_told: bool):
        self.reader, self.writer, self.is_told = reader, writer, is_told
        self.session: Optional[rules.Session] = None
        self.is_busy = False
        peer = writer.get_extra_info('peername') or ('?', 0)
        self.name = '%s:%d' % peer[:2]
        writer.transport.set_write_buffer_limits(high=PIECE)

    async def receive(self) -> Optional[NamedTuple]:
        """The next message; None where the peer said no more between two frames."""
        head = await self.reader.read(4)
        if not head:
            return None
        head += await self.reader.readexactly(4 - len(head))
        length = frames.length_of(head)
        kind = await self.reader.readexactly(1)
        frames.judge_kind(kind[0])
        return frames.message_of(head + kind + await self.reader.readexactly(length - 1))

    async def send(self, messages: list) -> None:
        """Hands messages over, as fast as the peer takes them."""
        for message in messages:
            self.writer.write(frames.frame(message))
            if self.waiting() >= PIECE:
                await asyncio.wait_for(self.writer.drain(), PATIENCE)

    def waiting(self) -> int:
        return self.writer.transport.get_write_buffer_size()

    def cut(self) -> None:
        self.writer.transport.abort()


class Gateway:
    """The sessions over one store."""

    def __init__(self, tables: list, store: Store, log_limit: int, most_waiting: int):
        self.tables, self.store, self.log_limit, self.most_waiting = tables, store, log_limit, most_waiting
        self.server: Optional[rules.Server] = None
        self.connections: set = set()
        self.trimmed, self.trim_from = 0, 0.0

    # ---- versions

    async def follow(self) -> None:
        """Takes the versions as they are made, and tells of them who is to be told, until the database is down."""
        async for _ in self.store.wakes():
            if self.server is None:
                await self.begin()
            self.take(await self.store.news(self.server.log.newest))
            if self.server.log.floor > self.trimmed and time.monotonic() > self.trim_from:
                self.trimmed, self.trim_from = self.server.log.floor, time.monotonic() + TRIM_EVERY
                await self.store.trim(self.trimmed)

    async def begin(self) -> None:
        """The log as the database has it."""
        news = await self.store.news(-1)
        newest, floor = news.versions[-1][0], news.floor
        log = rules.Log(self.log_limit, floor, floor)
        self.server, self.trimmed = rules.Server(self.tables, log), floor
        self.server.extend(news.versions)
        LOG.info('version %d', newest)

    def take(self, news: News) -> None:
        """Takes what is new, and tells of it."""
        server = self.server
        if news.floor > server.log.floor:
            server.log.lose(news.floor)
        for session in server.extend(news.versions):
            self.tell(session.owner)

    def tell(self, connection: Connection) -> None:
        """What is due is sent unasked where the peer waits for it, and not while a request is carried out."""
        session = connection.session
        if connection.is_told and not connection.is_busy and session and (session.pending or session.is_full):
            if connection.waiting() > self.most_waiting:
                LOG.info('%s does not take what it is told', connection.name)
                return connection.cut()
            try:
                for message in self.server.push(session):
                    connection.writer.write(frames.frame(message))
            except rules.Late:
                connection.cut()

    # ---- requests

    async def serve(self, reader: asyncio.StreamReader, writer: asyncio.StreamWriter, is_told: bool) -> None:
        """One connection, to its end."""
        connection = Connection(reader, writer, is_told)
        self.connections.add(connection)
        server = self.server
        try:
            while server is not None and server is self.server and await self.serve_one(connection):
                pass
        except (frames.Fault, Cut) as fault:
            LOG.info('%s: %s', connection.name, fault)
        except (rules.Late, Undone) as fault:
            LOG.warning('%s is cut: %s', connection.name, fault or 'too many versions were made meanwhile')
        except (OSError, asyncio.IncompleteReadError, asyncio.TimeoutError) as fault:
            LOG.debug('%s: %r', connection.name, fault)
        except Down as fault:
            LOG.debug('%s: database: %s', connection.name, fault)
        finally:
            self.connections.discard(connection)
            if connection.session is not None and server is not None:
                server.clear(connection.session)
            connection.session = None
            writer.close()

    async def serve_one(self, connection: Connection) -> bool:
        """The next request of a connection; whether there was one."""
        message = await connection.receive()
        if message is None:
            return False
        reason = rules.misfit(self.tables, connection.session, message)
        if reason:
            raise Cut('frame ' + reason)
        connection.is_busy = True
        await connection.send(await self.answer(connection, message))
        connection.is_busy = False
        self.tell(connection)
        return True

    async def answer(self, connection: Connection, message: NamedTuple) -> list:
        if isinstance(message, frames.Ask):
            return await self.answer_ask(connection.session, message)
        if isinstance(message, frames.Write):
            return await self.answer_write(connection.session, message)
        news = await self.store.news(self.server.log.newest)
        self.take(news)
        begin = self.server.resume if isinstance(message, frames.Resume) else self.server.hello
        session, sent = begin(message, self.server.log.newest)
        session.owner, connection.session = connection, session
        return sent

    async def answer_ask(self, session: rules.Session, ask: frames.Ask) -> list:
        asked = await self.store.ask(ask, self.server.log.newest)
        if sum(len(rows.spelled) for rows in asked.rows) > self.most_waiting:
            raise Cut('the rows of an ask have more than %d bytes' % self.most_waiting)
        self.take(asked.news)
        return self.server.ask(session, ask, asked.version) + asked.rows + [frames.Reply(ask.number, asked.version)]

    async def answer_write(self, session: rules.Session, write: frames.Write) -> list:
        try:
            bound = bind.bind(sql.read(write.sql), self.tables)
            news = await self.store.write(bound, self.server.log.newest)
        except sql.Refusal as refusal:
            return [frames.Refused(write.number, sql.WHY[refusal.word], refusal.at)]
        self.take(news)
        return self.server.written(session, write.number, news.versions[-1][0])

    def cut_all(self) -> None:
        """The database is down: no session can be kept to the rules."""
        self.server = None
        for connection in list(self.connections):
            connection.cut()
