"""Plays a server, and what its clients hold, beside the trace of a replay.

A trace tells what is asked and how many messages are sent, but neither the rows in them nor their bytes, and not which parts of a region
a query touched. The script and the files have the rows; so the server is played here by docs/RULES.md, from the statements that the trace
says were carried out. Each message is spelled as docs/FORMATS.md has its frame, by tests/links/frames.py, and its bytes are counted. Each
step is held against its line: how many rows an answer has, how many messages are sent, whether a client may do with each one what the
line says, which points are dropped, and which regions an explanation names, with how many rows. Texts are read by tests/oracle/reader.py.

One message may have other bytes than the program's: how a region is cut into rects is free, and no line tells it. So a Resume, which names
all that is held, is often shorter here, where neighbours are joined.
"""
import collections
import csv
import functools
import io
import pathlib
import re
import sys

TESTS = pathlib.Path(__file__).resolve().parent.parent / 'tests'
sys.path += [str(TESTS / 'oracle'), str(TESTS / 'links')]

from boxes import are_same, box_of, rects_of
from compare import SPAN, value_of
from counted import Fact
from frames import Ask, Hello, Lapse, NULL_SPAN, Notice, Part, Refused, Reply, Resume, Rows, Welcome, Write, Written, frame
from lines import CREATE, split
from played_client import Client
from played_server import Server
from reader import Reader, Unread, event_of

MUCH_LOG = 100000
RECT = re.compile(r"\{((?:[^'{}]|'[^']*')*)\}")
# what a client may do with each kind of message
TAKES = {Notice: ['laid', 'applied'], Rows: ['laid'], Lapse: ['laid', 'forgot'], Reply: ['answered', 'asked'], Written: ['written'],
         Refused: ['refused'], Welcome: ['welcome']}


class Differs(Exception):
    """A line of the trace that says something else than what happens here."""


class Play:
    """Goes through the lines of a trace, and keeps what they brought about. Script and files are bytes; a file stands
    behind the name of its table."""

    def __init__(self, script, files=(), log=MUCH_LOG):
        self.texts, self.tables = [line.decode() for line in split(script)], []
        for text in self.texts:
            if CREATE.match(text.encode()):
                self.tables.append(Reader(text, self.tables).create())
        self.server = Server(self.tables, log)
        for name, file in files:
            self.load(self.number_of(name), file.decode('utf-8-sig'))
        start = list(self.server.rows)
        self.clients = collections.defaultdict(lambda: Client(start))
        self.facts, self.levels = [], []  # levels are facts too, of what is held at the end of a line of the script
        self.line, self.part_of, self.carried, self.victims = 0, None, {}, []

    def load(self, table, text):
        header, *records = [record for record in csv.reader(io.StringIO(text, newline='')) if record]
        columns = self.tables[table].columns
        for record in records:
            cells = dict(zip(header, record))
            row = tuple(cells[column.name].encode() if column.is_text else int(cells[column.name]) for column in columns)
            self.server.rows[table][row[self.tables[table].key]] = row

    def number_of(self, name):
        return [table.name for table in self.tables].index(name)

    @functools.lru_cache(maxsize=None)
    def event(self, line):
        return event_of(self.texts[line - 1], self.tables)

    def tell(self, client, what, amount=1):
        self.facts.append(Fact(self.line, client, what, amount))

    def play(self, trace):
        """Reads all lines of a trace."""
        split_lines = [line.split(' ') for line in trace]
        for _, word, *rest in split_lines:
            if word == 'toclient' and rest[1] in ('written', 'refused'):
                self.carried[rest[0], int(rest[2])] = rest[1] == 'written'
        for number, word, *rest in split_lines:
            if int(number) != self.line:
                self.end_line()
            self.line = int(number)
            self.read(word, rest)
        self.end_line()
        return self

    def end_line(self):
        for client, held in self.clients.items():
            held.touch()
            rows, regions = held.kept()
            self.levels.append((self.line, client, rows, regions))

    def read(self, word, rest):
        read = getattr(self, 'read_' + word, None)
        try:
            fits = read is None or read(*rest) is not False
        except (LookupError, ValueError, Unread):
            fits = False
        if not fits:
            raise Differs(' '.join([str(self.line), word, *rest]))

    def points(self, table, words):
        """The boxes of the rects at the end of a line."""
        definition, boxes = self.tables[table], []
        for rect in RECT.findall(' '.join(words)):
            spans = {name: NULL_SPAN if null else (value_of(low), value_of(high) if high else None) for name, null, low, high in SPAN.findall(rect)}
            boxes.append(box_of([spans.get(column.name) for column in definition.columns], definition))
        return boxes

    def columns(self, table, text):
        names = [column.name for column in self.tables[table].columns]
        return [names.index(name) for name in text[1:-1].split(',')]

    # ---- statements and queries

    def read_exec(self, what, version, *_):
        if what == 'version':
            return self.server.write(self.event(self.line).statement) is None and self.server.version == int(version)
        return True

    def read_ask(self, client, number, mode, _):
        held = self.clients[client]
        self.part_of = Ask(int(number), mode == 'fresh', [])
        held.to_server.append(self.part_of)
        if held.asked is None:
            held.asked = self.event(self.line).query
        return self.part_of.fresh != bool(held.regions)

    def read_part(self, name, columns, *rects):
        table = self.number_of(name)
        boxes = [rect for box in self.points(table, rects) for rect in rects_of(box, self.tables[table])]
        self.part_of.parts.append(Part(table, self.columns(table, columns), boxes))

    def read_answer(self, client, number, version, rows):
        held = self.clients[client]
        held.touch()
        held.advance(int(version), self.server.changes)
        held.touching, held.asked, held.stamp = held.asked or self.event(self.line).query, None, int(number)
        return sum(1 for _ in held.touching.rows(held.rows)) == int(rows)

    def read_held(self, client, name, columns, *rects):
        held, table = self.clients[client], self.number_of(name)
        held.touch()
        held.hold(table, bits(self.columns(table, columns)), self.points(table, rects))

    def read_drop(self, client, cause, name, columns, stamp, *rects):
        held, table = self.clients[client], self.number_of(name)
        if cause == 'pieces':
            held.touching = None  # what is dropped so at an answer is named as it stood before
        held.touch()
        region = held.regions.pop((table, bits(self.columns(table, columns)), int(stamp)))
        return are_same(region.boxes, self.points(table, rects))

    def read_victim(self, _, name, columns, stamp, rows):
        table = self.number_of(name)
        self.victims.append((table, bits(self.columns(table, columns)), int(stamp), int(rows)))

    def read_explain(self, client, *_):
        """The victims of an explanation are all regions, each with its rows."""
        held, victims, self.victims = self.clients[client], sorted(self.victims), []
        held.touch()
        return not victims or victims == sorted((*place, len(region.keys)) for place, region in held.regions.items())

    # ---- messages

    def read_toserver(self, client, what, sent=None):
        held = self.clients[client]
        if what == 'empty':
            return not held.to_server
        request = held.to_server.popleft()
        self.tell(client, 'bytes that went', len(frame(request)))
        if isinstance(request, Write) and not self.is_carried_out(client, request):
            return self.send(client, [Refused(request.number, 1, 0)], sent)
        return type(request).__name__.lower() == what and self.send(client, self.server.take(client, request), sent)

    def is_carried_out(self, client, request):
        """Carries a client's statement out. Where a cut took what the server said of it, the text decides."""
        if not self.carried.get((client, request.number), True):
            return False
        try:
            return self.server.write(Reader(request.sql.decode(), self.tables).statement()) is None
        except Unread:
            return False

    def read_push(self, client, what, sent=None):
        if what == 'closed':
            return self.server.sessions[client] is None
        return self.send(client, self.server.push(client), sent)

    def send(self, client, messages, told):
        self.clients[client].to_client += messages
        return len(messages) == int(told)

    def read_toclient(self, client, what, *rest):
        held = self.clients[client]
        if what == 'empty':
            return not held.to_client
        message = held.to_client.popleft()
        self.tell(client, 'messages that came')
        self.tell(client, 'bytes that came', len(frame(message)))
        if isinstance(message, Rows):
            self.tell(client, 'rows that came', len(message.rows))
        if isinstance(message, Notice):
            self.tell(client, 'changes that came', len(message.tells))
        if what == 'laid':
            held.heard = getattr(message, 'version', held.heard)
        elif what != 'asked':
            held.advance(getattr(message, 'version', held.heard), self.server.changes)
        return what in TAKES[type(message)]

    # ---- sessions

    def read_write(self, client, what, number, *_):
        if what == 'sent':
            sql = self.texts[self.line - 1].split(' ', 2)[2]
            self.clients[client].to_server.append(Write(int(number), sql.encode()))

    def read_cut(self, client, what, *_):
        if what != 'already':
            held = self.clients[client]
            held.asked, self.server.sessions[client] = None, None
            held.to_server.clear()
            held.to_client.clear()

    def read_resume(self, client, what, number=None):
        held = self.clients[client]
        if what == 'sent':
            holdings = held.holdings(self.tables)
            held.to_server.append(Resume(int(client), int(number), held.version, holdings) if holdings else Hello(int(client), int(number)))


def bits(columns):
    return sum(1 << c for c in columns)
