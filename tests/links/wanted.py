"""What the rules want of one client over links. The client is that of tests/oracle; here is what comes to it, and which frames it refuses."""

# it makes the modules of tests/oracle known
from model import SCHEMA

import compare
import frames
import messages
import reader
from frames import FROM_CLIENTS, Fault, Lapse, Notice, Rows, Short, read
from served import LOG, ROWS, statement
from world import Options, World

FAULTY, REFUSED = 5, 8


# ---- a run

class Dialling(World):
    """A run of `client`: behind each event it takes what comes until nothing is out. An error ends it."""

    def __init__(self, tables, limits):
        super().__init__(tables, Options(1, LOG, limits, False))
        self.client, self.is_faulty, self.error = self.clients[1], False, None
        self.client.is_cut, self.client.requests = True, -1
        self.server.sessions[1] = None

    def resume(self):
        self.client.resume()

    def lines_of(self, event, told=()):
        """The event, and then what comes."""
        self.trace.lines.clear()
        self.client.trace = self.trace
        if getattr(event, 'word', None) == 'resume':
            self.resume()
        else:
            event.happen(self)
        while self.client.out and not self.error:
            self.deliver()
        return list(self.trace.lines)

    def fail(self):
        """The link fails: the client is cut."""
        self.is_faulty = True
        self.cut(1)

    def ending(self):
        """The status, and the error output."""
        if self.error:
            return REFUSED, 'frame %s\n' % self.error
        return (FAULTY, 'link\n') if self.is_faulty else (0, '')


class Begins:
    """The resume before the first line."""

    word = 'resume'


def lines_of(world, events):
    """The lines of the numbered events, as far as no error ends the run."""
    lines = []
    for number, event in [(0, Begins())] + events:
        lines += [compare.numbered(number, line) for line in world.lines_of(event)]
        if world.error:
            break
    return lines


# ---- over a link to a server that keeps to the rules

class Linked(Dialling):
    """The server may give a connection up: of each it took so many requests, and so many of its frames came.

    `taken` are the requests that it took, each with the classes that the client held when it sent them.
    """

    def __init__(self, tables, limits, connections):
        super().__init__(tables, limits)
        self.connections, self.taken = list(connections), []

    def resume(self):
        super().resume()
        if self.client.out:
            self.left, self.coming = self.connections.pop(0) if self.connections else (0, 0)

    def deliver(self):
        if self.client.to_server and self.left:
            self.left -= 1
            request = self.client.to_server.popleft()
            self.taken.append((request, self.client.cache.classes()))
            self.client.to_client += self.server.take(1, request)
        elif self.client.to_client and self.coming:
            self.coming -= 1
            self.client.take(self.client.to_client.popleft())
        else:
            self.fail()


def linked(script, limits, connections):
    """The run of a script whose server began with the rows of served.py, and its lines."""
    texts = [SCHEMA.strip()] + ['exec ' + statement(row) for row in ROWS] + script
    tables, events = reader.read_script('\n'.join(texts).encode())
    world = Linked(tables, limits, [(len(connection.requests), connection.frames) for connection in connections])
    for _, event in events[:len(ROWS)]:
        world.lines_of(event)
    return world, lines_of(world, [(number - len(ROWS) - 1, event) for number, event in events[len(ROWS):]])


# ---- over a link to anybody

class Came:
    """The rows that came, at whatever version: a row has any value where no cell of it came."""

    def __init__(self, tables):
        self.tables, self.rows = tables, [{} for _ in tables]

    def __getitem__(self, version):
        return self.rows

    def put(self, table, columns, cells):
        definition, named = self.tables[table], dict(zip(columns, cells))
        row = tuple(named.get(c, column.values[0]) for c, column in enumerate(definition.columns))
        self.rows[table][row[definition.key]] = row


class Told(Dialling):
    """Of each connection these bytes came, from whomever. No row comes twice, as its cells would have to be joined then."""

    def __init__(self, tables, limits, streams):
        super().__init__(tables, limits)
        self.streams, self.stream, self.laid = list(streams), b'', []
        self.client.versions = Came(tables)

    def resume(self):
        super().resume()
        self.stream = self.streams.pop(0) if self.streams else b''

    def cut(self, n):
        self.laid = []
        super().cut(n)

    def deliver(self):
        try:
            message, size = read(self.stream)
        except Short:
            return self.fail()
        except Fault as fault:
            self.error = str(fault)
            return None
        self.stream = self.stream[size:]
        self.error = next(reasons(self.client, self.laid, message), None)
        return None if self.error else self.take(message)

    def take(self, message):
        """What is laid by is applied with the last message of the request."""
        if isinstance(message, (Notice, Lapse, Rows)):
            self.laid.append(message)
        else:
            for laid in self.laid:
                self.apply(laid)
            self.laid = []
        kind = getattr(messages, type(message).__name__)
        self.client.take(kind(*[getattr(message, field) for field in kind._fields]))

    def apply(self, laid):
        if isinstance(laid, Rows):
            part = self.client.out.parts[laid.part]
            for row in laid.rows:
                self.client.versions.put(part.table, columns_of(part), row)
        for tell in getattr(laid, 'tells', []):
            self.client.versions.rows[tell.table].pop(tell.key, None)
            if tell.after:
                self.client.versions.put(tell.table, range(len(tell.after)), tell.after)


def told(script, limits, streams):
    """The run of a script, and its lines."""
    tables, events = reader.read_script('\n'.join([SCHEMA.strip()] + script).encode())
    world = Told(tables, limits, streams)
    return world, lines_of(world, [(number - 1, event) for number, event in events])


# ---- which messages a client refuses

# of each message that answers a request, those that it answers
ANSWERED = {frames.Welcome: (messages.Hello, messages.Resume), frames.Rows: messages.Ask, frames.Reply: messages.Ask,
            frames.Written: messages.Write, frames.Refused: messages.Write}


def reasons(client, laid, message):
    """What stands against a message, in the order of docs/RULES.md; the first is the one that is named."""
    kind, known = type(message), max([client.version] + [before.version for before in laid if not isinstance(before, Rows)])
    if kind in FROM_CLIENTS:
        yield 'direction'
    if kind in ANSWERED and not isinstance(client.out, ANSWERED[kind]):
        yield 'state'
    if kind in ANSWERED and message.number != client.out.number:
        yield 'number'
    if kind in (frames.Reply, frames.Written, frames.Welcome) and message.version < known:
        yield 'version'
    if kind in (Notice, Lapse) and message.version <= known:
        yield 'version'
    if kind is Rows and not rows_suit(client.tables, client.out.parts, laid, message):
        yield 'shape'
    if kind is Notice and not tells_suit(client.tables, message.tells):
        yield 'shape'


def columns_of(part):
    return [c for c in range(12) if part.columns >> c & 1]


def bits(columns):
    return sum(1 << c for c in columns)


def takes(column, cell):
    return cell is not None and isinstance(cell, bytes) == column.is_text and column.fault(cell) is None


def ascend(keys):
    return all(one < two for one, two in zip(keys, keys[1:]))


def rows_suit(tables, parts, laid, message):
    """Whether rows are of a part that was asked, in its rects, and go on behind those that were laid by."""
    if message.part >= len(parts):
        return False
    part = parts[message.part]
    table, columns = tables[part.table], columns_of(part)
    asked = {tuple(point[c] for c in columns) for point in part.points}
    place = columns.index(table.key)
    before = [(m.part, row) for m in laid if isinstance(m, Rows) for row in m.rows][-1:]
    return (all(cells_suit([table.columns[c] for c in columns], asked, row) for row in message.rows)
            and all(of <= message.part for of, _ in before)
            and ascend([row[place] for of, row in before if of == message.part] + [row[place] for row in message.rows]))


def cells_suit(columns, asked, row):
    fit = len(row) == len(columns) and all(takes(column, cell) for column, cell in zip(columns, row))
    return fit and tuple(column.place(cell) for column, cell in zip(columns, row)) in asked


def tells_suit(tables, tells):
    return all(tell_suits(tables, tell) for tell in tells) and ascend([(tell.table, tell.key) for tell in tells])


def tell_suits(tables, tell):
    if tell.table >= len(tables):
        return False
    table, row = tables[tell.table], tell.after
    fits = row is None or len(row) == len(table.columns) and all(map(takes, table.columns, row)) and row[table.key] == tell.key
    return takes(table.columns[table.key], tell.key) and fits


# ---- what a client sends

def same_request(request, ours, classes, tables):
    """Whether a request on the wire is what the client sends, where it holds these classes."""
    kind = type(ours)
    if kind is messages.Hello:
        return request == frames.Hello(1, ours.number)
    if kind is messages.Write:
        return request == frames.Write(ours.number, ours.statement.text.encode())
    if kind is messages.Resume:
        holdings = [(table, columns, points) for (table, columns, _), points in classes.items()]
        return (type(request) is frames.Resume and request[:3] == (1, ours.number, ours.version) and request.wire == frames.WIRE
                and [(held.table, bits(held.columns), points_of(held.rects, tables[held.table])) for held in request.holdings] == holdings)
    asked = [(part.table, columns_of(part), part.points) for part in ours.parts]
    return (type(request) is frames.Ask and request[:2] == (ours.number, ours.fresh)
            and [(part.table, part.columns, points_of(part.rects, tables[part.table])) for part in request.parts] == asked)


def points_of(rects, table):
    """The points of some rects, or None where one begins or ends inside of what a value stands for."""
    inside = [[values_of(column, span) for column, span in zip(table.columns, rect)] for rect in rects]
    if any(None in values for values in inside):
        return None
    return {point for point in table.points if any(all(cell in values for cell, values in zip(point, each)) for each in inside)}


def values_of(column, span):
    low, high = span or (column.values[0], None)
    ends_last = high is None or high == column.highest
    first, last = compare.place_of(column, low), compare.place_of(column, None if ends_last else high if column.is_text else high + 1)
    return None if None in (first, last) else column.values[first:last]
