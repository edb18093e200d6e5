"""Random sessions through the package, held against the rules of tests/oracle: queries of one and of several tables, writes, evictions, cuts
and resumes, with budgets and logs so small that much is dropped."""
import pathlib
import sys

sys.path.insert(0, str(pathlib.Path(__file__).resolve().parent.parent / 'oracle'))
import naworuke
from conditions import shown
from events import Asks, Evicts, Explains, Plain, Writes
from many import ManyMaker
from scripts import CREATES, TABLES
from serving import Serving
from world import Options, World

KINDS = ('push', 'deliver', 'settle')


class SessionMaker(ManyMaker):
    """Sessions of one client, whose messages are delivered at once. A statement of the server's own becomes a write of the client."""

    def __init__(self, seed):
        super().__init__(seed, True, True)
        self.weights = {kind: weight for kind, weight in self.weights.items() if kind not in KINDS}

    def options(self):
        options = super().options()
        return Options(1, options.log, options.limits, True)

    def make_exec(self):
        return Writes(1, self.statement())

    def make_cut(self):
        return Plain('cut', 1)


def wanted_of(lines):
    """What a package answers where these lines are told: the rows of an answer, a fault, that the link is down, or nothing."""
    told = [line if isinstance(line, str) else line[0] for line in lines]
    rows = [line[4:] for line in told if line.startswith('row ')]
    if any(line.startswith('answer ') for line in told):
        return rows
    for line in told:
        words = line.split()
        if words[2:3] == ['down']:
            return 'down'
        if words[2:3] in (['sql'], ['refused']):
            return ' '.join(words[-2:])
        if words[:1] == ['evict'] and words[2] == 'none':
            return 'none'
    return None


def cell(value):
    return shown(value.encode('utf-8') if isinstance(value, str) else value)


def got_of(connection, event):
    """What the package answers to an event."""
    try:
        if isinstance(event, Asks):
            return [', '.join(map(cell, row)) for row in connection.cursor().execute(event.query.text)]
        if isinstance(event, Explains):
            connection.explain(event.query.text)
        if isinstance(event, Writes):
            connection.cursor().execute(event.statement.text)
        if isinstance(event, Evicts):
            connection.evict(event.place)
        if isinstance(event, Plain):
            getattr(connection, event.word)()
    except naworuke.OperationalError:
        return 'down'
    except naworuke.DatabaseError as fault:
        return 'none' if isinstance(event, Evicts) else str(fault)
    return None


def held_of(client):
    """What a client of the rules holds, as the package tells it, without the numbers of rows."""
    return [(TABLES[table].name, tuple(c.name for bit, c in enumerate(TABLES[table].columns) if columns >> bit & 1), stamp)
            for table, columns, stamp in client.in_order()]


def is_played(event):
    """What goes by the word of a query goes to the client, and so what asks nothing: a write must begin otherwise."""
    return not isinstance(event, (Asks, Writes)) or text_of(event).startswith('SELECT') == isinstance(event, Asks)


def text_of(event):
    return event.query.text if isinstance(event, Asks) else event.statement.text


def fault_of(program, seed):
    """Where a session goes otherwise than the rules, or None."""
    script = SessionMaker(seed).script()
    limits, world = script.options.limits, World(TABLES, script.options)
    schema = '\n'.join(CREATES) + '\n'
    with Serving(program, schema, log=script.options.log) as server:
        connection = naworuke.connect(server.address, schema, rows=limits.rows, regions=limits.classes, policy=limits.policy)
        with connection:
            for event in filter(is_played, script.events):
                wanted = wanted_of(world.lines_of(event))
                got = got_of(connection, event)
                state = (connection.version, [region[:3] for region in connection.held()])
                if (got, state) != (wanted, (world.clients[1].version, held_of(world.clients[1]))):
                    return 'seed %d, %s:\ngot    %r %r\nwanted %r %r' % (
                        seed, event.line(), got, state, wanted, (world.clients[1].version, held_of(world.clients[1])))
    return None
