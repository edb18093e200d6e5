"""Random sessions of several clients and psql side by side, judged message by message and line by line by the rules of tests/oracle."""
import random

from links import Broken, Program, Psql
from postgres import Gateway

import compare
import frames
import messages
import scripts
import wanted
from client import Limits
from events import Asks, Evicts, Explains, Plain, Writes
from many import BAD_QUERIES, BAD_STATEMENTS, ManyMaker
from queries import BadQuery
from server import Server
from statements import BadStatement, Delete
from world import Options, World

TABLES, SCHEMA = scripts.TABLES, ''.join(line + '\n' for line in scripts.CREATES)
MOST_LOG = 10000


class Telling(Server):
    """It knows what its notices have to tell, too."""

    told: dict = {}

    def notices(self, entries, version):
        sent = super().notices(entries, version)
        for notice in sent:
            self.told[notice.version] = [frames.Tell(table, (before if after is None else after)[self.tables[table].key], after)
                                         for table, before, after in self.touching(entries, notice.version)]
        return sent

    def transact(self, statements):
        """One version of several statements."""
        tables = [dict(rows) for rows in self.versions[-1]]
        for statement in statements:
            statement.carry_out(tables[statement.table])
        changes = []
        for table, (before, after) in enumerate(zip(self.versions[-1], tables)):
            changes += [(table, before.get(k), after.get(k)) for k in sorted(before.keys() | after.keys()) if before.get(k) != after.get(k)]
        self.changes.append(changes)
        self.versions.append(tables)


class Rekey:
    """Another key for a row, as programs may set it that are no clients."""

    def __init__(self, number, old, new):
        self.table, self.old, self.new = number, old, new

    @property
    def text(self):
        name, key = TABLES[self.table].name, TABLES[self.table].columns[TABLES[self.table].key].name
        return 'UPDATE %s SET %s = %d WHERE %s = %d' % (name, key, self.new, key, self.old)

    def carry_out(self, rows):
        row, key = rows.pop(self.old), TABLES[self.table].key
        rows[self.new] = row[:key] + (self.new,) + row[key + 1:]


class Truncate(Delete):
    """All rows go."""

    def __init__(self, number):
        super().__init__(TABLES, number, None)

    @property
    def text(self):
        return 'TRUNCATE %s' % self.definition.name


class Session(World):
    """Clients over links, none of which is open yet."""

    def __init__(self, options):
        super().__init__(TABLES, options, Telling)
        for number, client in self.clients.items():
            client.is_cut, client.requests = True, -1
            self.server.sessions[number] = None


class Maker(ManyMaker):
    """Makes the scripts of clients, and what psql does."""

    def __init__(self, seed, clients):
        super().__init__(seed, has_sessions=True, has_joins=True)
        self.random = random.Random('gateway %d' % seed)
        choose = self.random.choice
        self.chosen = Options(clients, choose([0, 1, 2, 3, 5, 8, 20, MOST_LOG, MOST_LOG]),
                              Limits(choose([10000, 10000, 0, 3, 6, 12]), choose([64, 64, 0, 1, 3, 6]), choose(['recency', 'distance'])), False)
        self.world = Session(self.chosen)

    def event_of(self, client):
        kind = self.random.random()
        if kind < 0.55:
            return Asks(client, self.query_of(client))
        if kind < 0.62:
            return Explains(client, self.query_of(client))
        if kind < 0.65:
            return Asks(client, BadQuery(*self.random.choice(BAD_QUERIES)))
        if kind < 0.80:
            return Writes(client, self.statement() if self.random.random() < 0.8 else BadStatement(*self.random.choice(BAD_STATEMENTS)))
        if kind < 0.84:
            return Evicts(client, self.random.choice([0, 0, 1, 2]))
        return Plain('cut' if kind < 0.88 else 'resume', client)

    def query_of(self, client):
        before = self.queries[client]
        if not before or self.random.random() < 0.6:
            before.append(self.new_query(self.number()))
            return before[-1]
        return self.random.choice(before)

    def transaction(self):
        """Statements of another program that PostgreSQL carries out: of one version, with a fault in none."""
        tables, found = [dict(rows) for rows in self.world.server.versions[-1]], []
        for _ in range(self.random.choice([1, 1, 1, 2, 3])):
            statement = self.other_statement(tables)
            rows = dict(tables[statement.table])
            if not isinstance(statement, BadStatement) and statement.carry_out(rows) is None:
                tables[statement.table] = rows
                found.append(statement)
        return found

    def other_statement(self, tables):
        number, kind = self.number(), self.random.random()
        free = [key for key in TABLES[number].columns[TABLES[number].key].values if key not in tables[number]]
        if kind < 0.15 and tables[number] and free:
            return Rekey(number, self.random.choice(list(tables[number])), self.random.choice(free))
        return Truncate(number) if kind < 0.2 else self.statement()


class Judge:
    """Plays a session of a seed on the gateway, and beside it on the rules."""

    def __init__(self, program, cluster, seed, clients, events):
        self.maker = Maker(seed, clients)
        self.world, self.chance = self.maker.world, random.Random('order %d' % seed)
        self.events = {n: [self.maker.event_of(n) for _ in range(events)] for n in self.world.clients}
        self.lines = {n: [] for n in self.world.clients}
        self.at = {n: 0 for n in self.world.clients}  # the line that comes next; 0 is the first resume
        self.base = 's%d' % seed
        cluster.psql('CREATE DATABASE %s' % self.base)
        self.gateway = Gateway(cluster, SCHEMA, self.base, ['--first', '0', '--log', str(self.maker.chosen.log), '--verbose'])
        self.psql = Psql(cluster.url(self.base))
        limits = self.maker.chosen.limits
        options = ['--rows', str(limits.rows), '--regions', str(limits.classes), '--policy', limits.policy]
        self.programs = {}
        for n, those in self.events.items():
            script = cluster.folder / ('%s.%d' % (self.base, n))
            script.write_text(''.join(event.line() + '\n' for event in those))
            self.programs[n] = Program(program, n, self.gateway.schema, script, options, self.gateway.address)

    def play(self):
        """What is wrong, or None."""
        try:
            while self.step():
                pass
            fault = next(filter(None, map(self.ending_fault, self.events)), None)
        except (Broken, OSError, AssertionError) as broken:
            fault = 'clients at lines %s: %r' % (self.at, broken)
        said = self.close()
        return fault and '%s; the gateway said: %s' % (fault, said)

    def close(self):
        """Ends all; what the gateway said."""
        for program in self.programs.values():
            program.process.kill()
            program.ending()
        self.psql.close()
        return self.gateway.kill()[1]

    def step(self):
        """Something happens; whether anything was left to do."""
        left = [n for n in self.events if self.at[n] <= len(self.events[n])]
        if left and self.chance.random() < 0.35:
            self.write_beside()
        elif left:
            self.go_on(self.chance.choice(left))
        return bool(left)

    def write_beside(self):
        statements = self.maker.transaction()
        if statements:
            texts = [statement.text for statement in statements]
            said = self.psql.do(texts[0] if len(texts) == 1 else 'BEGIN; %s; COMMIT' % '; '.join(texts))
            assert not said, said
            self.world.server.transact(statements)

    def go_on(self, n):
        """A client's next line; or the request that it has out is taken, in one step with its answers."""
        client, program = self.world.clients[n], self.programs[n]
        self.world.trace.lines.clear()
        client.trace = self.world.trace
        number = self.at[n]
        if client.out is None:
            self.begin_line(n, client, program)
        else:
            self.deliver(n, client, program)
        self.lines[n] += [compare.numbered(number, line) for line in self.world.trace.lines]
        self.at[n] += client.out is None

    def begin_line(self, n, client, program):
        was_cut = client.is_cut
        event = self.events[n][self.at[n] - 1] if self.at[n] else Plain('resume', n)
        event.happen(self.world)
        if client.is_cut and not was_cut:
            program.hang_up()
        if was_cut and not client.is_cut:
            program.dial()

    def deliver(self, n, client, program):
        ours = client.to_server.popleft()
        classes = client.cache.classes()
        theirs = program.request()
        if isinstance(ours, (messages.Hello, messages.Resume)):
            theirs = theirs._replace(client=1)
        assert wanted.same_request(theirs, ours, classes, TABLES), (theirs, ours)
        self.world.server.told = {}
        for want in self.world.server.take(n, ours):
            got = program.answer()
            assert self.says(got, want), (got, want, self.world.server.told)
            client.take(want)

    def says(self, got, want):
        """Whether a message of the gateway is the one that the rules want. What rows are in it is told by the client's answers."""
        if type(got).__name__ != type(want).__name__:
            return False
        if isinstance(want, messages.Refused):
            return (got.number, WORDS[got.why], got.place) == (want.number, want.fault.split()[0], int(want.fault.split()[1]))
        if isinstance(want, messages.Notice):
            return got == frames.Notice(want.version, self.world.server.told[want.version])
        return all(getattr(got, field) == getattr(want, field) for field in want._fields)

    def ending_fault(self, n):
        status, error, lines = self.programs[n].ending()
        if (status, error) != (0, ''):
            return 'client %d ended with %s, %r' % (n, status, error)
        fault = compare.difference(lines, self.lines[n], TABLES)
        return fault and 'client %d: %s' % (n, fault)


# the words of the faults on the wire
WORDS = dict(enumerate('long-text bad-token grammar deep unknown-table unknown-column ambiguous wrong-type out-of-domain not-key-join repeated '
                       'wrong-count mixed too-wide too-many-tables not-a-write not-a-query duplicate-key domain-cell long-cell key-change '
                       'table-full too-many-changes duplicate-name too-many-columns no-key bad-domain bad-header bad-record bad-number bad-utf8 bad-null '
                       'null-cell'.split(), 1))


def results(program, cluster, seeds, clients=8, events=30):
    """A name and what was wrong, for each seed."""
    for seed in seeds:
        count = random.Random(seed).choice([1, 2, 3, clients])
        yield 'session %d of %d clients' % (seed, count), Judge(program, cluster, seed, count, events).play()
