"""Random scripts for several clients, whose messages are delivered in any order, or not at all."""
import collections

from client import Limits
from events import Asks, Evicts, Exec, Explains, Plain, Writes
from queries import BadQuery, joined_query, query_of
from scripts import GUESS, LABEL, MUCH_LOG, Maker, READING, SHELF, Script, TALLY
from statements import BadStatement, Delete, Insert
from world import Options, World

BAD_QUERIES = [('SELECT id FROM nowhere', 'unknown-table 15'), ('DELETE FROM reading', 'not-a-query 0'), ('SELECT id', 'grammar 9')]
BAD_STATEMENTS = [('DELETE FROM nowhere', 'unknown-table 12'), ('SELECT id FROM reading', 'not-a-write 0'),
                  ('DELETE reading', 'grammar 7')]
LONG_TEXTS = [('x' * 65536, 'bad-token 0'), ('x' * 65537, 'long-text 65536')]

# tables, each with the column of the one before it that equals its key
CHAINS = [[(READING, None), (SHELF, 2)], [(READING, None), (SHELF, 0), (LABEL, 1)], [(SHELF, None), (LABEL, 1)],
          [(LABEL, None), (TALLY, 1)], [(READING, None), (SHELF, 2), (LABEL, 1), (TALLY, 1)]]
NULL_CHAINS = [[(GUESS, None), (SHELF, 1)], [(GUESS, None), (SHELF, 1), (LABEL, 1)], [(SHELF, None), (LABEL, 1)]]

# how often an event of each kind comes
WEIGHTS = {'exec': 22, 'query': 26, 'explain': 5, 'push': 10, 'evict': 4, 'deliver': 34, 'settle': 6}
SESSION_WEIGHTS = {'write': 7, 'cut': 3, 'resume': 5}


class ManyMaker(Maker):
    """Makes scripts of a seed; with sessions they have writes, cuts and resumes too, with joins queries of several tables, and with nulls
    nullable columns.

    The rules are played along, so that deliveries mostly go where a message waits.
    """

    def __init__(self, seed, has_sessions=False, has_joins=False, has_nulls=False):
        super().__init__('many %d' % seed, has_nulls)
        self.weights = {**WEIGHTS, **SESSION_WEIGHTS} if has_sessions else WEIGHTS
        self.has_joins = has_joins
        self.world = None
        self.queries = collections.defaultdict(list)  # what each client asked

    def options(self):
        choose = self.random.choice
        limits = Limits(choose([10000, 10000, 0, 3, 6, 12]), choose([64, 64, 0, 1, 3, 6]), choose(['recency', 'distance']))
        log = choose([0, 1, 2, 3, 4, 5, 8, 20, MUCH_LOG, MUCH_LOG])
        return Options(choose([1, 2, 2, 3, 3, 4, 5, 8]), log, limits, self.random.random() < 0.2)

    def script(self):
        options = self.options()
        self.world = World(self.tables, options)
        events = []
        for _ in range(self.random.randint(30, 90 + 15 * options.clients)):
            events.append(self.event())
            self.world.lines_of(events[-1])
        return Script(options, events, self.has_nulls)

    def event(self):
        kind = self.random.choices(list(self.weights), list(self.weights.values()))[0]
        return getattr(self, 'make_' + kind)()

    # ---- events

    def client(self):
        return self.random.choice(list(self.world.clients))

    def make_exec(self):
        return Exec(self.statement())

    def make_write(self):
        """Often one that is refused."""
        kind = self.random.random()
        if kind < 0.3:
            return Writes(self.client(), BadStatement(*self.random.choice(BAD_STATEMENTS if kind > 0.01 else LONG_TEXTS)))
        return Writes(self.client(), self.statement())

    def make_query(self):
        return Asks(*self.client_and_query())

    def make_explain(self):
        return Explains(*self.client_and_query())

    def client_and_query(self):
        """Often a query of the client's own of before, so that something is covered."""
        if self.random.random() < 0.03:
            return self.client(), BadQuery(*self.random.choice(BAD_QUERIES))
        client = self.client()
        before = self.queries[client]
        if not before or self.random.random() < 0.6:
            before.append(self.new_query(self.number()))
            return client, before[-1]
        return client, self.random.choice(before)

    def make_evict(self):
        return Evicts(self.client(), self.random.choice([0, 0, 0, 1, 2, 5]))

    def make_deliver(self):
        waiting = [Plain(word, n) for n, client in self.world.clients.items()
                   for word, queue in (('toserver', client.to_server), ('toclient', client.to_client)) if queue]
        if self.random.random() < 0.07:
            return Plain(self.random.choice(['toserver', 'toclient']), self.client())
        return self.random.choice(waiting) if waiting else self.make_query()

    def make_push(self):
        """Often to a client that waits for something else."""
        waiting = [n for n, client in self.world.clients.items() if client.out]
        return Plain('push', self.random.choice(waiting) if waiting and self.random.random() < 0.4 else self.client())

    def make_settle(self):
        return Plain('settle', self.client())

    def make_cut(self):
        return Plain('cut', self.client())

    def make_resume(self):
        cut = [n for n, client in self.world.clients.items() if client.is_cut]
        if self.random.random() < 0.1:
            return Plain('resume', self.client())
        return Plain('resume', self.random.choice(cut)) if cut else self.make_exec()

    # ---- what they say

    def number(self):
        return self.random.choices([GUESS if self.has_nulls else READING, LABEL, SHELF, TALLY], [50, 25, 20, 4])[0]

    def statement(self):
        kind, number = self.random.random(), self.number()
        if kind < 0.03:
            return BadStatement(*self.random.choice(BAD_STATEMENTS))
        if number == TALLY and kind < 0.8:
            return self.long_insert()
        if kind < 0.45:
            return self.insert(number)
        return self.update(number) if kind < 0.88 else Delete(self.tables, number, self.condition(number))

    def long_insert(self):
        """So many rows that an ask for them takes several messages."""
        rows = len(self.world.server.versions[-1][TALLY])
        keys = range(rows, min(rows + self.random.choice([200, 256, 300]), 600))
        return Insert(self.tables, TALLY, [(key, self.random.randrange(2)) for key in keys] or [(600, 0)])

    def new_query(self, number):
        """Of the long table all rows are asked for, mostly."""
        if self.has_joins and self.random.random() < 0.5:
            return self.join()
        whole = number == TALLY and self.random.random() < 0.7
        return query_of(self.tables, TALLY, [0], None) if whole else self.query(number)

    def join(self):
        chain = self.random.choice(NULL_CHAINS if self.has_nulls else CHAINS)
        outputs = [(part, self.random.randrange(2)) for part in self.random.choices(range(len(chain)), k=self.random.randint(1, 3))]
        conditions = [self.condition(table, 1) if self.random.random() < 0.6 else None for table, _ in chain]
        return joined_query(self.tables, chain, conditions, outputs)
