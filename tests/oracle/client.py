"""A client: what it does at each event, and which lines tell of it."""
import collections
import copy

from cache import Cache, includes
from messages import Ask, AskPart, Hello, Lapse, Notice, Resume, Rows, Write, name_of

# where the load is above it, all classes may be dropped, before an ask or at an answer
MOST_PIECES = 16384
# the bytes of a text that a client sends
MOST_TEXT = 65536

Limits = collections.namedtuple('Limits', 'rows classes policy')


class Trace:
    """The lines of one event, as far as they are known, and all that a program has told of it.

    A line is a text; or, where rects stand behind it, the text, the number of their table, and their points.
    """

    def __init__(self, told):
        self.lines, self.told = [], told

    def say(self, line):
        self.lines.append(line)

    def next_told(self):
        """The line that the program has in the next place."""
        return self.told[len(self.lines)] if len(self.lines) < len(self.told) else ''


class Client:
    """A client of this number. Its answers are the rows of the server's versions."""

    def __init__(self, number, tables, limits, versions):
        self.number, self.tables, self.limits, self.versions = number, tables, limits, versions
        self.cache = Cache(tables)
        self.version, self.queries, self.requests, self.cuts = 0, 0, 0, 0
        self.is_cut = False
        self.out, self.laid = None, []  # the request that is out, and what was laid by since
        self.asked = None  # what the last answered query asked
        self.counted = []  # the queries whose tests count for the load
        self.to_server, self.to_client = collections.deque(), collections.deque()
        self.trace = Trace([])

    # ---- lines

    def say(self, word, what):
        self.trace.say('%s %d %s' % (word, self.number, what))

    def say_rects(self, text, table, points):
        self.trace.say((text, table, points))

    def drop(self, cause, cls):
        text = 'drop %d %s %s %d' % (self.number, cause, self.tables[cls[0]].called(cls[1]), cls[2])
        self.say_rects(text, cls[0], self.cache.drop(cls))

    def drop_all(self, cause):
        for cls in self.cache.classes():
            self.drop(cause, cls)

    # ---- queries

    def query(self, query):
        """Answers a query, asks for it, or says why not.

        A covered query is answered before anything else, and over a cut link no other changes anything. So a program that drops classes
        before one of these is wrong, however high the load is: what it tells is taken over only before a query that it asks.
        """
        if query.fault():
            return self.say('query', 'sql ' + query.fault())
        if self.out:
            return self.say('query', 'busy %d' % self.out.number)
        rests = self.rests(query)
        if not rests:
            self.number_query(query)
            self.answer(self.queries, query, [])
            return self.say('query', 'answered %d' % self.queries)
        if self.is_cut:
            return self.say('query', 'down %d' % self.cuts)
        if self.gives_up_before(query):
            self.drop_all('pieces')
            self.counted, rests = [], self.rests(query)
        self.number_query(query)
        self.ask(self.queries, query, rests)
        return self.say('query', 'asked %d' % self.out.number)

    def rests(self, query):
        """What has to be asked, for each part of which there is something."""
        rests = [(part, self.cache.rest(part)) for part in query.parts]
        return [self.asked_of(part, points) for part, points in rests if points]

    def asked_of(self, part, points):
        return AskPart(part.table, part.need | self.tables[part.table].essential(points), points)

    def number_query(self, query):
        self.queries += 1
        self.counted.append(query)

    def ask(self, number, query, parts):
        self.send(Ask(self.next_request(), self.cache.is_empty(), query, number, parts))
        self.say('ask', '%d %s %d' % (self.out.number, 'fresh' if self.out.fresh else 'more', len(parts)))
        for part in parts:
            self.say_rects('part ' + self.tables[part.table].called(part.columns), part.table, part.points)

    def next_request(self):
        self.requests += 1
        return self.requests

    def send(self, request):
        self.out = request
        self.to_server.append(request)

    # ---- answers

    def answer(self, number, query, arrived):
        """Answers a query at the client's version, and keeps what the limits allow of what is held and has arrived."""
        self.say_rows(number, query)
        self.asked = {part.table: part.points for part in query.parts}
        if self.gives_up_at(query, arrived):
            self.drop_all('pieces')
            self.counted = []
            return
        for part in query.parts:
            self.cache.touch(part, number)
        for part in arrived:
            self.say_rects('held %d %s' % (self.number, self.tables[part.table].called(part.columns)), part.table, part.points)
            self.cache.hold(part.table, part.columns, part.points, number)
        for cls in self.cache.absorbed():
            self.drop('absorbed', cls)
        self.meet_limits()

    def say_rows(self, number, query):
        rows = list(query.rows(self.versions[self.version]))
        self.say('answer', '%d %d %d' % (number, self.version, len(rows)))
        for row in rows:
            self.trace.say('row ' + row)

    def kept(self):
        return self.cache.kept(self.versions[self.version])

    def meet_limits(self):
        while self.kept() > self.limits.rows:
            self.drop('rows', self.cache.victim(self.limits.policy, self.asked))
        while len(self.cache.classes()) > self.limits.classes:
            self.drop('regions', self.cache.victim(self.limits.policy, self.asked))

    # ---- where the load is too high, all classes may be dropped: then what the program told is taken over

    def is_heavy(self, query):
        """Whether the load is too high before this query, with its own tests."""
        return self.cache.load(query, self.counted + [query], []) > MOST_PIECES

    def gives_up_before(self, query):
        return self.is_told('drop') and self.is_heavy(query)

    def gives_up_at(self, query, arrived):
        gives_up = self.is_told('drop') or bool(arrived) and not self.is_told('held')
        return gives_up and self.cache.load(query, self.counted, [(part.table, part.columns) for part in arrived]) > MOST_PIECES

    def is_told(self, word):
        told = self.trace.next_told()
        return told.startswith('drop %d pieces ' % self.number if word == 'drop' else '%s %d ' % (word, self.number))

    # ---- messages

    def take(self, message):
        """Lays a message by while a request is out whose last message it is not; else takes it."""
        if self.is_laid(message):
            self.laid.append(message)
            return self.say('toclient', 'laid')
        return getattr(self, 'take_' + name_of(message))(message)

    def is_laid(self, message):
        return self.out is not None and isinstance(message, (Notice, Lapse, Rows))

    def take_notice(self, notice):
        self.version = notice.version
        self.meet_limits()
        self.say('toclient', 'applied %d' % notice.version)

    def take_lapse(self, lapse):
        self.version = lapse.version
        self.drop_all('lapsed')
        self.say('toclient', 'forgot %d' % lapse.version)

    def take_reply(self, reply):
        ask, lapsed = self.out, self.has_lapsed()
        self.out, self.laid, self.version = None, [], reply.version
        if lapsed and not ask.fresh:
            self.drop_all('lapsed')
            self.ask_again(ask)
            return self.say('toclient', 'asked %d' % self.out.number)
        self.answer(ask.asked, ask.query, ask.parts)
        return self.say('toclient', 'answered')

    def ask_again(self, ask):
        self.ask(ask.asked, ask.query, self.rests(ask.query))

    def has_lapsed(self):
        return any(isinstance(message, Lapse) for message in self.laid)

    def take_written(self, written):
        self.settle(written.version)
        self.say('toclient', 'written %d %d' % (written.number, written.version))

    def take_refused(self, refused):
        self.settle(max([self.version] + [message.version for message in self.laid]))
        self.say('toclient', 'refused %d %s' % (refused.number, refused.fault))

    def take_welcome(self, welcome):
        """A Lapse that was laid by drops all first, so that nothing is left to drop where the session keeps nothing."""
        if not welcome.kept and not self.has_lapsed():
            self.drop_all('fresh')
        self.settle(welcome.version)
        self.say('toclient', 'welcome %d %s' % (welcome.version, 'kept' if welcome.kept else 'fresh'))

    def settle(self, version):
        """The request is done, and what was laid by is applied."""
        lapsed = self.has_lapsed()
        self.out, self.laid, self.version = None, [], version
        if lapsed:
            self.drop_all('lapsed')
        else:
            self.meet_limits()

    # ---- explanations

    def explain(self, query):
        """Says how the query would be answered, and changes nothing."""
        if query.fault():
            return self.say('explain', 'sql ' + query.fault())
        held = self.cache
        if self.would_give_up(query):
            self.trace.say('pieces')
            held = Cache(self.tables)
        for part in query.parts:
            self.explain_part(part, held)
        self.say_victims()
        return self.say('explain', self.version)

    def would_give_up(self, query):
        """Whether the program told so, where it may. docs/RULES.md let it say so of a covered query too; but it says so only where
        something is left to ask, and nothing else is taken over here."""
        is_told = self.trace.next_told() == 'pieces' and not self.cache.is_empty()
        return is_told and bool(self.rests(query)) and self.is_heavy(query)

    def explain_part(self, part, held):
        self.trace.say('need ' + self.tables[part.table].called(part.need))
        for (table, columns, stamp), points in held.classes().items():
            if table == part.table and includes(columns, part.need) and points & part.points:
                self.say_rects('probe %s %d' % (self.tables[table].called(columns), stamp), table, points & part.points)
        points = held.rest(part)
        if points:
            asked = self.asked_of(part, points)
            self.say_rects('rest ' + self.tables[asked.table].called(asked.columns), asked.table, asked.points)

    def say_victims(self):
        """All classes in the order in which they would be dropped, each with the number of its rows."""
        left, place = Cache(self.tables), 0
        left.held = copy.deepcopy(self.cache.held)
        while not left.is_empty():
            table, columns, stamp = cls = left.victim(self.limits.policy, self.asked)
            points, place = left.drop(cls), place + 1
            rows = sum(self.tables[table].place(row) in points for row in self.versions[self.version][table].values())
            self.trace.say('victim %d %s %d %d' % (place, self.tables[table].called(columns), stamp, rows))

    # ---- other events

    def evict(self, place):
        if self.out:
            return self.say('evict', 'busy %d' % self.out.number)
        classes = self.in_order()
        if place >= len(classes):
            return self.say('evict', 'none %d' % len(classes))
        self.drop('asked', classes[place])
        return self.say('evict', 'dropped')

    def in_order(self):
        return list(self.cache.classes())

    def write(self, statement):
        if len(statement.text) > MOST_TEXT:
            return self.say('write', 'sql long-text %d' % MOST_TEXT)
        if self.out:
            return self.say('write', 'busy %d' % self.out.number)
        if self.is_cut:
            return self.say('write', 'down %d' % self.cuts)
        self.send(Write(self.next_request(), statement))
        return self.say('write', 'sent %d' % self.out.number)

    def cut(self):
        if self.is_cut:
            return self.say('cut', 'already %d' % self.cuts)
        if self.out:
            self.say('fail', self.ended())
        self.out, self.laid, self.is_cut = None, [], True
        self.cuts += 1
        self.to_server.clear()
        self.to_client.clear()
        return self.say('cut', self.cuts)

    def ended(self):
        """What a cut ends: a query by its number, and others by that of their request."""
        if isinstance(self.out, Ask):
            return 'query %d' % self.out.asked
        return '%s %d' % ('write' if isinstance(self.out, Write) else 'resume', self.out.number)

    def resume(self):
        if not self.is_cut:
            return self.say('resume', 'up')
        self.is_cut, number = False, self.next_request()
        self.send(Hello(number) if self.cache.is_empty() else Resume(number, self.version, self.cache.entries()))
        return self.say('resume', 'sent %d' % number)
