"""Wrong rules, one changed each: what a program may take for right. The random scripts must tell each of them from the rules."""
import copy

from client import Client
from conditions import Both, Not
from messages import Hello, Lapse, Notice, Welcome
from server import Server
from world import World


# ---- of the server

class LapseKeepsSubscription(Server):
    """A Lapse keeps the subscription."""

    def lapse(self, session):
        return [Lapse(self.version)]


class LeavesOutNewest(Server):
    """Notices leave out the newest version."""

    def notices(self, points, version):
        return [notice for notice in super().notices(points, version) if notice.version < self.version]


class PushReachesNothing(Server):
    """A push does not raise the version that the messages have reached."""

    def push(self, client):
        session = self.sessions[client]
        upto = session and session.upto
        sent = super().push(client)
        if session:
            session.upto = upto
        return sent


class NeverCloses(Server):
    """A push whose newest version tells nothing has no empty notice behind it."""

    def push(self, client):
        return [message for message in super().push(client) or [] if isinstance(message, Lapse) or self.touched(client, message)]

    def touched(self, client, message):
        return self.touching(self.sessions[client].subscription, message.version)


class FreshAskAdds(Server):
    """A fresh ask adds to the subscription."""

    def begin(self, session):
        return []


class FreshAskBringsNotices(Server):
    """A fresh ask brings what is due, as others do."""

    def begin(self, session):
        sent = self.due(session)
        session.subscription = []
        return sent


class LosesEmpty(Server):
    """A subscription without a point needs the log too."""

    def is_lost(self, session):
        return session.upto < self.floor()


class CountsVersions(Server):
    """The log keeps so many versions, not changes."""

    def floor(self):
        return max(0, self.version - self.log)


class TellsTheOldRowOnly(Server):
    """A change touches only by its old row."""

    def touches_entry(self, entry, before, after):
        return self.is_inside(entry, before) and super().touches_entry(entry, before, after)


class TellsEachChange(Server):
    """A change of a row that stays inside touches in whatever columns it is."""

    def differ(self, entry, before, after):
        return before != after


class TellsNoChangeInside(Server):
    """A change of a row that stays inside does not touch."""

    def differ(self, entry, before, after):
        return False


class WelcomesAll(Server):
    """A client that resumes keeps what it holds, however far the log reaches back."""

    def take_resume(self, client, resume):
        sent = super().take_resume(client, resume)
        return sent[:-1] + [Welcome(resume.number, self.version, True)]


# ---- of the client

class AsksTheOldRest(Client):
    """The second ask asks only the rest of before."""

    def ask_again(self, ask):
        self.ask(ask.asked, ask.query, ask.parts)


class AppliesAtOnce(Client):
    """A notice is applied at once, though a request is out."""

    def is_laid(self, message):
        return super().is_laid(message) and not isinstance(message, Notice)


class AnswersBehindLapse(Client):
    """A Lapse under an ask drops all, but its answer stands."""

    def take_reply(self, reply):
        if self.has_lapsed() and not self.out.fresh:
            self.drop_all('lapsed')
            self.laid = []
        super().take_reply(reply)


class AsksAgainThoughFresh(Client):
    """A Lapse under a fresh ask gives a second ask too."""

    def take_reply(self, reply):
        if self.has_lapsed():
            self.out = self.out._replace(fresh=False)
        super().take_reply(reply)


class AnswersAtNewest(Client):
    """A covered query is answered at the server's newest version."""

    def say_rows(self, number, query):
        version, self.version = self.version, len(self.versions) - 1
        super().say_rows(number, query)
        self.version = version


class EvictsByStamp(Client):
    """The place of an eviction counts from the class that was not used for the longest time."""

    def in_order(self):
        return sorted(self.cache.classes(), key=lambda cls: (cls[2], cls[:2]))


class NoticesMeetNoLimit(Client):
    """A notice may leave more rows than the budget allows."""

    def take_notice(self, notice):
        self.version = notice.version
        self.say('toclient', 'applied %d' % notice.version)


class CountsAtNewest(Client):
    """The rows that are kept are counted at the server's newest version."""

    def kept(self):
        return self.cache.kept(self.versions[-1])


class NumbersBusyQueries(Client):
    """A query that is not taken, since a request is out, draws a number."""

    def query(self, query):
        self.queries += bool(self.out) and not query.fault()
        super().query(query)


class AsksAgainAsNewQuery(Client):
    """The second ask is a query of its own, with the next number."""

    def ask_again(self, ask):
        self.number_query(ask.query)
        super().ask_again(ask._replace(asked=self.queries))


class ExplainStamps(Client):
    """To explain a query stamps what it could be answered from."""

    def explain(self, query):
        super().explain(query)
        for part in query.parts:
            self.cache.touch(part, self.queries + 1)


class ExplainNumbers(Client):
    """To explain a query draws a number."""

    def explain(self, query):
        super().explain(query)
        self.queries += not query.fault()


class ExplainCountsAtNewest(Client):
    """The rows of victims are counted at the server's newest version."""

    def say_victims(self):
        version, self.version = self.version, len(self.versions) - 1
        super().say_victims()
        self.version = version


class AsksCoveredParts(Client):
    """An ask that has to ask something of one table asks all of the others."""

    def rests(self, query):
        return [self.asked_of(part, part.points) for part in query.parts if part.points] if super().rests(query) else []


class RefusedStays(Client):
    """A refused write leaves the client at its version, whatever was laid by."""

    def take_refused(self, refused):
        self.laid = []
        super().take_refused(refused)


class CutForgets(Client):
    """A cut drops all that is held."""

    def cut(self):
        if not self.is_cut:
            self.cache.held = {}
        super().cut()


class DownThoughCovered(Client):
    """A client whose link is cut answers nothing."""

    def query(self, query):
        if self.is_cut and not query.fault():
            return self.say('query', 'down %d' % self.cuts)
        return super().query(query)


class NumbersDownQueries(Client):
    """A query that cannot be asked, since the link is cut, draws a number."""

    def query(self, query):
        before = len(self.trace.lines)
        super().query(query)
        self.queries += any(isinstance(line, str) and ' down ' in line for line in self.trace.lines[before:])


class DropsThoughCovered(Client):
    """A covered query drops all first, where the load is too high, and is asked then."""

    def query(self, query):
        if not query.fault() and not self.out and not self.rests(query) and self.is_heavy(query):
            self.drop_all('pieces')
        super().query(query)


class DropsThoughDown(Client):
    """A client whose link is cut drops all before a query that it cannot ask, where the load is too high."""

    def query(self, query):
        if not query.fault() and self.is_cut and self.rests(query) and self.is_heavy(query):
            self.drop_all('pieces')
        super().query(query)


class ExplainsDropsThoughCovered(Client):
    """An explanation of a covered query says that all would be dropped first, where the load is too high."""

    def would_give_up(self, query):
        return not self.rests(query) and not self.cache.is_empty() and self.is_heavy(query)


def telling(table, count):
    """The table, whose texts lie where their first bytes tell, so many of them."""
    told = copy.copy(table)
    told.columns = [copy.copy(column) for column in table.columns]
    for column in told.columns:
        column.bytes_told = count
    return told


class TellsThreeBytes(Client):
    """The distance of texts is that of their first three bytes."""

    bytes_told = 3

    def __init__(self, number, tables, limits, versions):
        super().__init__(number, [telling(table, self.bytes_told) for table in tables], limits, versions)


class TellsFiveBytes(TellsThreeBytes):
    """The distance of texts is that of their first five bytes."""

    bytes_told = 5


def counting(table):
    """The table, whose NULL counts as the last value."""
    counted = copy.copy(table)
    counted.columns = [copy.copy(column) for column in table.columns]
    for column in counted.columns:
        column.null_counts_as = -1
    return counted


class CountsNullLast(Client):
    """NULL counts as the last value of its column in a distance."""

    def __init__(self, number, tables, limits, versions):
        super().__init__(number, [counting(table) for table in tables], limits, versions)


class SaysHello(Client):
    """A resume always begins with nothing."""

    def send(self, request):
        super().send(Hello(request.number) if type(request).__name__ == 'Resume' else request)


# ---- of the deliveries

class DeliversToClientFirst(World):
    """A settle empties the queue to the client first."""

    def deliver_next(self, n):
        if self.clients[n].to_client:
            self.to_client(n)
        else:
            self.to_server(n)


class SettlesAll(World):
    """A settle delivers all that is on its way, to and from every client."""

    def settle(self, n):
        count = sum(self.deliver_all(client) for client in self.clients)
        self.trace.say('settle %d %d' % (n, count))


# ---- of conditions

class KeepsUnknown(Not):
    """The contrary of what is unknown is true."""

    def holds(self, values):
        return not self.inner.holds(values)


def loose(condition):
    """The condition, where NOT keeps what is unknown."""
    if isinstance(condition, Not):
        return KeepsUnknown(loose(condition.inner))
    return Both(condition.word, loose(condition.one), loose(condition.two)) if isinstance(condition, Both) else condition


def loose_part(part):
    loosened = copy.copy(part)
    loosened.__dict__.pop('points', None)
    loosened.condition = loose(part.condition)
    return loosened


class KeepsNullUnderNot(World):
    """NOT keeps the rows for which a condition of a query is unknown."""

    def lines_of(self, event, told=()):
        loosened = copy.copy(event)
        if hasattr(event, 'query'):
            loosened.query = copy.copy(event.query)
            loosened.query.parts = list(map(loose_part, event.query.parts))
        return super().lines_of(loosened, told)


SERVERS = {'lapse_keeps_the_subscription': LapseKeepsSubscription, 'notices_leave_out_the_newest': LeavesOutNewest,
           'push_reaches_nothing': PushReachesNothing, 'no_empty_notice': NeverCloses, 'fresh_ask_adds': FreshAskAdds,
           'fresh_ask_brings_notices': FreshAskBringsNotices, 'empty_subscription_lapses': LosesEmpty,
           'log_counts_versions': CountsVersions, 'old_row_alone_touches': TellsTheOldRowOnly,
           'each_change_inside_touches': TellsEachChange, 'no_change_inside_touches': TellsNoChangeInside,
           'welcomes_all': WelcomesAll}
CLIENTS = {'second_ask_asks_the_old_rest': AsksTheOldRest, 'notice_applied_at_once': AppliesAtOnce,
           'answer_behind_a_lapse': AnswersBehindLapse, 'fresh_ask_is_asked_again': AsksAgainThoughFresh,
           'answers_at_the_newest': AnswersAtNewest, 'evicts_by_stamp': EvictsByStamp, 'notices_meet_no_limit': NoticesMeetNoLimit,
           'counts_at_the_newest': CountsAtNewest, 'numbers_busy_queries': NumbersBusyQueries,
           'second_ask_is_a_new_query': AsksAgainAsNewQuery, 'refused_write_stays': RefusedStays, 'cut_forgets': CutForgets,
           'down_though_covered': DownThoughCovered, 'asks_covered_parts': AsksCoveredParts,
           'explain_stamps': ExplainStamps, 'explain_draws_a_number': ExplainNumbers,
           'victims_counted_at_the_newest': ExplainCountsAtNewest,
           'numbers_down_queries': NumbersDownQueries, 'says_hello': SaysHello,
           'drops_though_covered': DropsThoughCovered, 'drops_though_down': DropsThoughDown,
           'explains_drops_though_covered': ExplainsDropsThoughCovered, 'distance_of_three_bytes': TellsThreeBytes,
           'distance_of_five_bytes': TellsFiveBytes, 'null_counts_as_the_last': CountsNullLast}
WORLDS = {'delivers_to_the_client_first': DeliversToClientFirst, 'settles_all': SettlesAll, 'not_keeps_null': KeepsNullUnderNot}

RULES = [*SERVERS, *CLIENTS, *WORLDS]

# the kinds of scripts that tell some of them; those of several clients tell the others
KINDS = {
    'sessions': {'welcomes_all', 'refused_write_stays', 'cut_forgets', 'down_though_covered', 'numbers_down_queries', 'says_hello'},
    'joins': {'asks_covered_parts'},
    'nulls': {'null_counts_as_the_last', 'not_keeps_null'},
    'crowded': {'drops_though_covered', 'drops_though_down', 'explains_drops_though_covered'},
    'worded': {'distance_of_three_bytes', 'distance_of_five_bytes'},
}


def world_of(tables, options, rule=None):
    """A world with this wrong rule, or without one."""
    return WORLDS.get(rule, World)(tables, options, SERVERS.get(rule, Server), CLIENTS.get(rule, Client))
