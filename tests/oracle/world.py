"""A server with its clients, and what each event of a script makes of them."""
import collections

from client import Client, Trace
from messages import name_of
from server import Server

Options = collections.namedtuple('Options', 'clients log limits eager')


class World:
    """A run of a script.

    Where the load is too high a client may drop all classes, or not, before a query that it asks and at an answer. There the world does
    what the program has told. Nowhere else it does: before a covered query, and over a cut link, it demands that nothing is dropped.
    """

    def __init__(self, tables, options, server=Server, client=Client):
        self.is_eager = options.eager
        self.server = server(tables, options.log, options.clients)
        self.clients = {n: client(n, tables, options.limits, self.server.versions) for n in range(1, options.clients + 1)}
        self.trace = Trace([])

    def lines_of(self, event, told=()):
        """What an event brings about, where the program has told these lines of it."""
        self.trace = Trace(told)
        for client in self.clients.values():
            client.trace = self.trace
        event.happen(self)
        if self.is_eager:
            for n in self.clients:
                self.deliver_all(n)
        return self.trace.lines

    def exec(self, statement):
        fault = self.server.write(statement)
        self.trace.say('exec refused ' + fault if fault else 'exec version %d' % self.server.version)

    def push(self, n):
        sent = self.server.push(n)
        if sent is not None:
            self.clients[n].to_client += sent
        self.trace.say('push %d closed' % n if sent is None else 'push %d sent %d' % (n, len(sent)))

    def to_server(self, n):
        client = self.clients[n]
        if not client.to_server:
            return self.trace.say('toserver %d empty' % n)
        request = client.to_server.popleft()
        sent = self.server.take(n, request)
        client.to_client += sent
        return self.trace.say('toserver %d %s %d' % (n, name_of(request), len(sent)))

    def to_client(self, n):
        client = self.clients[n]
        if not client.to_client:
            return self.trace.say('toclient %d empty' % n)
        return client.take(client.to_client.popleft())

    def deliver_all(self, n):
        """Delivers until both queues are empty, that to the server first each time; tells how often."""
        client, count = self.clients[n], 0
        while client.to_server or client.to_client:
            self.deliver_next(n)
            count += 1
        return count

    def deliver_next(self, n):
        if self.clients[n].to_server:
            self.to_server(n)
        else:
            self.to_client(n)

    def settle(self, n):
        count = self.deliver_all(n)
        self.trace.say('settle %d %d' % (n, count))

    def cut(self, n):
        self.clients[n].cut()
        self.server.sessions[n] = None
