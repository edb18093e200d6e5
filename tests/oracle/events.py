"""The events of a script: their lines, and what they are in a world."""


class Exec:
    """A statement of the server's own."""

    def __init__(self, statement):
        self.statement = statement

    def line(self):
        return 'exec ' + self.statement.text

    def happen(self, world):
        world.exec(self.statement)


class Asks:
    """A query of a client."""

    def __init__(self, client, query):
        self.client, self.query = client, query

    def line(self):
        return 'query %d %s' % (self.client, self.query.text)

    def happen(self, world):
        world.clients[self.client].query(self.query)


class Explains:
    """A query that a client is to explain."""

    def __init__(self, client, query):
        self.client, self.query = client, query

    def line(self):
        return 'explain %d %s' % (self.client, self.query.text)

    def happen(self, world):
        world.clients[self.client].explain(self.query)


class Writes:
    """A statement that a client sends."""

    def __init__(self, client, statement):
        self.client, self.statement = client, statement

    def line(self):
        return 'write %d %s' % (self.client, self.statement.text)

    def happen(self, world):
        world.clients[self.client].write(self.statement)


class Evicts:
    """A client drops the class in this place."""

    def __init__(self, client, place):
        self.client, self.place = client, place

    def line(self):
        return 'evict %d %d' % (self.client, self.place)

    def happen(self, world):
        world.clients[self.client].evict(self.place)


# what a word with a client and nothing else does
PLAIN = {
    'push': lambda world, n: world.push(n),
    'toserver': lambda world, n: world.to_server(n),
    'toclient': lambda world, n: world.to_client(n),
    'settle': lambda world, n: world.settle(n),
    'cut': lambda world, n: world.cut(n),
    'resume': lambda world, n: world.clients[n].resume(),
}


class Plain:
    """An event that is a word and a client."""

    def __init__(self, word, client):
        self.word, self.client = word, client

    def line(self):
        return '%s %d' % (self.word, self.client)

    def happen(self, world):
        PLAIN[self.word](world, self.client)
