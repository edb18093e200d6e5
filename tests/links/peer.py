"""The server of this folder behind a real socket, for one client after another."""
import itertools
import socket
import threading
from collections import namedtuple

from frames import Short, frame, read

SECONDS = 20
# How long it waits for a request behind a turned bit: the client may wait for the rest of a longer frame, which never comes. What it
# sent until then tells what must come of it, so a client that is slow is not wrong.
PATIENCE = 1

# Peers that run side by side have addresses of their own, so that nobody dials another once a peer is gone.
NUMBERS = itertools.count()

# What a connection came to: the requests that were read, and how many whole frames were sent.
Connection = namedtuple('Connection', 'requests frames')


class Peer:
    """Takes a connection for each budget, one after another, and gives up each once so many bytes were sent; None has no end.

    Where `turned` is given, the byte of the first connection in that place is sent with these bits turned.
    """

    def __init__(self, server, budgets, turned=None):
        self.server, self.budgets, self.turned, self.connections, self.fault = server, budgets, turned, [], None
        self.first = b''  # what was sent on the first connection
        self.docked = socket.create_server(('127.0.0.%d' % (1 + next(NUMBERS) % 250), 0))
        self.address = '%s:%d' % self.docked.getsockname()
        self.thread = threading.Thread(target=self.serve, daemon=True)

    def __enter__(self):
        self.thread.start()
        return self

    def __exit__(self, *_):
        try:
            self.docked.shutdown(socket.SHUT_RDWR)  # it waits for no connection any more
        except OSError:
            pass  # it has closed by itself
        self.docked.close()
        self.thread.join(SECONDS)

    def serve(self):
        for budget in self.budgets:
            try:
                link, _ = self.docked.accept()
            except OSError:
                return  # the client dialled less often
            with link:
                link.settimeout(PATIENCE if self.turned else SECONDS)
                self.talk(link, budget)
        self.docked.close()  # who dials once more is refused

    def talk(self, link, budget):
        session, stream, requests, stream_out, sent = None, b'', [], [], 0
        while budget is None or sent < budget:
            try:
                request, size = read(stream)
            except Short:
                more = received(link)
                if not more:
                    break
                stream += more
                continue
            stream = stream[size:]
            self.fault = self.fault or self.server.misfit(session, request)
            session, messages = self.server.take(session, request)
            requests.append(request)
            for message in map(frame, messages):
                piece = message if budget is None else message[:budget - sent]
                self.send(link, piece, sent)
                sent += len(piece)
                stream_out.append(len(piece) == len(message))
        self.connections.append(Connection(requests, stream_out.count(True)))

    def send(self, link, piece, at):
        if self.turned and not self.connections and at <= self.turned[0] < at + len(piece):
            place = self.turned[0] - at
            piece = piece[:place] + bytes([piece[place] ^ self.turned[1]]) + piece[place + 1:]
        if not self.connections:
            self.first += piece
        try:
            link.sendall(piece)
        except OSError:
            pass  # the client hung up


def received(link):
    try:
        return link.recv(65536)
    except OSError:
        return b''
