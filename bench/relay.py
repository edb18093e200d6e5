"""A relay in front of a server, which counts the rows that the server ships over one connection."""
import socket
import threading


class Relay:
    """Takes one connection at `address`, and passes on what is said between it and the server."""

    def __init__(self, server):
        host, port = server.rsplit(':', 1)
        self.server = host, int(port)
        self.listener = socket.create_server(('127.0.0.1', 0))
        self.address = '127.0.0.1:%d' % self.listener.getsockname()[1]
        self.rows = self.bytes = 0
        self.thread = threading.Thread(target=self.run, daemon=True)
        self.thread.start()

    def run(self):
        client, _ = self.listener.accept()
        with client, socket.create_connection(self.server) as server:
            up = threading.Thread(target=pass_on, args=(client, server, lambda piece: None), daemon=True)
            up.start()
            pass_on(server, client, Frames(self).take)

    def close(self):
        """Waits until the connection is over."""
        self.thread.join(10)
        self.listener.close()


def pass_on(source, target, seen):
    try:
        while piece := source.recv(65536):
            target.sendall(piece)
            seen(piece)
        target.shutdown(socket.SHUT_WR)
    except OSError:
        pass


class Frames:
    """Cuts what comes into frames, and counts the rows of those that have some."""

    def __init__(self, counts):
        self.counts, self.left = counts, bytearray()

    def take(self, piece):
        self.counts.bytes += len(piece)
        self.left += piece
        at = 0
        while len(self.left) >= at + 4:
            size = int.from_bytes(self.left[at:at + 4], 'big')
            if len(self.left) < at + 4 + size:
                break
            if self.left[at + 4] == 0x13:
                self.counts.rows += int.from_bytes(self.left[at + 14:at + 16], 'big')
            at += 4 + size
        del self.left[:at]
