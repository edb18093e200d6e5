"""Clients of the built program, each behind a link that is held here: what is sent goes on when it is told to."""
# the rules and the frames that judge are those of tests/oracle and tests/links, not the gateway's own
import pathlib
import socket
import subprocess
import sys

ROOT = pathlib.Path(__file__).resolve().parent.parent.parent
sys.path += [str(ROOT), str(ROOT / 'tests' / 'links'), str(ROOT / 'tests' / 'oracle')]

import frames  # noqa: E402

SECONDS = 20


class Broken(Exception):
    """A link ended where it must not."""


class Stream:
    """The messages that come over a socket."""

    def __init__(self, link):
        self.link, self.bytes = link, b''
        link.settimeout(SECONDS)
        link.setsockopt(socket.IPPROTO_TCP, socket.TCP_NODELAY, 1)

    def next(self):
        """The next message, with its bytes; None where the peer said no more."""
        while True:
            try:
                message, size = frames.read(self.bytes)
            except frames.Short:
                more = self.link.recv(65536)
                if not more and self.bytes:
                    raise Broken('it ended inside of a frame') from None
                if not more:
                    return None
                self.bytes += more
                continue
            except frames.Fault as fault:
                raise Broken('no frame: %s' % fault) from None
            whole, self.bytes = self.bytes[:size], self.bytes[size:]
            return message, whole

    def close(self):
        self.link.close()


def dial(address, room=None):
    """A link to an address; its system keeps so many bytes for this side, if that is said."""
    host, port = address.rsplit(':', 1)
    link = socket.socket()
    if room:
        link.setsockopt(socket.SOL_SOCKET, socket.SO_RCVBUF, room)
    link.settimeout(SECONDS)
    link.connect((host, int(port)))
    return Stream(link)


def hand_on(one, other, who):
    """The next message of one side, which goes on to the other."""
    got = one.next()
    if got is None:
        raise Broken('%s hung up' % who)
    message, whole = got
    other.link.sendall(whole)
    return message


class Program:
    """The built program as client `number`, whose links go through here to the gateway."""

    def __init__(self, program, number, schema, script, options, address):
        self.address, self.near, self.far = address, None, None
        self.docked = socket.create_server(('127.0.0.1', 0))
        self.docked.settimeout(SECONDS)
        words = [program, 'client', *options, '--id', str(number), '--schema', schema, '127.0.0.1:%d' % self.docked.getsockname()[1], script]
        self.process = subprocess.Popen(words, stdin=subprocess.DEVNULL, stdout=subprocess.PIPE, stderr=subprocess.PIPE)

    def dial(self):
        """It dials, and so does this side."""
        self.near = Stream(self.docked.accept()[0])
        self.far = dial(self.address)

    def hang_up(self):
        for side in (self.near, self.far):
            if side:
                side.close()
        self.near = self.far = None

    def request(self):
        """Its next request, which goes on to the gateway."""
        return hand_on(self.near, self.far, 'it')

    def answer(self):
        """The next message of the gateway, which goes on to it."""
        return hand_on(self.far, self.near, 'the gateway')

    def ending(self):
        """Its status, its error output and its lines."""
        self.hang_up()
        self.docked.close()
        try:
            output, error = self.process.communicate(timeout=SECONDS)
        except subprocess.TimeoutExpired:
            self.process.kill()
            output, error = self.process.communicate()
            return None, 'no end', output.decode().splitlines()
        return self.process.returncode, error.decode(), output.decode().splitlines()


class Psql:
    """A psql that stays, as another program that writes."""

    def __init__(self, url):
        self.process = subprocess.Popen(['psql', '-X', '-q', '-A', '-t', '-d', url], stdin=subprocess.PIPE, stdout=subprocess.PIPE, stderr=subprocess.STDOUT,
                                        text=True)

    def do(self, text):
        """What it prints; it has done all of it then."""
        self.process.stdin.write(text + '\n;\n\\echo -- done\n')
        self.process.stdin.flush()
        lines = []
        while (line := self.process.stdout.readline()) != '-- done\n':
            if not line:
                raise Broken('psql ended: %s' % lines)
            lines.append(line.rstrip('\n'))
        return [line for line in lines if line]

    def close(self):
        self.process.stdin.close()
        self.process.wait()
        self.process.stdout.close()
