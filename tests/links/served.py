"""The program `serve`, dialled over loopback, and the server of this folder beside it."""
import pathlib
import socket
import subprocess
import tempfile

from frames import ALL_COLUMNS, WIRE, Ask, Hello, Holding, Lapse, Part, Resume, Welcome, Write, frame, spelled
from model import SCHEMA, Model

ROWS = [(1, 35, b'ann'), (2, 45, b'bob'), (3, 33, b"cy's"), (300, 30, b'\xc3\xa9')]
LOG = 3
SECONDS = 20

AGES_30_40 = (None, (30, 40), None)
NAMES_FROM_B = (None, None, (b'b', None))
HELLO = Hello(1, 0)
WHOLE = Part(0, [0, 1, 2], [(None, None, None)])


def statement(row):
    return "INSERT INTO p VALUES (%d, %d, '%s')" % (row[0], row[1], row[2].decode().replace("'", "''"))


# ---- what is sent to the server

def honest(wire=WIRE):
    """A conversation with each kind of request. The write is seen in one of the asked columns, and the last one is not."""
    return [HELLO._replace(wire=wire), Ask(1, True, [Part(0, [0, 1], [AGES_30_40])]), Write(2, b'UPDATE p SET age = 50 WHERE id = 1'),
            Ask(3, False, [Part(0, [0, 2], [NAMES_FROM_B])]), Write(4, b'UPDATE p SET age = 46 WHERE id = 2')]


def honest_in_both():
    return [('in wire %d' % wire, [spelled(honest(wire))]) for wire in (1, 2)]


def cut_after_each_byte():
    stream = spelled(honest())
    return [('cut after byte %d' % size, [stream[:size]]) for size in range(len(stream) + 1)]


def in_pieces():
    stream = spelled(honest())
    return [('in pieces of %d' % size, [stream[at:at + size] for at in range(0, len(stream), size)]) for size in (1, 7, 64)]


def resumed():
    """A write behind each changes a column of one holding, and none of the other."""
    held = {1: [Holding(0, ALL_COLUMNS, [NAMES_FROM_B])], 2: [Holding(0, [0, 1], [AGES_30_40]), Holding(0, [0, 2], [NAMES_FROM_B])]}
    return [('resume in wire %d from version %d' % (wire, version),
             [spelled([Resume(7, 0, version, holdings, wire), Write(1, b'UPDATE p SET age = %d WHERE id = 2' % (36 + version)), Ask(2, False, [WHOLE])])])
            for wire, holdings in held.items() for version in range(0, 25)]


def with_wire(wire, message):
    """The frame of a message with another number of the wire."""
    whole = bytearray(frame(message))
    whole[5] = wire
    return bytes(whole)


def refused():
    """Requests that suit no rule, and what comes behind them is not answered."""
    wrong = {
        'a request before the greeting': [Ask(1, True, [WHOLE])],
        'a second greeting': [HELLO, Hello(2, 0)],
        'a message of a server': [HELLO, Lapse(1)],
        'a table that is not there': [HELLO, Ask(1, True, [Part(1, [0], [(None, None, None)])])],
        'a column that is not there': [HELLO, Ask(1, True, [Part(0, [0, 3], [(None, None, None)])])],
        'an ask without the key': [HELLO, Ask(1, True, [Part(0, [1], [(None, None, None)])])],
        'a span of a column that is not asked': [HELLO, Ask(1, True, [Part(0, [0], [AGES_30_40])])],
        'a number outside the domain': [HELLO, Ask(1, True, [Part(0, [0, 1], [(None, (30, 151), None)])])],
        'a text in a column of numbers': [HELLO, Ask(1, True, [Part(0, [0, 1], [(None, (b'a', None), None)])])],
        'a rect of two columns': [HELLO, Ask(1, True, [Part(0, [0, 1], [(None, None)])])],
        'a holding of no table': [Resume(1, 0, 1, [Holding(3, [0], [(None, None, None)])])],
        'a holding of no table, in wire 1': [Resume(1, 0, 1, [Holding(3, ALL_COLUMNS, [(None, None, None)])], 1)],
        'a holding of a column that is not there': [Resume(1, 0, 1, [Holding(0, [0, 3], [(None, None, None)])])],
        'a holding without the key': [Resume(1, 0, 1, [Holding(0, [1], [(None, None, None)])])],
        'a holding with a span of a column that is not held': [Resume(1, 0, 1, [Holding(0, [0], [AGES_30_40])])],
        'a holding of columns, in wire 1': [with_wire(1, Resume(1, 0, 1, [Holding(0, [0, 1], [AGES_30_40])]))],
        'a wire that is not there': [with_wire(3, HELLO)],
    }
    return [(name, [spelled(messages + [Ask(9, True, [WHOLE])])]) for name, messages in wrong.items()]


def mutated():
    """Each byte of an ask with its highest and its lowest bit turned."""
    whole = frame(Ask(1, True, [Part(0, [0, 1], [AGES_30_40])]))
    turned = [(at, whole[:at] + bytes([whole[at] ^ bit]) + whole[at + 1:]) for at in range(len(whole)) for bit in (0x80, 0x01)]
    return [('byte %d of an ask' % at, [frame(HELLO) + stream]) for at, stream in turned]


# ---- the program

def free_address():
    with socket.socket() as some:
        some.bind(('127.0.0.1', 0))
        return '127.0.0.1:%d' % some.getsockname()[1]


def talk(address, pieces):
    """What comes on a connection that brings these pieces and is then closed on this side."""
    host, port = address.split(':')
    with socket.create_connection((host, int(port)), SECONDS) as link:
        link.setsockopt(socket.IPPROTO_TCP, socket.TCP_NODELAY, 1)
        try:
            for piece in pieces:
                link.sendall(piece)
            link.shutdown(socket.SHUT_WR)
        except OSError:
            pass  # the server hung up on what it refused
        got = b''
        while more := received(link):
            got += more
        return got


def received(link):
    try:
        return link.recv(65536)
    except ConnectionResetError:
        return b''  # it hung up with bytes unread


def over_a_nullable_schema(program):
    """A client of wire 1 knows no NULL: its greeting is refused, without a byte. One of wire 2 is welcome."""
    with tempfile.TemporaryDirectory() as folder:
        schema, address = pathlib.Path(folder) / 'schema', free_address()
        schema.write_text('CREATE TABLE n (id INT PRIMARY KEY, a INT NULL)\n', encoding='utf-8')
        with subprocess.Popen([program, 'serve', '--schema', schema, address, '2'], bufsize=0, stdout=subprocess.PIPE) as serving:
            serving.stdout.readline()
            got = [talk(address, [frame(HELLO._replace(wire=wire))]) for wire in (1, 2)]
            output, _ = serving.communicate(timeout=SECONDS)
    return [('wire 1 over a nullable schema', None if got[0] == b'' else 'got ' + got[0].hex()),
            ('wire 2 over a nullable schema', None if got[1] == spelled([Welcome(0, 0, False)]) else 'got ' + got[1].hex()),
            ('the lines of both', None if output == b'connection 1 bad 1\nconnection 2 end 1\n' else 'got %r' % output)]


def run(program):
    """Serves all conversations, one after another; gives a name and what was wrong for each."""
    cases = in_pieces() + honest_in_both() + cut_after_each_byte() + resumed() + refused() + mutated()
    with tempfile.TemporaryDirectory() as folder:
        schema, texts, address = pathlib.Path(folder) / 'schema', pathlib.Path(folder) / 'exec', free_address()
        schema.write_text(SCHEMA, encoding='utf-8')
        texts.write_text(''.join(statement(row) + '\n' for row in ROWS), encoding='utf-8')
        words = ['serve', '--log', str(LOG), '--exec', texts, '--schema', schema, address, str(len(cases))]
        with subprocess.Popen([program, *words], bufsize=0, stdout=subprocess.PIPE, stderr=subprocess.PIPE) as serving:
            model, lines = Model(ROWS, LOG), ['exec version %d' % version for version in range(1, len(ROWS) + 1)]
            faults = []
            if serving.stdout.readline() != b'listening\n':
                return [('serve', 'does not listen: ' + serving.stderr.read().decode())]
            for number, (name, pieces) in enumerate(cases, 1):
                wanted, how, frames = model.serve(b''.join(pieces))
                got = talk(address, pieces)
                # behind bytes that are refused the link may be reset, and what was sent is then lost in part
                same = got == wanted or how == 'bad' and wanted.startswith(got)
                faults.append((name, None if same else 'got %s, wanted %s' % (got.hex(), wanted.hex())))
                lines.append('connection %d %s %d' % (number, how, frames))
            output, _ = serving.communicate(timeout=SECONDS)
            told = output.decode().splitlines()
            wrong = next((pair for pair in zip(told + [None] * len(lines), lines) if pair[0] != pair[1]), None)
            faults.append(('the lines of serve', None if told == lines else 'got, wanted: %s' % (wrong,)))
            faults.append(('the status of serve', None if serving.returncode == 0 else 'status %d' % serving.returncode))
            return faults
