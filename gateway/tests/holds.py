"""Many connections at once, some idle, some busy; peers that are told of changes unasked, and one that does not take what it is told."""
import asyncio
import pathlib
import resource
import time

import links  # noqa: F401, it makes the modules of tests/links known
from bases import version_at
from links import Psql, dial
from postgres import Gateway

import frames

SCHEMA = 'CREATE TABLE p (id INT PRIMARY KEY CHECK (id BETWEEN 0 AND 99999), age INT CHECK (age BETWEEN 0 AND 150), name TEXT)\n'
FILL = "INSERT INTO p SELECT n, n %% 151, 'row ' || n FROM generate_series(0, %d) AS n"
# the last version, behind enough bytes to fill what the systems of both sides keep
LAST = 700
WHOLE = frames.Part(0, [0, 1, 2], [(None, None, None)])


def ages(low, high):
    return frames.Part(0, [0, 1], [(None, (low, high), None)])


async def received(stream):
    head = await stream.readexactly(4)
    return frames.read(head + await stream.readexactly(int.from_bytes(head, 'big')))[0]


async def begun(address):
    host, port = address.split(':')
    reading, writing = await asyncio.open_connection(host, int(port))
    writing.write(frames.frame(frames.Hello(1, 0)))
    assert isinstance(await received(reading), frames.Welcome)
    return reading, writing


async def busy(address, asks, seconds):
    """So many asks, one behind the other, each of which must be answered by the right rows."""
    reading, writing = await begun(address)
    for number in range(1, asks + 1):
        low = number * 7 % 100
        start = time.perf_counter()
        writing.write(frames.frame(frames.Ask(number, True, [ages(low, low + 1)])))
        rows = []
        while not isinstance(message := await received(reading), frames.Reply):
            rows += message.rows
        seconds.append(time.perf_counter() - start)
        assert message.number == number and {age for _, age in rows} <= {low, low + 1} and len(rows) >= 10, (low, len(rows))
    writing.close()


async def hold(address, idle, busy_ones, asks):
    """The seconds of each ask, while so many others are idle."""
    held, seconds = [], []
    for _ in range(0, idle, 50):
        held += await asyncio.gather(*[begun(address) for _ in range(min(50, idle))])
    start = time.perf_counter()
    await asyncio.gather(*[busy(address, asks, seconds) for _ in range(busy_ones)])
    took = time.perf_counter() - start
    for reading, writing in held:  # none of them was cut
        writing.write(frames.frame(frames.Write(1, b'no statement')))
        assert isinstance(await received(reading), frames.Refused)
        writing.close()
    return took, sorted(seconds)


def holds(cluster, idle, busy_ones, asks):
    most = resource.getrlimit(resource.RLIMIT_NOFILE)[1]
    resource.setrlimit(resource.RLIMIT_NOFILE, (most, most))
    cluster.psql('CREATE DATABASE holds')
    with Gateway(cluster, SCHEMA, 'holds') as gateway:
        cluster.psql(FILL % 2000, 'holds')
        took, seconds = asyncio.run(hold(gateway.address, idle, busy_ones, asks))
        status = dict(line.split(':', 1) for line in pathlib.Path('/proc/%d/status' % gateway.process.pid).read_text().splitlines())
    name = '%d idle and %d busy connections: %d asks, %.0f a second, half within %.0f ms, all within %.0f ms; %s threads, %d MiB' % (
        idle, busy_ones, len(seconds), len(seconds) / took, 1000 * seconds[len(seconds) // 2], 1000 * seconds[-1], status['Threads'].strip(),
        int(status['VmHWM'].split()[0]) // 1024)
    yield name, None if len(seconds) == asks * busy_ones else 'asks are missing'


# ---- told unasked

def told_fault(cluster):
    """A peer at an address of --tell gets a notice of each change that touches what it asked, and of no other; of too many a Lapse."""
    with Gateway(cluster, SCHEMA, 'told', ['--first', '0'], tell=True) as gateway:
        cluster.psql(FILL % 500, 'told')
        stream = dial(gateway.address)
        stream.link.sendall(frames.spelled([frames.Hello(1, 0), frames.Ask(1, True, [ages(10, 19)])]))
        while not isinstance(stream.next()[0], frames.Reply):
            pass
        for text in ["UPDATE p SET name = 'x' WHERE id = 100", 'UPDATE p SET age = 12 WHERE id = 20', "UPDATE p SET age = 140 WHERE id = 10"]:
            cluster.psql(text, 'told')
        cluster.psql("INSERT INTO p SELECT n, 150, '' FROM generate_series(1000, 31000) AS n", 'told')
        got = [stream.next()[0] for _ in range(3)]
        stream.close()
    want = [frames.Notice(3, [frames.Tell(0, 20, (20, 12, b'row 20'))]), frames.Notice(4, [frames.Tell(0, 10, (10, 140, b'row 10'))]), frames.Lapse(5)]
    return None if got == want else '%s, wanted %s' % (got, want)


def slow_fault(cluster):
    """A peer that takes nothing is cut, once more than a mebibyte waits for it; a resume catches up."""
    with Gateway(cluster, SCHEMA, 'slow', ['--first', '0', '--waiting', '1'], tell=True) as gateway:
        cluster.psql(FILL % 59, 'slow')
        stream = dial(gateway.address, 4096)
        stream.link.sendall(frames.spelled([frames.Hello(1, 0), frames.Ask(1, True, [WHOLE])]))
        while not isinstance(stream.next()[0], frames.Reply):
            pass
        psql = Psql(cluster.url('slow'))
        for version in range(2, LAST + 1):
            psql.do("UPDATE p SET name = repeat('%d', 120)" % (version % 10))
            if version % 50 == 0:
                version_at(gateway)  # it has told all of it by then, so its log reaches back
        psql.close()
        notices = 0
        try:
            while stream.next():
                notices += 1
        except (ConnectionResetError, links.Broken):
            pass
        if notices >= LAST - 1:
            return 'it was not cut'
        stream = dial(gateway.address)
        stream.link.sendall(frames.frame(frames.Resume(1, 0, LAST - 3, [frames.Holding(0, [0, 1, 2], [(None, None, None)])])))
        came = [stream.next()[0] for _ in range(4)]
        stream.close()
    return None if [message.version for message in came] == [LAST - 2, LAST - 1, LAST, LAST] and came[-1].kept else str(came)[:500]


def results(cluster, idle, busy_ones, asks):
    yield from holds(cluster, idle, busy_ones, asks)
    for name, tell in [('told unasked', told_fault), ('a peer that takes nothing', slow_fault)]:
        cluster.psql('CREATE DATABASE %s' % tell.__name__.split('_')[0])
        yield name, tell(cluster)
