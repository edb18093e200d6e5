"""run --schema FILE --database URL ADDRESS: serves the tables of a schema file, which stand in PostgreSQL, to any number of clients.

ADDRESS is HOST:PORT. At each ADDRESS connections are served as docs/FORMATS.md says of `serve`, side by side: a client is told of changes
where it asks, writes or resumes. At an address of --tell it is told of each change that touches what it asked for, too. The URL is one of
libpq, as postgresql://user@host/base. A table that is not in the database is made. What the schema file says is published once; later calls
go on with the versions that are there. It ends by SIGINT or SIGTERM.
"""
import argparse
import asyncio
import logging
import pathlib
import resource
import signal
import sys

import psycopg

from . import schema
from .publish import Unpublishable
from .sessions import LOG, Gateway
from .store import Down, Store

MOST_LOG = 10000


def words() -> argparse.Namespace:
    parser = argparse.ArgumentParser(prog='gateway/run', description=__doc__, formatter_class=argparse.RawDescriptionHelpFormatter)
    parser.add_argument('--schema', required=True, metavar='FILE', help='the CREATE lines that the clients have, too')
    parser.add_argument('--database', required=True, metavar='URL', help='where the tables are')
    parser.add_argument('--log', type=int, default=MOST_LOG, metavar='N', help='how many changes the log keeps, 0 to 10,000 (10,000)')
    parser.add_argument('--tell', action='append', default=[], metavar='ADDRESS', help='an address at which clients are told of changes unasked')
    parser.add_argument('--connections', type=int, default=8, metavar='N', help='how many requests the database carries out at once (8)')
    parser.add_argument('--waiting', type=int, default=64, metavar='MIB', help='how much may wait for one client before it is cut (64)')
    parser.add_argument('--anew', action='store_true', help='publish the tables once more, with versions above all others')
    parser.add_argument('--first', type=int, metavar='N', help="the number of the first version (the clock's millionths of a second)")
    parser.add_argument('--verbose', action='store_true', help='say why connections end')
    parser.add_argument('addresses', nargs='*', metavar='ADDRESS')
    found = parser.parse_args()
    if not found.addresses + found.tell or not 0 <= found.log <= MOST_LOG or found.connections < 1:
        parser.error('an address is missing, or a number is out of its range')
    return found


def host_and_port(address: str) -> tuple:
    host, _, port = address.rpartition(':')
    return host.strip('[]'), int(port)


async def listen(gateway: Gateway, found: argparse.Namespace) -> None:
    for address, is_told in [(a, False) for a in found.addresses] + [(a, True) for a in found.tell]:
        await asyncio.start_server(lambda reader, writer, is_told=is_told: gateway.serve(reader, writer, is_told), *host_and_port(address), backlog=1024)


async def keep_up(gateway: Gateway, found: argparse.Namespace, tables: list) -> None:
    """Follows the database; where it is down, all sessions end, and it is tried again until it is there."""
    is_anew = found.anew
    while True:
        try:
            gateway.store = Store(found.database, tables, found.connections)
            await gateway.store.open(is_anew, found.first)
            is_anew = False
            LOG.info('the database is there')
            await gateway.follow()
        except (Down, OSError, psycopg.Error) as fault:
            LOG.warning('database: %s', str(fault).split('\n')[0])
        gateway.cut_all()
        await gateway.store.close()
        await asyncio.sleep(0.2)


async def run(found: argparse.Namespace, tables: list) -> None:
    gateway = Gateway(tables, None, found.log, found.waiting << 20)
    following = asyncio.create_task(keep_up(gateway, found, tables))
    while gateway.server is None and not following.done():
        await asyncio.sleep(0.01)
    if following.done():
        following.result()
    await listen(gateway, found)
    print('listening', flush=True)
    ended = asyncio.Event()
    for number in (signal.SIGINT, signal.SIGTERM):
        asyncio.get_running_loop().add_signal_handler(number, ended.set)
    await asyncio.wait([following, asyncio.create_task(ended.wait())], return_when=asyncio.FIRST_COMPLETED)
    if following.done():
        following.result()
    following.cancel()


def main() -> None:
    found = words()
    most = resource.getrlimit(resource.RLIMIT_NOFILE)[1]
    resource.setrlimit(resource.RLIMIT_NOFILE, (most, most))
    logging.basicConfig(level=logging.INFO if found.verbose else logging.WARNING, format='%(message)s', stream=sys.stderr)
    logging.getLogger('psycopg').setLevel(logging.ERROR)
    try:
        tables = schema.read(pathlib.Path(found.schema).read_bytes())
        asyncio.run(run(found, tables))
    except OSError as fault:
        sys.exit('gateway: %s' % fault)
    except (schema.Bad, Unpublishable) as fault:
        sys.exit('gateway: %s' % fault)
