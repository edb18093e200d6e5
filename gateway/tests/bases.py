"""Published tables, and what other programs do with them: each way to write is logged as what it changed, and limits are kept."""
import json
import subprocess

from links import dial
from postgres import Gateway

import frames

SALE = 'CREATE TABLE sale (id INT PRIMARY KEY CHECK (id BETWEEN 1 AND 999), amount INT CHECK (amount BETWEEN 0 AND 1000), name TEXT)\n'
ROW = "INSERT INTO sale VALUES (%d, %d, 'n')"
# what programs do, one a version, and which keys then have which amounts
WAYS = [
    (ROW % (1, 10), {1: 10}),
    ('BEGIN; %s; UPDATE sale SET amount = 30 WHERE id = 2; COMMIT' % (ROW % (2, 20)), {2: 30}),
    ('UPDATE sale SET amount = amount', {}),
    ('UPDATE sale SET id = id + 1 WHERE id = 2', {2: None, 3: 30}),
    ('BEGIN; UPDATE sale SET amount = 5; UPDATE sale SET amount = CASE id WHEN 1 THEN 10 ELSE 30 END; COMMIT', {}),
    ('BEGIN; SAVEPOINT s; %s; ROLLBACK TO s; %s; COMMIT' % (ROW % (4, 1), ROW % (5, 2)), {5: 2}),
    ("INSERT INTO sale VALUES (1, 11, 'n'), (6, 60, 'n') ON CONFLICT (id) DO UPDATE SET amount = excluded.amount", {1: 11, 6: 60}),
    ('WITH gone AS (DELETE FROM sale WHERE id = 6 RETURNING *) INSERT INTO sale SELECT 7, amount, name FROM gone', {6: None, 7: 60}),
    ('MERGE INTO sale USING (VALUES (7), (8)) AS v (id) ON sale.id = v.id WHEN MATCHED THEN DELETE WHEN NOT MATCHED THEN INSERT VALUES (v.id, 8)',
     {7: None, 8: 8}),
    ('COPY sale FROM stdin;\n9\t90\tn\n\\.\n', {9: 90}),
    ('BEGIN ISOLATION LEVEL REPEATABLE READ; SELECT FROM sale; UPDATE sale SET amount = 91 WHERE id = 9; COMMIT', {9: 91}),
    ('SET session_replication_role = replica; DELETE FROM sale WHERE id = 9', {9: None}),
    ('SET synchronous_commit = off; %s' % (ROW % (10, 1)), {10: 1}),
    ('TRUNCATE sale', {1: None, 3: None, 5: None, 8: None, 10: None}),
]
WHOLE = frames.Ask(1, True, [frames.Part(0, [0, 1], [(None, None, None)])])


def notices_of(stream, version, number):
    """What a resume from the version tells."""
    stream.link.sendall(frames.frame(frames.Resume(1, number, version, [frames.Holding(0, [0, 1, 2], [(None, None, None)])])))
    while isinstance(message := stream.next()[0], frames.Notice):
        yield message


def ways_fault(cluster):
    with Gateway(cluster, SALE, 'ways', ['--first', '0']) as gateway:
        cluster.psql('ALTER TABLE sale ALTER name SET DEFAULT \'n\'', 'ways')
        for text, want in WAYS:
            before = int(cluster.psql('SELECT max(version) FROM naworuke.version', 'ways'))
            cluster.psql(text, 'ways')
            stream = dial(gateway.address)
            told = {tell.key: tell.after and tell.after[1] for notice in notices_of(stream, before, 0) for tell in notice.tells}
            stream.close()
            if told != want:
                return '%s: told %s, wanted %s' % (text, told, want)
    return None


def order_fault(cluster):
    """Of two transactions that overlap, the one that wrote first is the earlier version, and the other waits for it."""
    with Gateway(cluster, SALE, 'orders', ['--first', '0']):
        first = "psql -X -q -d '%s' -c \"BEGIN\" -c \"%s\" -c \"SELECT pg_sleep(1)\" -c \"COMMIT\"" % (cluster.url('orders'), ROW % (1, 10))
        slow = subprocess.Popen(first, shell=True, stdout=subprocess.DEVNULL)
        while cluster.psql("SELECT count(*) FROM pg_stat_activity WHERE query LIKE '%pg_sleep(1)%' AND state = 'active'", 'orders') != '2\n':
            pass
        there = cluster.psql('%s; SELECT count(*) FROM sale' % (ROW % (2, 20)), 'orders')
        slow.wait()
        found = [json.loads(line) for line in cluster.psql('SELECT after FROM naworuke.change ORDER BY version', 'orders').splitlines()]
    return None if [row[0] for row in found] == [1, 2] and there == '2\n' else '%s of 2, %s' % (there.strip(), found)


def limits_fault(cluster):
    """A value that is outside is named when a table is published, and refused by PostgreSQL later."""
    cases = [("CREATE TABLE sale (id int PRIMARY KEY, amount bigint, name text); INSERT INTO sale VALUES (1, 2000, 'a')",
              'gateway: sale.amount has the value 2000, which is outside 0 to 1000\n'),
             ("CREATE TABLE sale (id int PRIMARY KEY, amount bigint, name text); INSERT INTO sale VALUES (1, 2, repeat('a', 121))",
              "gateway: sale.name has the value '%s', which is longer than 120 bytes\n" % ('a' * 121)),
             ('CREATE TABLE sale (id int PRIMARY KEY, amount bigint, name text); INSERT INTO sale VALUES (1, 2)',
              'gateway: sale.name has the value NULL, which is none\n'),
             ('CREATE TABLE sale (id int PRIMARY KEY, amount real, name text)', 'gateway: sale.amount is real\n'),
             ('CREATE TABLE sale (id int, amount bigint, name text)', 'gateway: sale.id is no key: it has no unique index\n'),
             ('CREATE VIEW sale AS SELECT 1 AS id, 2 AS amount', 'gateway: sale is no table\n')]
    for number, (text, want) in enumerate(cases):
        cluster.psql('CREATE DATABASE limits%d' % number)
        cluster.psql(text, 'limits%d' % number)
        try:
            Gateway(cluster, SALE, 'limits%d' % number).kill()
            return '%s is published' % text
        except RuntimeError as fault:
            if str(fault) != want:
                return '%s: %r' % (text, str(fault))
    with Gateway(cluster, SALE, 'limits'):
        try:
            cluster.psql(ROW % (1000, 1), 'limits')
            return 'a row outside is taken'
        except RuntimeError as fault:
            return None if 'naworuke_id' in str(fault) else str(fault)


def bulk_fault(cluster):
    """A transaction of very many changes is a version that the log drops; one that comes to few is told like any other."""
    with Gateway(cluster, SALE.replace('999', '99999'), 'bulk', ['--first', '0']) as gateway:
        cluster.psql("INSERT INTO sale SELECT n, 0, 'n' FROM generate_series(1, 30000) AS n", 'bulk')
        cluster.psql('BEGIN; UPDATE sale SET amount = 1; UPDATE sale SET amount = 0 WHERE id <> 7; COMMIT', 'bulk')
        told = []
        for version in (0, 1):
            stream = dial(gateway.address)
            stream.link.sendall(frames.frame(frames.Resume(1, version, version, [frames.Holding(0, [0, 1, 2], [(None, None, None)])])))
            told.append([])
            while not isinstance(message := stream.next()[0], frames.Welcome):
                told[-1].append(message)
            told[-1].append(message)
            stream.close()
    want = [[frames.Welcome(0, 2, False)], [frames.Notice(2, [frames.Tell(0, 7, (7, 1, b'n'))]), frames.Welcome(1, 2, True)]]
    return None if told == want else str(told)[:500]


def version_at(gateway):
    """The version that a Hello is told."""
    stream = dial(gateway.address)
    stream.link.sendall(frames.frame(frames.Hello(1, 0)))
    found = stream.next()[0].version
    stream.close()
    return found


def restored_fault(cluster):
    """A dump that is restored begins above all versions of before, and a resume keeps nothing; a restart goes on."""
    with Gateway(cluster, SALE, 'dumped') as gateway:
        cluster.psql(ROW % (1, 10), 'dumped')
        dump = subprocess.run(['pg_dump', cluster.url('dumped')], capture_output=True, text=True, check=True).stdout
        cluster.psql(ROW % (2, 20), 'dumped')
        before = version_at(gateway)
        gateway.kill()
        gateway.start()
        if version_at(gateway) != before:
            return 'a restart has version %d, wanted %d' % (version_at(gateway), before)
        stream = dial(gateway.address)
        if [notice.version for notice in notices_of(stream, before - 1, 0)] != [before]:
            return 'a resume behind a restart is not told what changed'
        stream.close()
    cluster.psql(dump, 'restored')
    with Gateway(cluster, SALE, 'restored') as gateway:
        cluster.psql(ROW % (3, 30), 'restored')
        stream = dial(gateway.address)
        stream.link.sendall(frames.frame(frames.Resume(1, 0, before, [frames.Holding(0, [0, 1, 2], [(None, None, None)])])))
        welcome = stream.next()[0]
        stream.close()
    return None if welcome.version > before and not welcome.kept else str(welcome)


def beside_fault(cluster):
    """Two gateways over one database: a client resumes at the other, and is told what it missed."""
    with Gateway(cluster, SALE, 'beside', ['--first', '0']) as one, Gateway(cluster, SALE, 'beside') as other:
        cluster.psql(ROW % (1, 10), 'beside')
        version = version_at(one)
        cluster.psql(ROW % (2, 20), 'beside')
        stream = dial(other.address)
        told = [tell.key for notice in notices_of(stream, version, 0) for tell in notice.tells]
        stream.close()
    return None if (version, told) == (1, [2]) else str((version, told))


def parts_fault(cluster):
    """A table in partitions, one of which is written by its own name."""
    cluster.psql('CREATE TABLE sale (id int PRIMARY KEY, amount int, name text) PARTITION BY RANGE (id);'
                 'CREATE TABLE low PARTITION OF sale FOR VALUES FROM (0) TO (100);'
                 'CREATE TABLE high PARTITION OF sale FOR VALUES FROM (100) TO (1000)', 'parts')
    with Gateway(cluster, SALE, 'parts', ['--first', '0']) as gateway:
        cluster.psql(ROW % (1, 1), 'parts')
        cluster.psql('UPDATE sale SET id = 200', 'parts')
        cluster.psql('UPDATE high SET amount = 7', 'parts')
        stream = dial(gateway.address)
        told = [[(tell.key, tell.after and tell.after[1]) for tell in notice.tells] for notice in notices_of(stream, 0, 0)]
        stream.close()
    return None if told == [[(1, 1)], [(1, None), (200, 1)], [(200, 7)]] else str(told)


def results(cluster):
    """A name and what was wrong, for each case, in a base of its own."""
    for base, name, tell in [('ways', 'each way to write', ways_fault), ('orders', 'the order of commits', order_fault),
                             ('limits', 'limits', limits_fault), ('bulk', 'very many changes', bulk_fault), ('dumped', 'restarts and restored dumps', restored_fault),
                             ('beside', 'two gateways', beside_fault), ('parts', 'partitions', parts_fault)]:
        cluster.psql('CREATE DATABASE %s' % base)
        if base == 'dumped':
            cluster.psql('CREATE DATABASE restored')
        yield name, tell(cluster)
