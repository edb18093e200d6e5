"""Clients and psql that go on while the gateway and the database are killed at random moments. Behind it each answer must be one of its
version, as the log of the database has it, and nothing that was accepted may be lost."""
import collections
import json
import random
import subprocess
import threading
import time

from links import Broken, Psql, dial
from postgres import Gateway

import frames
import reader

CREATE = 'CREATE TABLE p (id INT PRIMARY KEY, age INT CHECK (age BETWEEN 0 AND 150), name TEXT)'
TABLE = reader.Reader(CREATE, []).create()
LINES = 120


def script_of(chance, client, run):
    """Lines of a client. The keys of its rows are its own."""
    lines = []
    for number in range(LINES):
        kind, low = chance.random(), chance.randrange(140)
        if kind < 0.5:
            lines.append('query %d SELECT id, age FROM p WHERE age BETWEEN %d AND %d' % (client, low, low + chance.randrange(30)))
        elif kind < 0.6:
            lines.append("query %d SELECT id, name FROM p WHERE name >= 'c%d'" % (client, chance.randrange(5)))
        elif kind < 0.75:
            lines.append("write %d INSERT INTO p VALUES (%d, %d, 'c%d')" % (client, client * 10 ** 6 + run * 1000 + number, low, client))
        elif kind < 0.85:
            lines.append('write %d UPDATE p SET age = %d WHERE age = %d' % (client, low, chance.randrange(150)))
        else:
            lines.append('cut %d' % client if kind < 0.87 else 'resume %d' % client)
    return lines


class Clients(threading.Thread):
    """Runs of one client, one behind the other, until they are to end."""

    def __init__(self, program, cluster, address, client, seed, ending):
        super().__init__()
        self.words = [program, 'client', '--id', str(client), '--schema', cluster.folder / 'postgres.schema', address]
        self.client, self.chance, self.ending, self.folder = client, random.Random(seed), ending, cluster.folder
        self.runs = []

    def run(self):
        while not self.ending.is_set():
            self.wait()
            script = script_of(self.chance, self.client, len(self.runs))
            path = self.folder / ('script.%d' % self.client)
            path.write_text(''.join(line + '\n' for line in script))
            done = subprocess.run(self.words + [path], stdin=subprocess.DEVNULL, capture_output=True, timeout=120)
            self.runs.append((script, done))

    def wait(self):
        """Until a session can begin."""
        while not self.ending.is_set():
            try:
                stream = dial(self.words[-1])
                stream.link.sendall(frames.frame(frames.Hello(self.client, 0)))
                welcome = stream.next()
                stream.close()
                if welcome:
                    return
            except (OSError, Broken):
                pass
            time.sleep(0.05)


class Writes(threading.Thread):
    """A psql that writes, and is called anew where the database went."""

    def __init__(self, url, ending):
        super().__init__()
        self.url, self.ending, self.accepted = url, ending, []

    def run(self):
        psql, key, chance = Psql(self.url), 0, random.Random(0)
        while not self.ending.is_set():
            key += 1
            try:
                said = psql.do("BEGIN; INSERT INTO p VALUES (%d, %d, 'psql'); UPDATE p SET age = %d WHERE id = %d; COMMIT"
                               % (key, chance.randrange(150), chance.randrange(150), chance.randrange(key) + 1))
                self.accepted += [] if said else [key]
            except (Broken, OSError):
                time.sleep(0.2)
                psql = Psql(self.url)
            time.sleep(0.005)
        psql.close()


# the log drops old versions, so a table of the test's own keeps them
KEPT = """CREATE TABLE kept (version bigint, seq bigint, before json, after json);
CREATE FUNCTION keep() RETURNS trigger LANGUAGE plpgsql AS
    'BEGIN INSERT INTO public.kept VALUES (NEW.version, NEW.seq, NEW.before, NEW.after); RETURN NULL; END';
CREATE FUNCTION begin() RETURNS trigger LANGUAGE plpgsql AS 'BEGIN INSERT INTO public.kept VALUES (NEW.version); RETURN NULL; END';
CREATE TRIGGER keep AFTER INSERT ON naworuke.change FOR EACH ROW EXECUTE FUNCTION keep();
CREATE TRIGGER begin AFTER INSERT ON naworuke.version FOR EACH ROW EXECUTE FUNCTION begin()"""


def history(cluster):
    """Each version with its rows, which change as it goes on."""
    rows, last = {}, 0
    for line in cluster.psql('SELECT json_build_array(version, before, after) FROM kept ORDER BY version, seq NULLS FIRST').splitlines():
        version, before, after = json.loads(line)
        if version > last:
            yield last, rows
            last = version
        if before:
            rows.pop(before[0], None)
        if after:
            rows[after[0]] = (after[0], after[1], after[2].encode())
    yield last, rows


def told_by(script, done):
    """What a run tells of versions: each with a line of the script, and with the rows of its answer, or None of an INSERT that was written."""
    lines = [line.split(' ', 3) for line in done.stdout.decode().splitlines()]
    for place, (number, word, *rest) in enumerate(lines):
        line = script[int(number) - 1]
        if word == 'answer':
            version, count = map(int, rest[1].split(' ')[1:])
            yield version, line, [' '.join(each[2:]) for each in lines[place + 1:place + 1 + count]]
        if word == 'toclient' and rest[1].startswith('written') and 'INSERT' in line:
            yield int(rest[1].split(' ')[2]), line, None


def run_fault(script, done):
    """What is wrong with a run by itself, or None."""
    if done.returncode not in (0, 5) or done.stderr not in (b'', b'link\n'):
        return 'status %d, %r' % (done.returncode, done.stderr)
    versions = [version for version, _, rows in told_by(script, done) if rows is not None]
    return None if versions == sorted(versions) else 'versions fall: %s' % versions


def told_fault(rows, version, line, got):
    """What is wrong with what was told of a version with these rows, or None."""
    if got is None:
        key = int(line.split('(')[1].split(',')[0])
        return None if key in rows else '%s is not in version %d' % (line, version)
    want = list(reader.Reader(line.split(' ', 2)[2], [TABLE]).query().rows([rows]))
    return None if got == want else '%s: at version %d got %s, wanted %s' % (line, version, got[:9], want[:9])


def results(program, cluster, moments, clients=4, seed=1):
    """A name and what was wrong, for all of it."""
    chance, ending = random.Random(seed), threading.Event()
    with Gateway(cluster, CREATE + '\n', words=['--first', '0']) as gateway:
        cluster.psql(KEPT)
        writes = Writes(cluster.url(), ending)
        threads = [Clients(program, cluster, gateway.address, n, seed * 100 + n, ending) for n in range(1, clients + 1)] + [writes]
        for thread in threads:
            thread.start()
        for _ in range(moments):
            time.sleep(chance.uniform(0.1, 1.5))
            if chance.random() < 0.5:
                gateway.kill()
                gateway.start()
            else:
                cluster.stop('immediate')
                cluster.start()
        time.sleep(1)
        ending.set()
        for thread in threads:
            thread.join()
    runs = [run for thread in threads[:-1] for run in thread.runs]
    told, faults = collections.defaultdict(list), [fault for fault in (run_fault(*run) for run in runs) if fault]
    for version, line, got in [each for run in runs for each in told_by(*run)]:
        told[version].append((line, got))
    count, version, rows = sum(map(len, told.values())), 0, {}
    for version, rows in history(cluster):
        faults += [fault for fault in (told_fault(rows, version, *each) for each in told.pop(version, [])) if fault]
    faults += ['no version: %s' % told] if told else []
    faults += ['lost: %d' % key for key in writes.accepted if key not in rows]
    now = map(json.loads, cluster.psql('SELECT json_build_array(id, age, name) FROM p').splitlines())
    if {row[0]: (row[0], row[1], row[2].encode()) for row in now} != rows:
        faults.append('the log has not all that was written')
    failed = sum(b'fail' in done.stdout for _, done in runs)
    yield '%d kills, %d versions, %d runs (%d with a link that failed), %d answers and writes of clients, %d of psql' % (
        moments, version, len(runs), failed, count, len(writes.accepted)), faults[0] if faults else None
