"""A cluster of PostgreSQL of its own, in a temporary folder, and a gateway over it."""
import glob
import os
import pathlib
import shutil
import signal
import socket
import subprocess
import tempfile

HERE = pathlib.Path(__file__).resolve().parent
SETTINGS = '-c listen_addresses= -c max_connections=200 -c fsync=%s -c unix_socket_directories=%s -c logging_collector=off'


def binaries():
    """The folder of initdb and postgres, or None where they are not."""
    found = [path for path in [shutil.which('initdb')] if path] + sorted(glob.glob('/usr/lib/postgresql/*/bin/initdb'), reverse=True)
    return pathlib.Path(found[0]).parent if found else None


class Cluster:
    """PostgreSQL, listening at a socket in its folder alone. Root has it run as postgres."""

    def __init__(self, fsync='off'):
        self.folder = pathlib.Path(tempfile.mkdtemp(prefix='gateway.'))
        self.folder.chmod(0o755)
        self.fsync, self.server = fsync, None
        self.user = 'postgres' if os.getuid() == 0 else None
        if self.user:
            shutil.chown(self.folder, self.user, self.user)
        self.call('initdb', '-D', self.folder / 'data', '-E', 'UTF8', '--locale=C', '-U', 'postgres', '-A', 'trust', '--no-sync')
        self.start()

    def call(self, name, *words):
        subprocess.run([binaries() / name, *words], check=True, user=self.user, cwd='/', stdout=subprocess.DEVNULL, stderr=subprocess.DEVNULL)

    def start(self):
        options = SETTINGS % (self.fsync, self.folder)
        self.call('pg_ctl', '-D', self.folder / 'data', '-w', '-o', options, '-l', self.folder / 'log', 'start')

    def stop(self, how='fast'):
        self.call('pg_ctl', '-D', self.folder / 'data', '-w', '-m', how, 'stop')

    def url(self, base='postgres'):
        return 'postgresql://postgres@/%s?host=%s' % (base, self.folder)

    def psql(self, text, base='postgres'):
        """What statements print, one row a line."""
        done = subprocess.run(['psql', '-X', '-q', '-A', '-t', '-v', 'ON_ERROR_STOP=1', '-d', self.url(base)], input=text, text=True, capture_output=True)
        if done.returncode:
            raise RuntimeError(done.stderr)
        return done.stdout

    def __enter__(self):
        return self

    def __exit__(self, *_):
        try:
            self.stop('immediate')
        except subprocess.CalledProcessError:
            pass  # it does not run
        shutil.rmtree(self.folder, ignore_errors=True)


def free_address():
    with socket.socket() as some:
        some.bind(('127.0.0.1', 0))
        return '127.0.0.1:%d' % some.getsockname()[1]


class Gateway:
    """A gateway over a base of a cluster, at an address of its own."""

    def __init__(self, cluster, schema, base='postgres', words=(), tell=False, address=None):
        self.address = address or free_address()
        self.schema = cluster.folder / ('%s.schema' % base)
        self.schema.write_text(schema)
        self.words = [HERE.parent / 'run', '--schema', self.schema, '--database', cluster.url(base), *words, *(['--tell'] if tell else []), self.address]
        self.process = None
        self.start()

    def start(self):
        self.process = subprocess.Popen(self.words, stdout=subprocess.PIPE, stderr=subprocess.PIPE, text=True)
        if self.process.stdout.readline() != 'listening\n':
            raise RuntimeError(self.process.communicate()[1])

    def kill(self):
        self.process.kill()
        return self.process.communicate()

    def end(self):
        """What it wrote to the error output."""
        self.process.send_signal(signal.SIGTERM)
        return self.process.communicate(timeout=20)[1]

    def __enter__(self):
        return self

    def __exit__(self, *_):
        self.kill()
