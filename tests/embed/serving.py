"""The command `serve` of the built program, for the time of a test."""
import pathlib
import socket
import subprocess
import tempfile


def free_port():
    with socket.socket() as one:
        one.bind(('127.0.0.1', 0))
        return one.getsockname()[1]


class Serving:
    """A server of these CREATE lines, and of these rows by the names of their tables, as CSV."""

    def __init__(self, program, schema, rows=(), log=100000, statements=''):
        self.program, self.schema, self.rows, self.log, self.statements = program, schema, dict(rows), log, statements
        self.port = free_port()
        self.address = '127.0.0.1:%d' % self.port

    def __enter__(self):
        self.folder = tempfile.TemporaryDirectory()
        folder = pathlib.Path(self.folder.name)
        (folder / 'schema').write_text(self.schema, encoding='utf-8')
        (folder / 'statements').write_text(self.statements, encoding='utf-8')
        for table, text in self.rows.items():
            (folder / table).write_text(text, encoding='utf-8')
        words = ['serve', '--log', str(self.log), '--exec', 'statements', '--schema', 'schema', self.address, '1000000']
        self.process = subprocess.Popen([str(self.program)] + words + ['%s=%s' % (table, table) for table in self.rows], cwd=str(folder),
                                        stdin=subprocess.DEVNULL, stdout=subprocess.PIPE, universal_newlines=True)
        while self.process.stdout.readline() not in ('listening\n', ''):
            pass
        return self

    def stop(self):
        """The server is gone from now on."""
        self.process.kill()
        self.process.wait()
        self.process.stdout.close()

    def __exit__(self, *fault):
        self.stop()
        self.folder.cleanup()
