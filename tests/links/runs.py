"""Runs of the program `client` against the peer of this folder."""
import pathlib
import subprocess
import tempfile

from model import SCHEMA
from peer import SECONDS, Peer


def run(program, script, server, budgets, *, client=1, schema=SCHEMA, options=(), turned=None, seconds=SECONDS):
    """The client's run against a peer with this server and these budgets, and that peer. A run without an end has no status."""
    with tempfile.TemporaryDirectory() as folder:
        tables, path = pathlib.Path(folder) / 'schema', pathlib.Path(folder) / 'script'
        tables.write_text(schema, encoding='utf-8')
        path.write_text(''.join(line + '\n' for line in script), encoding='utf-8')
        with Peer(server, budgets, turned) as peer:
            words = [program, 'client', '--id', str(client), '--schema', tables, *options, peer.address, path]
            try:
                done = subprocess.run(words, stdin=subprocess.DEVNULL, capture_output=True, timeout=seconds)
            except subprocess.TimeoutExpired:
                done = subprocess.CompletedProcess(words, None, b'', b'no end in %d seconds' % seconds)
        return done, peer


def ending_fault(done, ending):
    """What is wrong with how a run ended, or None: its status and its error output must be these."""
    got = done.returncode, done.stderr.decode()
    return None if got == ending else 'ended with %r, wanted %r' % (got, ending)
