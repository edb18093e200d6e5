"""Statements, right and wrong, as requests of one connection: each must come out as it does in a replay of the built program."""
import random
import re
import subprocess

import links  # noqa: F401, it makes the modules of tests/links and tests/oracle known
from links import dial
from postgres import Gateway

import frames
import scripts
from judged import WORDS

EXTRA = 'CREATE TABLE big (k INT PRIMARY KEY, v INT CHECK (v BETWEEN -5 AND 5), name TEXT)'
SCHEMA = ''.join(line + '\n' for line in scripts.CREATES + [EXTRA])
TOKENS = re.compile(r"'(?:''|[^'])*'|\w+|<=|>=|<>|!=|\s+|.", re.DOTALL)
PIECES = ['(', ')', ',', ';', '.', '*', '-', '=', '<', '>=', '<>', '!=', 'NOT', 'not', 'AND', 'OR', 'IN', 'IS', 'NULL', 'LIKE', 'BETWEEN', 'WHERE', 'SET', 'VALUES', 'FROM',
          'TABLE', 'x', 'reading', 'label', 'id', 'title', 'no', '0', '7', '123456789012345678', '1234567890123456789', '1099511627775', '1099511627776',
          "'a'", "'a%'", "'%'", "'_%'", "'", "''''", "'\u00e9'", '\u00e9', "'" + 'a' * 120 + "'", "'" + 'a' * 121 + "'",
          'a' * 64, 'a' * 65, '"', '#', ' ', '\t']
WHOLE = ['SELECT id FROM reading', 'SELECT * FROM reading JOIN shelf ON reading.id = shelf.code WHERE NOT room = 10;', 'SELECT id FROM reading INNER shelf',
         'CREATE TABLE z (a INT PRIMARY KEY)', 'CREATE TABLE z (a INT)', 'CREATE TABLE z (a INT PRIMARY KEY CHECK (b BETWEEN 0 AND 1))',
         'CREATE TABLE z (a INT PRIMARY KEY NOT NULL CHECK (a BETWEEN -1 AND 1), t TEXT NOT NULL NOT NULL)', 'CREATE TABLE z (t TEXT PRIMARY KEY PRIMARY KEY)',
         'INSERT INTO reading (level, place, id) VALUES (1, 0, 3)', 'INSERT INTO reading (level, place) VALUES (1, 0)',
         'INSERT INTO reading (level, level, id) VALUES (1, 0, 3)', 'INSERT INTO reading VALUES (1, 0)', "INSERT INTO reading VALUES (1, 'a', 0)",
         'INSERT INTO reading VALUES (5, 0, 0), (5, 0, 9)', 'INSERT INTO reading VALUES (5, 0, 9), (5, 0, 0)', 'UPDATE reading SET id = 4',
         'UPDATE reading SET place = 9 WHERE id = 77', 'UPDATE reading SET place = 1, place = 2', 'UPDATE reading SET place = 1, level = 2 WHERE shelf.id = 1',
         'UPDATE reading SET place = 1 WHERE reading.place = 1 AND reading.none = 2',
         "DELETE FROM label WHERE title LIKE 'a_%'", "DELETE FROM label WHERE no LIKE '1%'",
         'DELETE FROM big WHERE ' + 'NOT ' * 64 + 'k = 1', 'DELETE FROM big WHERE ' + 'NOT ' * 65 + 'k = 1', 'DELETE FROM big WHERE ' + '(' * 70 + 'k = 1',
         'INSERT INTO big VALUES ' + ', '.join("(%d, 0, '')" % k for k in range(4000)), 'UPDATE big SET v = 5', 'DELETE FROM big',
         'INSERT INTO reading VALUES (5, NULL, 9)', 'INSERT INTO reading VALUES (NULL, 0, 9)', 'UPDATE reading SET level = NULL WHERE place = 1',
         'DELETE FROM reading WHERE level IS NULL', 'UPDATE reading SET place = 0 WHERE NOT level IS NULL AND place IS NOT NULL', 'DELETE FROM reading WHERE level = NULL',
         'CREATE TABLE z (a INT NULL PRIMARY KEY)', 'CREATE TABLE z (a INT PRIMARY KEY, t TEXT NOT NULL NULL)', 'CREATE TABLE z (a INT PRIMARY KEY, t TEXT NULL)',
         'UPDATE big SET v = 1 WHERE k = ' + '9' * 18, 'DELETE FROM big WHERE k > 1099511627775', "UPDATE big SET name = '%s'" % ('b' * 121)]
MANY = ['INSERT INTO big VALUES ' + ', '.join("(%d, 0, '')" % k for k in range(first, first + 4000)) for first in range(0, 68000, 4000)]
MANY += ['UPDATE big SET v = 5', 'UPDATE big SET v = 5 WHERE k < 9999', 'UPDATE big SET v = 5 WHERE k <= 20000', 'DELETE FROM big WHERE k >= 9999',
         "INSERT INTO big VALUES (-1, 0, '')", "INSERT INTO big VALUES " + ', '.join("(%d,0,'')" % k for k in range(-1541, -1))]


class Maker(scripts.Maker):
    """Statements of a seed: most are good, or were it before a slip or two."""

    def statement(self):
        kind = self.random.random()
        if kind < 0.1:
            return self.random.choice(WHOLE)
        made = self.good()
        for _ in range(self.random.choice([0, 0, 1, 1, 1, 2])):
            made = self.slip(made)
        return made.replace('\n', ' ').strip() or ';'

    def good(self):
        number, kind = self.random.choice([0, 0, 1, 1, 4]), self.random.random()
        if kind < 0.4:
            return self.insert(number).text
        if kind < 0.75:
            return self.update(number).text
        return 'DELETE FROM %s WHERE %s' % (scripts.TABLES[number].name, self.condition(number).text)

    def slip(self, text):
        tokens = TOKENS.findall(text)
        place, kind = self.random.randrange(len(tokens)), self.random.random()
        if kind < 0.3:
            del tokens[place]
        elif kind < 0.6:
            tokens.insert(place, self.random.choice(PIECES))
        elif kind < 0.9:
            tokens[place] = self.random.choice(PIECES)
        else:
            tokens[place:] = []
        return ''.join(tokens)


def replayed(program, texts):
    """How each statement comes out in a replay: its version, or the word and place of its fault."""
    script = SCHEMA + ''.join('exec %s\n' % text for text in texts)
    done = subprocess.run([program, 'replay', '-'], input=script.encode(), capture_output=True, check=True)
    return [tuple(line.split(' ')[2:]) for line in done.stdout.decode().splitlines()]


def asked(stream, texts):
    """How each comes out at the gateway, over one connection."""
    stream.link.sendall(frames.frame(frames.Hello(1, 0)))
    stream.next()
    for number, text in enumerate(texts, 1):
        stream.link.sendall(frames.frame(frames.Write(number, text.encode())))
        got, _ = stream.next()
        yield ('version', str(got.version)) if isinstance(got, frames.Written) else ('refused', WORDS[got.why], str(got.place))


def results(program, cluster, count, with_many=False):
    maker = Maker(49)
    texts = WHOLE + [maker.statement() for _ in range(count)] + (MANY if with_many else [])
    cluster.psql('CREATE DATABASE statements')
    with Gateway(cluster, SCHEMA, 'statements', ['--first', '0', '--verbose']) as gateway:
        stream = dial(gateway.address)
        wrong = [(text, got, want) for text, got, want in zip(texts, asked(stream, texts), replayed(program, texts)) if got != want]
        stream.close()
    yield '%d statements' % len(texts), '; '.join('%.200s: %s, wanted %s' % each for each in wrong[:5]) or None
