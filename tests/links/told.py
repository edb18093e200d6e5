"""The program `client` and a peer that says what it is told, by no rules. What must come of it stands beside each case."""
# it makes the modules of tests/oracle known
from runs import ending_fault, run

import reader
from frames import Ask, Hello, Holding, Lapse, Notice, Part, Refused, Reply, Resume, Rows, Tell, Welcome, frame
from wanted import points_of

SCHEMA = ('CREATE TABLE p (id INT PRIMARY KEY CHECK (id BETWEEN 0 AND 999), age INT CHECK (age BETWEEN 0 AND 150), name TEXT)\n'
          'CREATE TABLE q (no INT PRIMARY KEY CHECK (no BETWEEN 0 AND 99), title TEXT)\n')
QUERY = 'query 1 SELECT id, age FROM p WHERE age BETWEEN 30 AND 40'


class Says:
    """A server that says what it is told: to each request the next of these lists of frames, whatever it asks."""

    def __init__(self, replies):
        self.replies = list(replies)

    def misfit(self, session, request):
        return None

    def take(self, session, request):
        return session, self.replies.pop(0) if self.replies else []


def difference(got, wanted):
    """Where two lists of lines differ first, or None."""
    if got == wanted:
        return None
    place = next((n for n, pair in enumerate(zip(got, wanted)) if pair[0] != pair[1]), min(len(got), len(wanted)))
    return 'line %d: got %r, wanted %r' % (place + 1, got[place:place + 3], wanted[place:place + 3])


def told_fault(program, script, replies, lines, ending=(0, ''), budgets=(None, None), **words):
    """What is wrong with a run whose peer sends these replies, or None."""
    done, _ = run(program, script, Says(replies), budgets, schema=SCHEMA, **words)
    return ending_fault(done, ending) or difference(done.stdout.decode().splitlines(), lines)


# ---- a session that begins anew

ANSWERED = ['0 resume 1 sent 0', '0 toclient 1 welcome 4 fresh', '1 ask 1 1 fresh 1', '1 part p (id,age) {age 30..40}', '1 query 1 asked 1',
            '1 toclient 1 laid', '1 answer 1 1 4 1', '1 row 1, 35', '1 held 1 p (id,age) {age 30..40}', '1 toclient 1 answered',
            '2 cut 1 1', '3 resume 1 sent 2']
ASKED_ANEW = ['4 ask 1 3 fresh 1', '4 part p (id,age) {age 30..40}', '4 query 1 asked 3', '4 answer 1 2 9 0',
              '4 held 1 p (id,age) {age 30..40}', '4 toclient 1 answered']
COVERED = ['4 answer 1 2 7 1', '4 row 1, 36', '4 query 1 answered 2']
LAID, DROP = '3 toclient 1 laid', '3 drop 1 %s p (id,age) 1 {age 30..40}'
TOLD = [Tell(0, 1, (1, 36, b'ann'))]

# what comes of a Resume, the lines of it, and those of the query behind
AFRESH = {
    'nothing is kept': ([Welcome(2, 4, False)], [DROP % 'fresh', '3 toclient 1 welcome 4 fresh'], ASKED_ANEW),
    'a notice, and nothing is kept': ([Notice(6, TOLD), Welcome(2, 7, False)], [LAID, DROP % 'fresh', '3 toclient 1 welcome 7 fresh'], ASKED_ANEW),
    'a Lapse, and nothing is kept': ([Lapse(6), Welcome(2, 6, False)], [LAID, DROP % 'lapsed', '3 toclient 1 welcome 6 fresh'], ASKED_ANEW),
    'a Lapse and a notice, and nothing is kept': ([Lapse(6), Notice(7, TOLD), Welcome(2, 8, False)],
                                                  [LAID, LAID, DROP % 'lapsed', '3 toclient 1 welcome 8 fresh'], ASKED_ANEW),
    'a notice and a Lapse, and nothing is kept': ([Notice(5, TOLD), Lapse(6), Welcome(2, 6, False)],
                                                  [LAID, LAID, DROP % 'lapsed', '3 toclient 1 welcome 6 fresh'], ASKED_ANEW),
    'a Lapse, and all is kept': ([Lapse(6), Welcome(2, 6, True)], [LAID, DROP % 'lapsed', '3 toclient 1 welcome 6 kept'], ASKED_ANEW),
    'a notice, and all is kept': ([Notice(6, TOLD), Welcome(2, 7, True)], [LAID, '3 toclient 1 welcome 7 kept'], COVERED),
}


def afresh_fault(program, welcome, lines, behind):
    replies = [[Welcome(0, 4, False)], [Rows(1, 0, [(1, 35)]), Reply(1, 4)], welcome, [Reply(3, 9)]]
    return told_fault(program, [QUERY, 'cut 1', 'resume 1', QUERY], replies, ANSWERED + lines + behind)


# ---- what a Resume names

# classes of two tables, of different columns, and of different stamps: the queries in lines 4 and 5 are covered, and cut what is held
HOLDING = ['query 64 SELECT title FROM q WHERE no BETWEEN 10 AND 20', 'query 64 SELECT age FROM p WHERE age BETWEEN 30 AND 40',
           "query 64 SELECT name FROM p WHERE name >= 'b'", 'query 64 SELECT id FROM p WHERE age BETWEEN 35 AND 37',
           'query 64 SELECT no FROM q WHERE no = 10', 'cut 64', 'resume 64']
REQUESTS = [
    Hello(64, 0),
    Ask(1, True, [Part(1, [0, 1], [((10, 20), None)])]),
    Ask(2, False, [Part(0, [0, 1], [(None, (30, 40), None)])]),
    Ask(3, False, [Part(0, [0, 2], [(None, None, (b'b', None))])]),
    Resume(64, 4, 8, [Holding(0, [0, 1], [(None, (30, 34), None), (None, (38, 40), None)]), Holding(0, [0, 1], [(None, (35, 37), None)]),
                      Holding(0, [0, 2], [(None, None, (b'b', None))]), Holding(1, [0, 1], [((11, 20), None)]),
                      Holding(1, [0, 1], [((10, 10), None)])]),
]


def with_points(request, tables):
    """A request with the points of its rects, which may be cut in any way."""
    if isinstance(request, Ask):
        return request._replace(parts=[part._replace(rects=points_of(part.rects, tables[part.table])) for part in request.parts])
    if isinstance(request, Resume):
        return request._replace(holdings=[held._replace(rects=points_of(held.rects, tables[held.table])) for held in request.holdings])
    return request


def holdings_fault(program):
    """A Resume names the points of each class by themselves under its columns, in class order, and the version of the last message."""
    replies = [[Welcome(0, 4, False)], [Reply(1, 4)], [Reply(2, 8)], [Reply(3, 8)], [Welcome(4, 8, True)]]
    done, peer = run(program, HOLDING, Says(replies), [None, None], client=64, schema=SCHEMA)
    tables, _ = reader.read_script((SCHEMA + '\n'.join(line.replace(' 64', ' 1') for line in HOLDING)).encode())
    got = [with_points(request, tables) for connection in peer.connections for request in connection.requests]
    wanted = [with_points(request, tables) for request in REQUESTS]
    differing = next((pair for pair in zip(got + [None] * len(wanted), wanted) if pair[0] != pair[1]), None)
    return ending_fault(done, (0, '')) or (None if got == wanted else 'sent, wanted: %s' % (differing,))


# ---- why a write is refused

WHYS = ['long-text', 'bad-token', 'grammar', 'deep', 'unknown-table', 'unknown-column', 'ambiguous', 'wrong-type', 'out-of-domain',
        'not-key-join', 'repeated', 'wrong-count', 'mixed', 'too-wide', 'too-many-tables', 'not-a-write', 'not-a-query', 'duplicate-key',
        'domain-cell', 'long-cell', 'key-change', 'table-full', 'too-many-changes', 'duplicate-name', 'too-many-columns', 'no-key',
        'bad-domain', 'bad-header', 'bad-record', 'bad-number', 'bad-utf8']


def whys_fault(program):
    """Each number of a fault says its word, and the place stays as it is."""
    replies = [[Welcome(0, 4, False)]] + [[Refused(n, n, 2 ** 32 - n)] for n in range(1, len(WHYS) + 1)]
    lines = ['0 resume 1 sent 0', '0 toclient 1 welcome 4 fresh']
    for n, why in enumerate(WHYS, 1):
        lines += ['%d write 1 sent %d' % (n, n), '%d toclient 1 refused %d %s %d' % (n, n, why, 2 ** 32 - n)]
    return told_fault(program, ['write 1 x'] * len(WHYS), replies, lines)


# ---- a peer without an end

MOST_FRAMES = 1000000
LONG = 'CREATE TABLE t (k INT PRIMARY KEY CHECK (k BETWEEN 0 AND 9999999))\n'
ALL_OF_T = ['1 ask 1 1 fresh 1', '1 part t (k) {}', '1 query 1 asked 1']
# one row is held, the rest is asked, and after a Lapse all
ANEW = ['1 ask 1 1 fresh 1', '1 part t (k) {k 0..0}', '1 query 1 asked 1', '1 answer 1 1 0 0', '1 held 1 t (k) {k 0..0}', '1 toclient 1 answered',
        '2 ask 1 2 more 1', '2 part t (k) {k 1..9999999}', '2 query 1 asked 2']
ASKED_AGAIN = ['2 drop 1 lapsed t (k) 1 {k 0..0}', '2 ask 1 3 fresh 1', '2 part t (k) {}', '2 toclient 1 asked 3']


def rows_apart(request, count):
    """So many frames for the request as one list of bytes, each with a row."""
    first = frame(Rows(request, 0, [(0,)]))[:-8]
    return b''.join(first + key.to_bytes(8, 'big') for key in range(1, count + 1))


def many_fault(program, script, replies, lines, ending):
    """What is wrong with a run whose peer gives up behind these replies."""
    replies = [[frame(Welcome(0, 0, False))]] + replies
    size = sum(len(frame(message)) for reply in replies for message in reply)
    done, _ = run(program, script, Says(replies), [size], schema=LONG, seconds=120)
    wanted = ['0 resume 1 sent 0', '0 toclient 1 welcome 0 fresh'] + lines
    return ending_fault(done, ending) or difference(done.stdout.decode().splitlines(), wanted)


def million_fault(program, count, behind, ending):
    """So many frames come for one request."""
    lines = ALL_OF_T + ['1 toclient 1 laid'] * MOST_FRAMES + behind
    return many_fault(program, ['query 1 SELECT k FROM t'], [[rows_apart(1, count)]], lines, ending)


def second_million_fault(program):
    """A Lapse, rows and the reply of a first ask are half a million frames; one more comes for the second ask, which counts anew."""
    half = MOST_FRAMES // 2
    replies = [[Reply(1, 0)], [Lapse(1), rows_apart(2, half - 2), Reply(2, 1)], [rows_apart(3, half + 1)]]
    lines = ANEW + ['2 toclient 1 laid'] * (half - 1) + ASKED_AGAIN + ['2 toclient 1 laid'] * (half + 1) + ['2 fail 1 query 2', '2 cut 1 1']
    script = ['query 1 SELECT k FROM t WHERE k = 0', 'query 1 SELECT k FROM t']
    return many_fault(program, script, replies, lines, (5, 'link\n'))


# ---- all of them

def cases(program):
    """A name and what tells what is wrong, for each case."""
    for name, words in AFRESH.items():
        yield 'client, resumed: ' + name, lambda words=words: afresh_fault(program, *words)
    yield 'client, what a Resume names', lambda: holdings_fault(program)
    yield 'client, writes refused for each reason', lambda: whys_fault(program)
    cut = ['1 fail 1 query 1', '1 cut 1 1']
    yield 'client, a million frames', lambda: million_fault(program, MOST_FRAMES, cut, (5, 'link\n'))
    yield 'client, a million frames and one', lambda: million_fault(program, MOST_FRAMES + 1, [], (11, 'too many frames\n'))
    yield 'client, a million frames and one, for two asks', lambda: second_million_fault(program)
