"""The package as a program uses it."""
import naworuke
from serving import Serving

SCHEMA = 'CREATE TABLE sale (id INT PRIMARY KEY, amount INT, note TEXT NULL)\nCREATE TABLE kind (code INT PRIMARY KEY, name TEXT)\n'
ROWS = {'sale': 'id,amount,note\n1,100,one\n2,200,two\n3,300,three\n', 'kind': 'code,name\n100,low\n300,high\n'}
STRANGE = ["it's", "''", '; DELETE FROM sale', 'a\nb', 'a\r\nb', '\0', '?', 'größe', '', "' OR '1' = '1", '\u2028', '-- x']


def ask(connection, text, parameters=()):
    return connection.cursor().execute(text, parameters).fetchall()


def raised(kind, call, *words, **named):
    """The exception of that kind, and of no other, which the call raises."""
    try:
        call(*words, **named)
    except naworuke.Error as fault:
        assert type(fault) is kind, repr(fault)
        return str(fault)
    raise AssertionError('%s is not raised' % kind.__name__)


def reads(connection, server):
    cursor = connection.cursor()
    cursor.execute('SELECT id, note FROM sale WHERE amount BETWEEN ? AND ?', [100, 200])
    assert [column[:2] for column in cursor.description] == [('id', int), ('note', str)] and cursor.rowcount == 2
    assert cursor.fetchone() == (1, 'one') and cursor.fetchmany(5) == [(2, 'two')] and cursor.fetchone() is None
    assert list(cursor.execute('SELECT * FROM kind')) == [(100, 'low'), (300, 'high')]
    assert ask(connection, 'SELECT kind.name, id FROM sale JOIN kind ON amount = code') == [('low', 1), ('high', 3)]
    before = connection.stats()
    assert ask(connection, 'SELECT amount FROM sale WHERE amount < 150') == [(100,)]
    after = connection.stats()
    assert (after['answered'], after['asked']) == (before['answered'] + 1, before['asked']) and after['bytes'] == before['bytes']
    assert {region[0] for region in connection.held()} == {'sale', 'kind'} and after['kept'] == sum(r[3] for r in connection.held())
    assert connection.explain('SELECT id FROM sale WHERE amount < ?', [150])[-1].startswith('explain 1 ')


def writes(connection, server):
    cursor = connection.cursor()
    version = connection.version
    assert cursor.execute('INSERT INTO sale VALUES (?, ?, ?)', [4, -400, 'four']).description is None
    assert connection.version == version + 1
    assert ask(connection, 'SELECT note FROM sale WHERE amount = ?', [-400]) == [('four',)]
    cursor.executemany('INSERT INTO sale VALUES (?, 0, ?)', list(enumerate(STRANGE, 10)))
    for number, text in enumerate(STRANGE, 10):
        assert ask(connection, 'SELECT id, note FROM sale WHERE id = ?', [number]) == [(number, text)], text
        assert (number, text) in ask(connection, 'SELECT id, note FROM sale WHERE note = ?', [text]), text
    cursor.execute('INSERT INTO sale VALUES (?, ?, ?)', [5, -500, None])
    assert ask(connection, 'SELECT note FROM sale WHERE amount = ?', [-500]) == [(None,)]
    assert ask(connection, 'SELECT id FROM sale WHERE note IS NULL') == [(5,)]
    connection.commit()


def refuses(connection, server):
    execute = connection.cursor().execute
    assert raised(naworuke.ProgrammingError, execute, 'SELECT id FROM nowhere') == 'unknown-table 15'
    assert raised(naworuke.ProgrammingError, execute, 'SELECT id') == 'grammar 9'
    assert raised(naworuke.IntegrityError, execute, "INSERT INTO sale VALUES (1, 1, '')") == 'duplicate-key 0'
    assert raised(naworuke.ProgrammingError, execute, 'CREATE TABLE other (id INT PRIMARY KEY)') == 'not-a-write 0'
    raised(naworuke.ProgrammingError, execute, 'SELECT id FROM sale WHERE id = ?')
    raised(naworuke.ProgrammingError, execute, 'SELECT id FROM sale WHERE id = ?', [1, 2])
    raised(naworuke.DataError, execute, 'SELECT id FROM sale WHERE id = ?', [10 ** 18])
    raised(naworuke.DataError, execute, 'SELECT id FROM sale WHERE note = ?', ['\ud800'])
    assert raised(naworuke.IntegrityError, execute, 'UPDATE sale SET amount = ?', [None]) == 'null-cell 1'
    assert raised(naworuke.ProgrammingError, execute, 'SELECT id FROM sale WHERE note = NULL') == 'grammar 33'
    for value in (1.5, b'x', [1]):
        raised(naworuke.InterfaceError, execute, 'SELECT id FROM sale WHERE id = ?', [value])
    raised(naworuke.ProgrammingError, connection.cursor().fetchone)
    raised(naworuke.NotSupportedError, connection.rollback)
    raised(naworuke.ProgrammingError, connection.evict, 1000)


def cuts(connection, server):
    ask(connection, 'SELECT id, amount FROM sale')
    connection.cut()
    assert ask(connection, 'SELECT id FROM sale WHERE amount = 100') == [(1,)]
    raised(naworuke.OperationalError, connection.cursor().execute, 'SELECT note FROM sale WHERE amount = 123457')
    raised(naworuke.OperationalError, connection.cursor().execute, 'DELETE FROM kind')
    connection.resume()
    connection.resume()
    assert ask(connection, 'SELECT note FROM sale WHERE amount = 123457') == []
    connection.link.socket.shutdown(2)
    assert ask(connection, 'SELECT note FROM sale WHERE amount = 123458') == []
    assert connection.stats()['resumes'] == 3


def loses(connection, server):
    """Behind all others: the server is gone."""
    server.stop()
    raised(naworuke.OperationalError, connection.cursor().execute, 'SELECT note FROM sale WHERE amount = 123459')
    assert ask(connection, 'SELECT id FROM sale WHERE amount = 100') == [(1,)]
    connection.close()
    raised(naworuke.InterfaceError, ask, connection, 'SELECT id FROM sale')
    connection.close()


def opens(address):
    assert raised(naworuke.ProgrammingError, naworuke.connect, address, 'nothing') == 'schema: line 1 0'
    assert raised(naworuke.ProgrammingError, naworuke.connect, address, 'CREATE TABLE t (a INT)') == 'schema: line 1: no-key 0'
    raised(naworuke.InterfaceError, naworuke.connect, address, SCHEMA, client=65)
    raised(naworuke.InterfaceError, naworuke.connect, address, SCHEMA, policy='fifo')
    raised(naworuke.OperationalError, naworuke.connect, 'nowhere', SCHEMA)
    assert (naworuke.apilevel, naworuke.paramstyle) == ('2.0', 'qmark') and issubclass(naworuke.OperationalError, naworuke.DatabaseError)


def results(program):
    """A name and whether it is as it should be, for each part."""
    with Serving(program, SCHEMA, ROWS) as server:
        opens(server.address)
        connection = naworuke.connect(server.address, schema=SCHEMA)
        for part in (reads, writes, refuses, cuts, loses):
            part(connection, server)
    return None
