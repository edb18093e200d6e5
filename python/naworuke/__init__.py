"""naworuke: queries that a cache answers where it can, in the form of Python's database interface.

    import naworuke
    with naworuke.connect('127.0.0.1:47311', schema='CREATE TABLE sale (id INT PRIMARY KEY, amount INT)') as connection:
        for row in connection.cursor().execute('SELECT id FROM sale WHERE amount < ?', [1000]):
            print(row)

docs/EMBEDDING.md says more.
"""
from .connection import Connection, connect
from .cursor import Cursor
from .faults import (DatabaseError, DataError, Error, IntegrityError, InterfaceError, InternalError, NotSupportedError, OperationalError,
                     ProgrammingError, Warning)

apilevel = '2.0'
threadsafety = 1
paramstyle = 'qmark'

# the kinds of columns
NUMBER, STRING = int, str
