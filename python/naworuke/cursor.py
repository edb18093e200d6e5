"""A cursor: a statement, and the rows of its answer."""
from .faults import InterfaceError, ProgrammingError
from .sql import filled, outputs_of


class Cursor:
    """Statements, and the rows that they answer."""

    arraysize = 1

    def __init__(self, connection):
        self.connection = connection
        self._clear()

    def _clear(self):
        self.description, self.rowcount, self.version = None, -1, None
        self._left = None

    def _open(self):
        if self.connection is None:
            raise InterfaceError('the cursor is closed')
        return self.connection

    def execute(self, text, parameters=()):
        """Asks a query, or sends a write. A ? stands for a parameter, an int or a str. Answers the cursor."""
        connection = self._open()
        self._clear()
        if text.lstrip()[:6].upper() != 'SELECT':
            connection._write(filled(text, parameters))
            return self
        connection._query(filled(text, parameters))
        outputs = outputs_of(text, connection.tables)
        rows = connection._rows(outputs)
        self.description = [(name, str if is_text else int, None, None, None, None, None) for name, is_text in outputs]
        self.rowcount, self.version = len(rows), connection.told.version
        self._left = iter(rows)
        return self

    def executemany(self, text, lists):
        """Executes the text once for each list of parameters. Answers the cursor."""
        for parameters in lists:
            self.execute(text, parameters)
        return self

    def _rows(self):
        self._open()
        if self._left is None:
            raise ProgrammingError('there is no answer')
        return self._left

    def __iter__(self):
        return self._rows()

    def fetchone(self):
        return next(self._rows(), None)

    def fetchmany(self, size=None):
        rows = self._rows()
        return [row for _, row in zip(range(self.arraysize if size is None else size), rows)]

    def fetchall(self):
        return list(self._rows())

    def setinputsizes(self, sizes):
        """Does nothing."""

    def setoutputsize(self, size, column=None):
        """Does nothing."""

    def close(self):
        self.connection, self._left = None, None

    def __enter__(self):
        return self

    def __exit__(self, *fault):
        self.close()
