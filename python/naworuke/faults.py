"""The exceptions of Python's database interface, and which of them a fault is."""

WORDS = ('long-text bad-token grammar deep unknown-table unknown-column ambiguous wrong-type out-of-domain not-key-join repeated wrong-count '
         'mixed too-wide too-many-tables not-a-write not-a-query duplicate-key domain-cell long-cell key-change table-full too-many-changes '
         'duplicate-name too-many-columns no-key bad-domain bad-header bad-record bad-number bad-utf8 bad-null null-cell').split()


class Warning(Exception):
    pass


class Error(Exception):
    pass


class InterfaceError(Error):
    pass


class DatabaseError(Error):
    pass


class DataError(DatabaseError):
    pass


class OperationalError(DatabaseError):
    pass


class IntegrityError(DatabaseError):
    pass


class InternalError(DatabaseError):
    pass


class ProgrammingError(DatabaseError):
    pass


class NotSupportedError(DatabaseError):
    pass


OF_ROWS = {'duplicate-key': IntegrityError, 'null-cell': IntegrityError, 'key-change': IntegrityError, 'table-full': IntegrityError, 'domain-cell': DataError,
           'long-cell': DataError, 'out-of-domain': DataError, 'too-many-changes': OperationalError}


def of_text(why, at):
    """The error of a text that has a fault: its word and its place, as docs/FORMATS.md has them."""
    word = WORDS[why - 1] if 1 <= why <= len(WORDS) else str(why)
    return OF_ROWS.get(word, ProgrammingError)('%s %d' % (word, at))
