"""What client and server send each other. Rows and changes are not in them: what they come to is told by the versions."""
from collections import namedtuple

# to the server
Hello = namedtuple('Hello', 'number')
Resume = namedtuple('Resume', 'number version entries')
Ask = namedtuple('Ask', 'number fresh query asked parts')  # a query with its number
AskPart = namedtuple('AskPart', 'table columns points')
Write = namedtuple('Write', 'number statement')

# to the client
Welcome = namedtuple('Welcome', 'number version kept')
Notice = namedtuple('Notice', 'version')
Rows = namedtuple('Rows', 'number')
Reply = namedtuple('Reply', 'number version')
Written = namedtuple('Written', 'number version')
Refused = namedtuple('Refused', 'number fault')
Lapse = namedtuple('Lapse', 'version')


def name_of(message):
    return type(message).__name__.lower()
