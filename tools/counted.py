"""What the lines of a trace say of each client, as docs/FORMATS.md has them."""
import collections
import re

# what a line brought about: in which line of the script, of which client, and how much of it
Fact = collections.namedtuple('Fact', 'line client what amount')

# a frame of rows and a reply without what is in them, and how many rows one frame has
ROWS_FRAME, REPLY, ROWS_OF_A_FRAME = 16, 21, 256
CELL = re.compile(r"(-?\d+)|'((?:''|[^'])*)'|x'([0-9a-f]*)'")


def size_of_row(cells):
    """The bytes of a row in a frame."""
    return 1 + sum(9 if number else 2 + (len(hexed) // 2 if hexed else len(text.replace("''", "'"))) for number, text, hexed in CELL.findall(cells))


def facts_of(trace):
    """What each line brought about."""
    client = None
    for line in trace:
        number, word, *rest = line.split(' ', 4)
        number = int(number)
        if word == 'query':
            yield Fact(number, rest[0], 'query ' + rest[1], 1)
        elif word == 'ask':
            yield Fact(number, rest[0], 'ask', 1)
        elif word == 'drop':
            yield Fact(number, rest[0], 'drop ' + rest[1], 1)
        elif word == 'answer':
            client, rows = rest[0], int(rest[2].split(' ')[1])
            yield Fact(number, client, 'rows in answers', rows)
            yield Fact(number, client, 'bytes of bare answers', REPLY + ROWS_FRAME * -(-rows // ROWS_OF_A_FRAME))
        elif word == 'row':
            yield Fact(number, client, 'bytes of bare answers', size_of_row(line.split(' ', 2)[2]))


def sums_of(facts):
    """The amounts by client and what."""
    sums = collections.Counter()
    for fact in facts:
        sums[fact.client, fact.what] += fact.amount
    return sums
