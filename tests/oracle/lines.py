"""Which lines a script may have, and where a line that it may not have goes wrong."""
import random
import re

# what stands behind the word of an event: a client, a place, or SQL
PARTS = {'exec': ['sql'], 'query': ['client', 'sql'], 'write': ['client', 'sql'], 'explain': ['client', 'sql'],
         'push': ['client'], 'toserver': ['client'], 'toclient': ['client'], 'settle': ['client'], 'cut': ['client'],
         'resume': ['client'], 'evict': ['client', 'place']}
CREATE = re.compile(rb'[ \t\r\n]*create(?![a-z0-9_])', re.IGNORECASE)


def split(script):
    """The lines of a script."""
    lines = script.replace(b'\r\n', b'\n').split(b'\n')
    return lines if lines[-1] else lines[:-1]


def bad_utf8(line):
    """Where the first sequence begins that is not UTF-8, or None."""
    try:
        line.decode()
    except UnicodeDecodeError as fault:
        return fault.start
    return None


def is_silent(line):
    return not line.strip(b' ') or line.startswith(b'#')


def fits(part, kind, clients):
    if kind == 'client':
        return re.fullmatch(rb'[0-9]{1,3}', part) is not None and 1 <= int(part) <= clients
    return re.fullmatch(rb'[0-9]{1,9}', part) is not None


def event_fault(line, clients):
    """Where the first part of an event begins that does not fit, or None."""
    word, _, rest = line.partition(b' ')
    kinds = PARTS.get(word.decode())
    if kinds is None:
        return 0
    place = len(word) + 1
    for kind in kinds:
        if place >= len(line):
            return len(line)
        if kind == 'sql':
            return None
        part, _, rest = rest.partition(b' ')
        if not fits(part, kind, clients):
            return place
        place += len(part) + 1
    return None if place > len(line) else place


def first_fault(script, clients):
    """The number of the first line that no script of so many clients may have there, with its place; or None."""
    has_event = False
    for number, line in enumerate(split(script), 1):
        place = bad_utf8(line)
        if place is None and not is_silent(line):
            is_create = CREATE.match(line) is not None
            place = (0 if has_event else None) if is_create else event_fault(line, clients)
            has_event |= not is_create
        if place is not None:
            return number, place
    return None


# lines behind an event, in a script of two clients, with the places at which they go wrong
CASES = [
    (b'querry 1 x', 0), (b'PUSH 1', 0), (b' push 1', 0), (b'exec\tDELETE FROM reading', 0), (b'push1', 0), (b'-- no comment', 0),
    (b'CREATE TABLE late (k INT PRIMARY KEY)', 0), (b' create table late (k INT PRIMARY KEY)', 0), (b'Create', 0), (b'creates 1', 0),
    (b'exec', 4), (b'exec ', 5), (b'push', 4), (b'push ', 5), (b'query', 5), (b'query ', 6), (b'query 1', 7), (b'query 1 ', 8),
    (b'evict 2', 7), (b'evict 2 ', 8), (b'write 1', 7), (b'explain 1 ', 10),
    (b'push 0', 5), (b'push 3', 5), (b'push 000', 5), (b'push 0001', 5), (b'query 9 SELECT id FROM reading', 6), (b'settle 10', 7),
    (b'push x', 5), (b'push 1x', 5), (b'push -1', 5), (b'push +1', 5), (b'toserver 1\t', 9), (b'query 1\tx', 6), (b'cut 1,2', 4),
    (b'evict 1 x', 8), (b'evict 1 -1', 8), (b'evict 1 1234567890', 8), (b'evict 3 x', 6),
    (b'push  1', 5), (b'query  1 SELECT id FROM reading', 6), (b'evict 1  0', 8), (b'toclient  1', 9),
    (b'push 1 2', 7), (b'push 1 ', 7), (b'settle 2  ', 9), (b'evict 1 0 0', 10), (b'resume 02 x', 10),
    (b'exec DELETE FROM \xff', 17), (b'\x80', 0), (b'# \xc3', 2), (b'# \xe2\x82', 2), (b'push \xc3\xa9 \xff', 8),
    (b'querry \xed\xa0\x80', 7), (b'  \xf4\x90\x80\x80', 2), (b'exec \xc3\xa9\xc0\xaf', 7), (b'push 1\r', 5), (b'push 1\r\r\npush 1', 5),
]
# lines that it may have there
GOOD = [b'', b'   ', b'#', b'# \xc3\xa9', b'push 1', b'push 02', b'push 002', b'push 1\r', b'evict 1 0', b'evict 01 123456789', b'exec x',
        b'exec  x', b'query 1  x', b'query 1 x ', b'settle 1', b'toserver 2', b'toclient 2']


def wrong_cases():
    """The cases in which the rules here say another place than the table."""
    faults = {line: first_fault(b'push 1\n' + line, 2) for line, _ in CASES}
    good = b'\n'.join(GOOD)
    return [line for line, place in CASES if faults[line] != (2, place)] + ([good] if first_fault(good, 2) else [])


# what a slip may make of the words of an event
SLIPS = [
    lambda words: words + [b'\r'],
    lambda words: [words[0] + b's'] + words[1:],
    lambda words: words[:1] + [b''] + words[1:],
    lambda words: words[:1] + [b'0'] + words[2:],
    lambda words: words[:1] + [b'9'] + words[2:],
    lambda words: words[:1] + [words[-1] + b'x'],
    lambda words: words[:2],
    lambda words: words[:1],
    lambda words: words + [b'\xc3\xa9 \xff'],
    lambda words: [b'create'] + words,
]


def spoil(seed, lines, creates):
    """The lines with a slip in one or some of those behind so many CREATE lines and an event."""
    chance = random.Random('slip %d' % seed)
    lines = list(lines)
    for number in chance.sample(range(creates + 1, len(lines)), chance.choice([1, 1, 1, 2, 3])):
        lines[number] = b' '.join(chance.choice(SLIPS)(lines[number].split(b' ')))
    return lines
