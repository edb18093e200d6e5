"""Whether the lines of a trace say what the rules want."""
import bisect
import itertools
import re

from cells import NULL

RECTS = re.compile(r'(\d+ (?:part|held|drop|probe|rest) .*?) (\{.*\})$')
SPAN = re.compile(r"(\w+) (?:(null)|(-?\d+|'(?:''|[^'])*'|x'[0-9a-f]*')\.\.(-?\d+|'(?:''|[^'])*'|x'[0-9a-f]*'|))(?:, (?=\w)|$)")


def value_of(text):
    if text.startswith("x'"):
        return bytes.fromhex(text[2:-1])
    if text.startswith("'"):
        return text[1:-1].replace("''", "'").encode()
    return int(text)


def points_of(rects, table):
    """The points of the rects that a line names, or None where they are not written as rects of the table."""
    found = set()
    for inside in rects[1:-1].split('} {'):
        points = points_of_rect(inside, table)
        if points is None:
            return None
        found.update(points)
    return found


def points_of_rect(inside, table):
    spans = SPAN.findall(inside)
    named = {name: [NULL] if null else (low, high) for name, null, low, high in spans}
    if SPAN.sub('', inside) or list(named) != [column.name for column in table.columns if column.name in named] or len(named) < len(spans):
        return None
    values = [values_of(column, named.get(column.name)) for column in table.columns]
    return None if None in values else itertools.product(*values)


def values_of(column, span):
    """The values of a span, or None where it begins or ends inside of what a value stands for, or has the whole column, NULL where it may be."""
    if span is None:
        return column.values
    if span == [NULL]:
        return span if column.is_nullable else None
    if any((end[:1] in ("'", 'x')) != column.is_text for end in span if end):
        return None
    low, high = place_of(column, value_of(span[0])), place_of(column, end_of(column, span[1]))
    if low is None or high is None or not 0 < high - low < len(column.values):
        return None
    return column.own[low:high]


def end_of(column, high):
    """Where a span ends, with no value of it from there on; None for the column's own end."""
    if column.is_text:
        return value_of(high) if high else None
    return None if value_of(high) == column.highest else value_of(high) + 1


def place_of(column, end):
    """Which of the column's values begins there; None where none does."""
    if end is None:
        return len(column.own)
    place = bisect.bisect_left(column.own, end)
    return place if place < len(column.own) and column.own[place] == end else None


def says(line, wanted, tables):
    """Whether a line of the program says what is wanted: a text, or a text and the points of a table behind it."""
    if line is None or wanted is None:
        return False
    if isinstance(wanted, str):
        return line == wanted
    match = RECTS.match(line)
    return bool(match) and match.group(1) == wanted[0] and points_of(match.group(2), tables[wanted[1]]) == wanted[2]


def numbered(number, wanted):
    """A wanted line, with the number of its script line in front."""
    return '%d %s' % (number, wanted) if isinstance(wanted, str) else ('%d %s' % (number, wanted[0]),) + wanted[1:]


def told_of(lines):
    """The lines of a trace by the numbers of their script lines."""
    told = {}
    for line in lines:
        number, _, text = line.partition(' ')
        told.setdefault(number, []).append(text)
    return told


def trace_of(world, events, lines=()):
    """What the trace of these events must be, each with its number. Lines are those of the program, which may drop all classes at times:
    only where world.py says so are they looked at."""
    told = told_of(lines)
    return [numbered(number, wanted) for number, event in events for wanted in world.lines_of(event, told.get(str(number), []))]


def shown(got, wanted, tables):
    """A wanted line as a text: where the rects alone are others, with a point that tells them apart."""
    if not isinstance(wanted, tuple):
        return wanted
    match = RECTS.match(got or '')
    points = points_of(match.group(2), tables[wanted[1]]) if match else None
    if points is None:
        return '%s and rects of %d points' % (wanted[0], len(wanted[2]))
    missing, more = sorted(wanted[2] - points), sorted(points - wanted[2])
    return '%s; points too few: %s, too many: %s' % (wanted[0], missing[:3], more[:3])


def difference(lines, wanted, tables):
    """Where the lines do not say what is wanted, or None."""
    for got, want in itertools.zip_longest(lines, wanted):
        if not says(got, want, tables):
            return 'got %.2000s\nwanted %.2000s' % (got, shown(got, want, tables))
    return None
