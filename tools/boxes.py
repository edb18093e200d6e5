"""Sets of points of a table, as boxes that have no point in common: of each column a span from one value to below another."""
import itertools
import pathlib
import sys

TESTS = pathlib.Path(__file__).resolve().parent.parent / 'tests'
sys.path += [str(TESTS / 'oracle'), str(TESTS / 'links')]

from cells import NULL, Null
from conditions import Both, Not
from frames import NULL_SPAN

# above each bound of texts, which has at most 121 bytes
ABOVE_TEXTS = b'\xff' * 122


class Behind(Null):
    """Where a nullable column ends: behind NULL."""

    def __gt__(self, other):
        return other is not self

    def __ge__(self, other):
        return True

    def __le__(self, other):
        return other is self


BEHIND_NULL = Behind()


def has(boxes, row):
    for box in boxes:
        for (low, high), cell in zip(box, row):
            if not low <= cell < high:
                break
        else:
            return True
    return False


def common(one, two):
    """What two boxes have in common, or None."""
    box = []
    for (low, high), (first, end) in zip(one, two):
        span = first if first > low else low, end if end < high else high
        if span[0] >= span[1]:
            return None
        box.append(span)
    return tuple(box)


def both(some, others):
    found = [common(one, two) for one in some for two in others]
    return [box for box in found if box]


def cut(box, hole):
    """What a box has outside of another."""
    if common(box, hole) is None:
        return [box]
    pieces = []
    for c, ((low, high), (first, end)) in enumerate(zip(box, hole)):
        pieces += [box[:c] + (span,) + box[c + 1:] for span in ((low, first), (end, high)) if span[0] < span[1]]
        box = box[:c] + ((max(low, first), min(high, end)),) + box[c + 1:]
    return pieces


def without(boxes, holes):
    for hole in holes:
        boxes = [piece for box in boxes for piece in cut(box, hole)]
    return boxes


def joined(boxes):
    """The same points, where neighbours that agree in all columns but one are one box."""
    for c in range(len(boxes[0]) if boxes else 0):
        spans = {}
        for box in boxes:
            spans.setdefault(box[:c] + box[c + 1:], []).append(box[c])
        boxes = [others[:c] + (span,) + others[c:] for others, found in spans.items() for span in chained(sorted(found))]
    return boxes


def chained(spans):
    """The spans, where one that begins at the end of another goes on with it."""
    chain = [spans[0]]
    for low, high in spans[1:]:
        if chain[-1][1] == low:
            chain[-1] = chain[-1][0], high
        else:
            chain.append((low, high))
    return chain


def are_same(some, others):
    return not without(some, others) and not without(others, some)


# ---- the points of a table, and those for which a condition is true

def domain_of(column):
    low = b'' if column.is_text else column.values[0]
    return low, BEHIND_NULL if column.is_nullable else end_of_values(column)


def end_of_values(column):
    """Where the values of a column end. NULL is next, where it may be."""
    if column.is_nullable:
        return NULL
    return ABOVE_TEXTS if column.is_text else column.highest + 1


def all_of(table):
    return tuple(map(domain_of, table.columns))


def boxes_of(condition, table, truth=True):
    """The points of a table for which a condition of tests/oracle is true, or false; all where there is no condition."""
    if condition is None:
        return [all_of(table)]
    if isinstance(condition, Not):
        return boxes_of(condition.inner, table, not truth)
    if isinstance(condition, Both):
        one, two = boxes_of(condition.one, table, truth), boxes_of(condition.two, table, truth)
        return one + without(two, one) if (condition.word == 'OR') == truth else both(one, two)
    return boxes_of_test(condition, table, truth)


def boxes_of_test(test, table, truth):
    column, whole = table.columns[test.column], all_of(table)
    low, high = whole[test.column]
    inside = {end for end in test.ends if low < end and (column.is_text or end <= column.highest)}
    ends = sorted(inside | {low, end_of_values(column), high})
    spans = [span for span in zip(ends, ends[1:]) if test.holds({test.column: span[0]}) is truth]
    return [whole[:test.column] + (span,) + whole[test.column + 1:] for span in spans]


# ---- rects as frames have them

def box_of(rect, table):
    """The box of a rect as frames have it: None for a whole column, both ends of numbers inside, and None for no upper end of texts."""
    def span_of(span, column):
        if span is None:
            return domain_of(column)
        if span == NULL_SPAN:
            return NULL, BEHIND_NULL
        low, high = span
        if high in (None, column.highest):
            return low, end_of_values(column)
        return low, high if column.is_text else high + 1

    return tuple(map(span_of, rect, table.columns))


def rects_of(box, table):
    """The rects of a box: several where a span goes from values on to NULL."""
    def spans_of(span, column):
        low, high = span
        if span == domain_of(column):
            return [None]
        nulls = [NULL_SPAN] * (high is BEHIND_NULL)
        if low is NULL:
            return nulls
        is_open = nulls or high == end_of_values(column)
        return [(low, column.highest if is_open else high if column.is_text else high - 1), *nulls]

    return list(itertools.product(*map(spans_of, box, table.columns)))


def spelled(row):
    """A row as frames have it."""
    return row and tuple(None if cell is NULL else cell for cell in row)
