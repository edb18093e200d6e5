"""Sets of points: whether a row is in a rect, and which rects have a row, found by blocks and not by a walk over all of them."""
from collections import defaultdict
from typing import Iterator

# the blocks of a column have 1, 2, 4 .. values; all numbers of the format, counted from 0, and the first bytes of texts are in the largest
LEVELS = 41
FIRST = -2 ** 40
TOLD_BYTES = 5
LAST = 2 ** (8 * TOLD_BYTES) - 1
WHOLE = (LEVELS, 0)


def has(rect: tuple, row: list) -> bool:
    """Whether the row is in the rect."""
    for span, cell in zip(rect, row):
        if span is None:
            continue
        low, high = span
        if isinstance(cell, int):
            if not low <= cell <= high:
                return False
        elif cell < low or high is not None and cell >= high:
            return False
    return True


def has_any(rects: list, row: list) -> bool:
    return any(has(rect, row) for rect in rects)


def place_of(cell) -> int:
    """Where a value lies: a number from 0 on. Of a text only the first bytes tell."""
    return cell - FIRST if isinstance(cell, int) else int.from_bytes(cell[:TOLD_BYTES].ljust(TOLD_BYTES, b'\0'), 'big')


def blocks(low: int, high: int) -> Iterator[tuple]:
    """The few blocks that make up the places from low to high: the level of each, and which one of its level it is."""
    level = 0
    while low <= high and level < LEVELS:
        if low & 1:
            yield level, low
            low += 1
        if not high & 1:
            yield level, high
            high -= 1
        low, high, level = low >> 1, high >> 1, level + 1
    if low <= high:
        yield level, low


class Index:
    """Rects of one table, each with its owner. A rect stands at the blocks of its first span that is not full."""

    def __init__(self):
        self.columns = defaultdict(lambda: defaultdict(set))
        self.full = defaultdict(set)

    def add(self, rect: tuple, owner: object) -> None:
        of_blocks, places = self.home(rect)
        for block in places:
            of_blocks[block].add((rect, owner))

    def remove(self, rect: tuple, owner: object) -> None:
        of_blocks, places = self.home(rect)
        for block in places:
            of_blocks[block].discard((rect, owner))
            if not of_blocks[block]:
                del of_blocks[block]

    def home(self, rect: tuple) -> tuple:
        """The blocks of a column, and which of them the rect stands at."""
        column = next((column for column, span in enumerate(rect) if span is not None), None)
        if column is None:
            return self.full, [WHOLE]
        low, high = rect[column]
        return self.columns[column], blocks(place_of(low), LAST if high is None else place_of(high))

    def owners(self, row: list) -> set:
        """The owners of the rects that have the row."""
        found = {owner for _, owner in self.full.get(WHOLE, ())}
        for column, of_blocks in self.columns.items():
            place = place_of(row[column])
            for level in range(LEVELS + 1):
                found.update(owner for rect, owner in of_blocks.get((level, place >> level), ()) if owner not in found and has(rect, row))
        return found

