"""Cells: whole numbers, texts as bytes, and NULL."""
import functools


@functools.total_ordering
class Null:
    """NULL, which stands above each other cell. There is one alone."""

    def __lt__(self, other):
        return False

    def __eq__(self, other):
        return self is other

    __hash__ = object.__hash__

    def __repr__(self):
        return 'NULL'

    def __deepcopy__(self, copied):
        return self


NULL = Null()
