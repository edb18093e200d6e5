"""What a client holds, by docs/RULES.md, as the lines of its trace tell it."""
import collections
import pathlib
import sys

sys.path.append(str(pathlib.Path(__file__).resolve().parent.parent / 'tests' / 'links'))

from boxes import both, boxes_of, has, joined, rects_of, without
from frames import Holding


class Region:
    """The points of a class, and the keys of the rows that lie there."""

    def __init__(self, boxes=(), keys=()):
        self.boxes, self.keys = list(boxes), set(keys)

    def add(self, boxes, keys):
        self.boxes = joined(self.boxes + boxes)
        self.keys |= keys


class Client:
    """What a client holds: the rows of its version, and its regions by table, columns and stamp. Columns are a number of bits."""

    def __init__(self, rows):
        self.version, self.rows = 0, [dict(of_table) for of_table in rows]
        self.regions = collections.defaultdict(Region)
        self.to_server, self.to_client = collections.deque(), collections.deque()
        self.asked = None  # the query that waits for a reply
        self.touching = None  # the answered query, until it has touched what is held
        self.stamp, self.heard = 0, 0  # the number of the last answered query, and the version of the last message laid by

    def advance(self, version, changes):
        """Brings the rows to a version, by the changes of all versions."""
        for table, key, before, after in [change for made in changes[self.version + 1:version + 1] for change in made]:
            rows = self.rows[table]
            if after is None:
                del rows[key]
            else:
                rows[key] = after
            for (of, _, _), region in self.regions.items():
                if of == table and before is not None:
                    region.keys.discard(key)
                if of == table and after is not None and has(region.boxes, after):
                    region.keys.add(key)
        self.version = max(self.version, version)

    def touch(self):
        """Gives the points that the answered query took, where their columns suffice, its number as their stamp."""
        query, self.touching = self.touching, None
        for part in query.parts if query else []:
            boxes = boxes_of(part.condition, part.definition)
            for (table, columns, stamp), region in list(self.regions.items()):
                inside = both(region.boxes, boxes) if table == part.table and not part.need & ~columns else []
                if inside:
                    keys = {key for key in region.keys if part.holds(self.rows[table][key])}
                    del self.regions[table, columns, stamp]
                    outside = without(region.boxes, boxes)
                    if outside:
                        self.regions[table, columns, stamp].add(outside, region.keys - keys)
                    self.regions[table, columns, self.stamp].add(inside, keys)

    def hold(self, table, columns, boxes):
        keys = {key for key, row in self.rows[table].items() if has(boxes, row)}
        self.regions[table, columns, self.stamp].add(boxes, keys)

    def holdings(self, tables):
        return [Holding(table, [c for c in range(12) if columns >> c & 1], [rect for box in region.boxes for rect in rects_of(box, tables[table])])
                for (table, columns, _), region in sorted(self.regions.items(), key=lambda item: item[0])]

    def kept(self):
        """How many rows are kept, and how many regions."""
        return sum(len(region.keys) for region in self.regions.values()), len(self.regions)
