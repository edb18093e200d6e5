"""What a client holds."""
import collections

from server import Entry


def includes(columns, others):
    return others & ~columns == 0


class Cache:
    """The points that are held, with their stamps: {(table's number, columns): {point: stamp}}. Columns are a number of bits."""

    def __init__(self, tables):
        self.tables, self.held = tables, {}

    def is_empty(self):
        return not self.held

    def hold(self, table, columns, points, stamp):
        if points:
            self.held.setdefault((table, columns), {}).update(dict.fromkeys(points, stamp))

    def touch(self, part, stamp):
        """Stamps the points that a part of a query could take from here."""
        for (table, columns), stamps in self.held.items():
            if table == part.table and includes(columns, part.need):
                stamps.update(dict.fromkeys(stamps.keys() & part.points, stamp))

    def rest(self, part):
        """What a part of a query asks that is not covered."""
        return part.points.difference(*(stamps for (table, columns), stamps in self.held.items()
                                        if table == part.table and includes(columns, part.need)))

    def entries(self):
        """All points that are held, under their columns."""
        return [Entry(table, columns, set(stamps)) for (table, columns), stamps in self.held.items()]

    def classes(self):
        """{(table's number, columns, stamp): points}, in class order."""
        classes = collections.defaultdict(set)
        for place, stamps in self.held.items():
            for point, stamp in stamps.items():
                classes[place + (stamp,)].add(point)
        return dict(sorted(classes.items()))

    def drop(self, cls):
        """Takes a class out, and tells its points."""
        stamps = self.held.pop(cls[:2])
        self.hold_all(cls[:2], {point: stamp for point, stamp in stamps.items() if stamp != cls[2]})
        return {point for point, stamp in stamps.items() if stamp == cls[2]}

    def hold_all(self, place, stamps):
        if stamps:
            self.held[place] = stamps

    def absorbed(self):
        """The classes whose points are all held under more columns too."""
        return [cls for cls, points in self.classes().items() if points <= self.held_wider(*cls[:2])]

    def held_wider(self, table, columns):
        return set().union(*(stamps for (of, more), stamps in self.held.items()
                             if of == table and more != columns and includes(more, columns)))

    def kept(self, tables):
        """How many rows of these tables are held, counted under each set of columns."""
        return sum(self.tables[table].place(row) in stamps
                   for (table, _), stamps in self.held.items() for row in tables[table].values())

    def victim(self, policy, asked):
        """The class that goes first, where the last answered query asked these points of its tables."""
        def recency(cls):
            return cls[2], cls[0], cls[1]

        def order(item):
            (table, _, _), points = item
            if policy == 'recency' or asked is None:
                return recency(item[0])
            if not asked.get(table):
                return 0, 0, recency(item[0])
            ours, theirs = self.tables[table].centre(points), self.tables[table].centre(asked[table])
            return 1, -sum(abs(a - b) for a, b in zip(ours, theirs)), recency(item[0])

        return min(self.classes().items(), key=order)[0]

    def load(self, query, counted, shipped):
        """Into how many pieces the counted queries may cut what is held, and what the query asks, if it does: (table, columns)."""
        counts = collections.Counter(table for table, _ in self.held.keys() | set(shipped))
        for part in query.parts:
            counts[part.table] = max(counts[part.table], 1)
        parts = [part for q in counted for part in q.parts]
        return sum(count * self.tables[table].grid([test for part in parts if part.table == table for test in part.tests()])
                   for table, count in counts.items())
