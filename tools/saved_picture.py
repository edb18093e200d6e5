"""The picture of what a cache saved, over the lines of the script: how queries came out, the bytes that came, the rows held, and the drops."""
import collections

from svg import GRID, INK, Svg

LEFT, WIDE, TOP, GAP = 92, 700, 100, 34
LEGEND = LEFT + WIDE + 24
MOST_BINS, MOST_TICKS, LANE = 70, 5, 24
SERVED, ASKED, ASKED_EDGE, HELD = '#8fcf9f', '#f6b26b', '#b9742a', '#4a6fa5'
PATTERNS = ('<pattern id="asked" width="6" height="6" patternUnits="userSpaceOnUse" patternTransform="rotate(45)">'
            f'<rect width="6" height="6" fill="white"/><rect width="3" height="6" fill="{ASKED}"/></pattern>'
            '<pattern id="saved" width="5" height="5" patternUnits="userSpaceOnUse">'
            f'<rect width="5" height="5" fill="white"/><circle cx="2.5" cy="2.5" r="1.1" fill="{SERVED}"/></pattern>')
# of how queries came out: the kinds of facts, fill and edge
BARS = [('answered without asking', ['query answered'], SERVED, '#3c7d4e'), ('asked', ['query asked'], 'url(#asked)', ASKED_EDGE),
        ('not answered', ['query sql', 'query busy', 'query down'], 'white', '#8a8a8a')]
DASHES = ['', '7 4', '2 3', '9 3 2 3', '12 5', '4 2', '1 4', '14 3 3 3']
COLOURS = [HELD, '#9c4a2f', '#3c7d4e', '#6b4c8a', '#22303c', '#8a6d1f', '#2f7f8c', '#8a8a8a']
# what a budget or an event drops; each has a lane of its own
DROPS = {'rows': 'too many rows', 'regions': 'too many regions', 'absorbed': 'held with more columns', 'pieces': 'too many pieces',
         'asked': 'the user said so', 'lapsed': "the log's end passed", 'fresh': 'a session anew'}


def step_for(most, parts):
    """The least of 1, 2, 5, 10, 20, .. of which so many parts reach the most."""
    power = 1
    while True:
        for step in (power, 2 * power, 5 * power):
            if step * parts >= most:
                return step
        power *= 10


def named(number):
    return f'{number:,}'


class Panel:
    """A strip of the picture with an axis of its own, from 0 up to the most, and the lines of the script to the right."""

    def __init__(self, picture, top, high, most, lines, title):
        self.picture, self.top, self.high, self.lines = picture, top, high, lines
        self.step = step_for(max(most, 1), MOST_TICKS)
        self.most = self.step * -(-max(most, 1) // self.step)
        for value in range(0, self.most + 1, self.step):
            y = self.y(value)
            picture.add(f'<line x1="{LEFT - 4}" y1="{y:.1f}" x2="{LEFT + WIDE}" y2="{y:.1f}" stroke="{GRID if value else INK}" stroke-width="0.8"/>')
            picture.text(LEFT - 8, y + 4, named(value), 11, 'end')
        picture.text(LEFT, top - 9, title, 13, weight='bold')

    def x(self, line):
        return LEFT + WIDE * line / self.lines

    def y(self, value):
        return self.top + self.high - self.high * value / self.most

    def steps(self, points):
        """The path of a value that begins with 0 and changes where a line begins. No two changes of it share a pixel."""
        path, last = [f'M{LEFT} {self.y(0):.1f}'], {}
        for line, value in points:
            last[round(self.x(max(line - 1, 0)))] = value
        for x, value in sorted(last.items()):
            path.append(f'H{x}V{self.y(value):.1f}')
        return ''.join(path) + f'H{LEFT + WIDE}'


def legend(picture, y, lines, mark=''):
    """A mark, and lines beside it of which the first is bold. Gives where the next one stands."""
    picture.add(mark)
    for i, line in enumerate(lines):
        picture.text(LEGEND + 36, y + 12 + 15 * i, line, 12, weight='normal' if i else 'bold')
    return y + 15 * len(lines) + 9


def swatch(y, fill, edge):
    return f'<rect x="{LEGEND}" y="{y}" width="26" height="15" fill="{fill}" stroke="{edge}" stroke-width="1.2"/>'


def stroke(y, colour, dash, width=2):
    return f'<path d="M{LEGEND} {y + 8}h26" stroke="{colour}" stroke-width="{width}" stroke-dasharray="{dash}" fill="none"/>'


# ---- the panels

def draw_queries(picture, top, high, facts, lines, bins):
    """Bars of the queries of each bin of lines, one upon another."""
    counts = [collections.Counter((fact.line - 1) // bins for fact in facts if fact.what in kinds) for _, kinds, _, _ in BARS]
    most = max(sum(counts, collections.Counter()).values(), default=0)
    panel = Panel(picture, top, high, most, lines, 'Queries, line by line' if bins == 1 else f'Queries, in each {named(bins)} lines')
    below, y = collections.Counter(), top
    for (name, _, fill, edge), count in zip(BARS, counts):
        for place, number in sorted(count.items()):
            left, right = panel.x(max(place, 0) * bins), panel.x(min((place + 1) * bins, lines))
            bottom, upper = panel.y(below[place]), panel.y(below[place] + number)
            picture.add(f'<rect class="{name}" x="{left + 1:.1f}" y="{upper:.1f}" width="{max(right - left - 2, 1):.1f}"'
                        f' height="{bottom - upper:.1f}" fill="{fill}" stroke="{edge}" stroke-width="0.8"><title>{number} {name}</title></rect>')
        below += count
        if name != 'not answered' or count:
            y = legend(picture, y, [name, named(sum(count.values()))], swatch(y, fill, edge))


def summed(facts, what):
    """The sum of what came up to each line."""
    total, points = 0, []
    for fact in facts:
        if fact.what == what:
            total += fact.amount
            points.append((fact.line, total))
    return points


def draw_bytes(picture, top, high, facts, lines):
    bare, came = summed(facts, 'bytes of bare answers'), summed(facts, 'bytes that came')
    most = max([total for _, total in bare + came], default=0)
    panel = Panel(picture, top, high, most, lines, 'Bytes to the clients, summed up')
    path = panel.steps(bare)
    picture.add(f'<path d="{path}V{panel.y(0):.1f}Z" fill="url(#saved)"/>')
    picture.add(f'<path class="bare" d="{path}" fill="none" stroke="#3c7d4e" stroke-width="1.6" stroke-dasharray="6 3"/>')
    path = panel.steps(came)
    picture.add(f'<path d="{path}V{panel.y(0):.1f}Z" fill="url(#asked)" fill-opacity="0.85"/>')
    picture.add(f'<path class="came" d="{path}" fill="none" stroke="{ASKED_EDGE}" stroke-width="2"/>')
    y = legend(picture, top, ['bare answers', named(bare[-1][1] if bare else 0) + ' bytes'], stroke(top, '#3c7d4e', '6 3'))
    legend(picture, y, ['came over the link', named(came[-1][1] if came else 0) + ' bytes'], stroke(y, ASKED_EDGE, ''))


def draw_held(picture, top, high, levels, clients, lines):
    panel = Panel(picture, top, high, max((rows for _, _, rows, _ in levels), default=0), lines, 'Rows held')
    y = top
    for place, client in enumerate(clients):
        held = [(line, rows, regions) for line, its, rows, regions in levels if its == client] or [(0, 0, 0)]
        colour, dash = COLOURS[place % len(COLOURS)], DASHES[place % len(DASHES)]
        path, width = panel.steps([(line, rows) for line, rows, _ in held]), 2 if lines < WIDE else 1
        picture.add(f'<path class="held" d="{path}" fill="none" stroke="{colour}" stroke-width="{width}" stroke-dasharray="{dash}"/>')
        rows, regions = held[-1][1:]
        many = 'region' if regions == 1 else 'regions'
        said = [f'at the end {named(rows)}, in {named(regions)} {many}', f'at most {named(max(rows for _, rows, _ in held))}']
        said = said if len(clients) < 4 else [', '.join(said)]
        y = legend(picture, y, ['client ' + client, *said], stroke(y, colour, dash))


def draw_drops(picture, top, facts, lines, bins):
    """A lane for each cause, with a mark for each bin of lines that has drops: the higher, the more."""
    counts = {cause: collections.Counter((fact.line - 1) // bins for fact in facts if fact.what == 'drop ' + cause) for cause in DROPS}
    counts = {cause: count for cause, count in counts.items() if count}
    most = max((number for count in counts.values() for number in count.values()), default=1)
    title = 'Drops by cause: ' + (f'a bar has {named(most)} at most' if counts else 'none')
    picture.text(LEFT, top - 9, title, 13, weight='bold')
    for place, (cause, count) in enumerate(counts.items()):
        foot = top + LANE * (place + 1)
        picture.add(f'<line x1="{LEFT - 4}" y1="{foot}" x2="{LEFT + WIDE}" y2="{foot}" stroke="{GRID}" stroke-width="0.8"/>')
        picture.text(LEFT - 8, foot - 3, cause, 12, 'end')
        picture.text(LEGEND, foot - 3, f'{named(sum(count.values()))}: {DROPS[cause]}', 12)
        for bar, number in sorted(count.items()):
            left, right = LEFT + WIDE * max(bar, 0) * bins / lines, LEFT + WIDE * min((bar + 1) * bins, lines) / lines
            size = 4 + (LANE - 8) * number / most
            picture.add(f'<rect class="drop {cause}" x="{left + 1:.1f}" y="{foot - size:.1f}" width="{max(right - left - 2, 1):.1f}"'
                        f' height="{size:.1f}" fill="{INK}"><title>{number} {cause}</title></rect>')
    return top + LANE * max(len(counts), 0)


def draw_lines(picture, y, lines):
    """The axis of the script's lines. The number of a line stands at its middle."""
    step = step_for(lines, 15)
    picture.add(f'<line x1="{LEFT}" y1="{y}" x2="{LEFT + WIDE}" y2="{y}" stroke="{INK}" stroke-width="1"/>')
    for line in range(step, lines + 1, step):
        x = LEFT + WIDE * (line - 0.5) / lines
        picture.add(f'<line x1="{x:.1f}" y1="{y}" x2="{x:.1f}" y2="{y + 5}" stroke="{INK}" stroke-width="1"/>')
        picture.text(x, y + 19, named(line), 11, 'middle')
    picture.text(LEFT + WIDE / 2, y + 40, 'line of the script', 13, 'middle', 'bold')


def picture_of(facts, levels, clients, headline):
    """The picture as a text. Without levels, which come of a script, it has no bytes and no rows held."""
    lines = max([fact.line for fact in facts], default=1) or 1
    bins = step_for(lines, MOST_BINS)
    tall = 15 * (1 + 2 * len(clients)) + 9 * len(clients)
    picture = Svg(LEGEND + 270, 0, PATTERNS)
    picture.text(LEFT, 34, 'What the cache saved', 19, weight='bold')
    picture.text(LEFT, 60, headline, 14)
    y = TOP
    draw_queries(picture, y, 130, facts, lines, bins)
    y += 130 + GAP
    if levels:
        draw_bytes(picture, y, 130, facts, lines)
        y += 130 + GAP
        draw_held(picture, y, max(130, tall), levels, clients, lines)
        y += max(130, tall) + GAP
    y = draw_drops(picture, y, facts, lines, bins) + 4
    draw_lines(picture, y, lines)
    picture.height = y + 56
    return picture.whole()
