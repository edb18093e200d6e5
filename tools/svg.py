"""A picture in SVG that needs no other file: parts one upon another, in one font and one ink."""
from html import escape

INK = '#22303c'
GRID = '#d5d9de'


class Svg:
    """A white picture of this size. Patterns are what its parts may be filled with."""

    def __init__(self, width, height, patterns=''):
        self.width, self.height, self.patterns, self.parts = width, height, patterns, []

    def add(self, part):
        self.parts.append(part)

    def text(self, x, y, text, size=13, anchor='start', weight='normal', turn='', halo=False):
        around = ' stroke="white" stroke-width="3" paint-order="stroke"' if halo else ''
        self.add(f'<text x="{x:.1f}" y="{y:.1f}" font-size="{size}" text-anchor="{anchor}" font-weight="{weight}"'
                 f'{around}{turn}>{escape(text)}</text>')

    def whole(self):
        head = (f'<svg xmlns="http://www.w3.org/2000/svg" width="{self.width}" height="{self.height}"'
                f' font-family="DejaVu Sans, Verdana, sans-serif" fill="{INK}">')
        return '\n'.join([head, f'<defs>{self.patterns}</defs>', '<rect width="100%" height="100%" fill="white"/>', *self.parts, '</svg>', ''])
