"""Draws an SVG of text, lines and marks: the same bytes on each machine, legible in light and in dark.

Text is monospaced, and as wide as is reckoned here on each machine: `textLength` holds browsers to it. Each mark has a shape of its own,
so nothing is told by a colour alone."""
from xml.sax.saxutils import escape

FONT = 'ui-monospace,SFMono-Regular,Menlo,Consolas,DejaVu Sans Mono,Liberation Mono,monospace'
SIZE, SMALL = 12, 11  # of text, in pixels
ADVANCE = 0.6         # the width of a character, by the size of the font
LEADING = 16          # from line to line of one text, in pixels
# What is drawn first: each layer covers those before it.
LIFELINES, ARROWS, BARS, BANDS, MARKS, TEXT = range(6)

# Colours by what they are for.
LIGHT = {'paper': '#ffffff', 'ink': '#1f2328', 'dim': '#59636e', 'rule': '#b7bfc8', 'line': '#59636e', 'bar': '#ddf4ff', 'edge': '#0969da',
         'bad': '#c4202b', 'band': '#f1f4f7', 'gone': '#8a4600'}
DARK = {'paper': '#0d1117', 'ink': '#e6edf3', 'dim': '#9ea7b3', 'rule': '#444c56', 'line': '#9ea7b3', 'bar': '#12305c', 'edge': '#58a6ff',
        'bad': '#ff7b72', 'band': '#1c232d', 'gone': '#e3b341'}


def width(text, size=SIZE):
    """How wide a text is, in pixels."""
    return len(text) * size * ADVANCE


def number(value):
    """A coordinate, to a tenth of a pixel."""
    return f'{value:.1f}'.removesuffix('.0')


def style(theme):
    """The styles of a picture, in the theme that its reader has, or in one theme alone, to look at it."""
    def rules(colours):
        return ''.join(f'.{name}{{fill:{colour}}}.s-{name}{{stroke:{colour}}}' for name, colour in colours.items())

    base = f'text{{font:{SIZE}px {FONT};white-space:pre}}.b{{font-weight:bold}}.none{{fill:none}}'
    if theme != 'both':
        return base + rules(DARK if theme == 'dark' else LIGHT)
    return f'{base}{rules(LIGHT)}@media(prefers-color-scheme:dark){{{rules(DARK)}}}'


class Canvas:
    """A picture that is being drawn. NAME of a colour fills with it, and `stroke` draws the line around."""

    def __init__(self):
        self.parts = []

    def put(self, layer, part):
        self.parts.append((layer, part))

    def text(self, x, y, words, fill='ink', bold=False, size=SIZE, anchor='start', turned=False):
        """A text with its baseline at y; a list has the lines of one. A turned text goes upwards from there."""
        lines = [words] if isinstance(words, str) else words
        spans = [f' x="{number(x)}" y="{number(y + at * LEADING)}" textLength="{number(width(line, size))}"' for at, line in enumerate(lines)]
        head = f'<text class="{fill}{" b" if bold else ""}"'
        head += f' style="font-size:{size}px"' if size != SIZE else ''
        head += f' text-anchor="{anchor}"' if anchor != 'start' else ''
        head += f' transform="rotate(-90 {number(x)} {number(y)})"' if turned else ''
        if len(lines) == 1:
            self.put(TEXT, f'{head}{spans[0]}>{escape(lines[0])}</text>')
        else:
            inside = ''.join(f'<tspan{span}>{escape(line)}</tspan>' for span, line in zip(spans, lines))
            self.put(TEXT, f'{head}>{inside}</text>')

    def path(self, layer, points, fill='none', stroke='line', thick=1, dash='', closed=False):
        """Lines from point to point; `closed` goes back to the first."""
        d = 'M' + 'L'.join(f'{number(x)} {number(y)}' for x, y in points) + ('Z' if closed else '')
        dashed = f' stroke-dasharray="{dash}"' if dash else ''
        self.put(layer, f'<path class="{fill} s-{stroke}" d="{d}" stroke-width="{thick}"{dashed}/>')

    def box(self, layer, x, y, wide, high, fill, stroke='', round_by=3):
        line = f' s-{stroke}' if stroke else ''
        self.put(layer, f'<rect class="{fill}{line}" x="{number(x)}" y="{number(y)}" width="{number(wide)}" height="{number(high)}"'
                        f' rx="{round_by}"/>')

    def circle(self, layer, x, y, radius, fill, stroke='line'):
        self.put(layer, f'<circle class="{fill} s-{stroke}" cx="{number(x)}" cy="{number(y)}" r="{number(radius)}" stroke-width="1.5"/>')

    def arrow(self, x1, x2, y, dash='', stroke='line'):
        """An arrow along a row."""
        back = -6 if x2 > x1 else 6
        self.path(ARROWS, [(x1, y), (x2 + back, y)], stroke=stroke, dash=dash)
        self.path(ARROWS, [(x2 + back, y - 3.5), (x2, y), (x2 + back, y + 3.5)], stroke, stroke, closed=True)

    def svg(self, wide, high, title, tells, theme):
        """The picture, on a ground of its own, so that it can be read on a page of any colour."""
        head = (f'<svg xmlns="http://www.w3.org/2000/svg" width="{number(wide)}" height="{number(high)}"'
                f' viewBox="0 0 {number(wide)} {number(high)}" role="img" aria-labelledby="title tells">')
        ground = f'<rect class="paper s-rule" x="0.5" y="0.5" width="{number(wide - 1)}" height="{number(high - 1)}" rx="6"/>'
        body = [part for _layer, part in sorted(self.parts, key=lambda part: part[0])]
        return '\n'.join([head, f'<title id="title">{escape(title)}</title>', f'<desc id="tells">{escape(tells)}</desc>',
                          f'<style>{style(theme)}</style>', ground, *body, '</svg>', ''])


# Marks: what is drawn at a point of a lane.

def step(canvas, x, y):
    canvas.circle(MARKS, x, y, 4, 'edge', 'edge')


def shared_step(canvas, x, y):
    canvas.circle(MARKS, x, y, 5, 'paper', 'edge')
    canvas.circle(MARKS, x, y, 1.5, 'edge', 'edge')


def cross(canvas, x, y, stroke='bad'):
    canvas.path(MARKS, [(x - 4, y - 4), (x + 4, y + 4)], stroke=stroke, thick=2)
    canvas.path(MARKS, [(x - 4, y + 4), (x + 4, y - 4)], stroke=stroke, thick=2)


def failed_step(canvas, x, y):
    canvas.circle(MARKS, x, y, 6.5, 'paper', 'bad')
    canvas.path(MARKS, [(x - 3, y - 3), (x + 3, y + 3)], stroke='bad', thick=1.5)
    canvas.path(MARKS, [(x - 3, y + 3), (x + 3, y - 3)], stroke='bad', thick=1.5)


def eviction(canvas, x, y):
    """An arrow out of a box."""
    canvas.path(MARKS, [(x - 5, y - 5), (x + 5, y - 5), (x, y + 5)], 'paper', 'gone', 1.5, closed=True)


def read(canvas, x, y):
    canvas.circle(MARKS, x, y, 4, 'paper', 'line')


def change(canvas, x, y):
    canvas.box(MARKS, x - 4.5, y - 4.5, 9, 9, 'ink', 'ink', 0)


def other_answer(canvas, x, y):
    canvas.path(MARKS, [(x - 5, y), (x, y - 5), (x + 5, y), (x, y + 5)], 'paper', 'line', 1.5, closed=True)


def refusal(canvas, x, y):
    canvas.circle(MARKS, x, y, 5, 'paper', 'bad')
    canvas.path(MARKS, [(x - 3.5, y + 3.5), (x + 3.5, y - 3.5)], stroke='bad', thick=1.5)
