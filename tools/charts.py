"""Draws figures as plots: lines in panels beside each other, and bars."""
import svg

MARGIN = 20
PANEL, BETWEEN = 150, 90         # the width of a panel of lines; from one to the next, for the numbers at the ends of the lines
HEIGHT = 180                     # of a panel of lines
LONGEST, BAR = 190, 18           # of bars: the longest one, and from one to the next
# A line of a panel has a mark, a colour and a dash of its own.
LINES = ((svg.read, 'line', ''), (svg.step, 'edge', ''), (svg.change, 'ink', '5 4'), (svg.other_answer, 'gone', '2 3'))


def steps_to(most, steps):
    """Round numbers from 0 to the first that isn't below the greatest one, in about so many steps."""
    power = 1
    while most / power > steps * 10:
        power *= 10
    step = next(step * power for step in (1, 2, 5, 10) if most / (step * power) <= steps)
    return list(range(0, int(-(-most // step)) * step + 1, step))


def apart(values, room):
    """Places for labels as near as they can be to these, and at least so far from each other; downwards."""
    places = []
    for value in sorted(values):
        places.append(max(value, places[-1] + room) if places else value)
    over = max(0, places[-1] - max(values)) / 2
    found = dict(zip(sorted(range(len(values)), key=lambda at: values[at]), places))
    return [found[at] - over for at in range(len(values))]


def lines(title, tells, axis, below, panels, names, theme='both'):
    """Panels side by side, with one scale: (what it is of, [x], [[y] of each name]). The last value of each line is written behind it."""
    canvas, top = svg.Canvas(), MARGIN + 46
    scale = steps_to(max(y for _of, _xs, ys in panels for line in ys for y in line), 7)

    def height(value):
        return top + HEIGHT * (1 - value / scale[-1])

    canvas.text(MARGIN, MARGIN + 12, axis, bold=True)
    left = MARGIN + svg.width(str(scale[-1]), svg.SMALL) + 12
    for count, (of, xs, ys) in enumerate(panels):
        x = left + count * (PANEL + BETWEEN)
        canvas.text(x, MARGIN + 34, of)
        for value in scale:
            canvas.path(svg.LIFELINES, [(x - 4, height(value)), (x + PANEL + 8, height(value))], stroke='rule')
            if count == 0:
                canvas.text(x - 10, height(value) + 4, str(value), 'dim', size=svg.SMALL, anchor='end')
        places = [x + 8 + at * (PANEL - 8) / (len(xs) - 1) for at in range(len(xs))]
        for place, name in zip(places, xs):
            canvas.text(place, top + HEIGHT + 18, str(name), 'dim', size=svg.SMALL, anchor='middle')
        draw_lines(canvas, places, [[height(y) for y in line] for line in ys], [line[-1] for line in ys])
    canvas.text(left, top + HEIGHT + 36, below, 'dim', size=svg.SMALL)
    right = left + len(panels) * (PANEL + BETWEEN) - BETWEEN + 60 + MARGIN
    draw_names(canvas, left, top + HEIGHT + 60, names)
    return canvas.svg(right, top + HEIGHT + 60 + MARGIN, title, tells, theme)


def draw_lines(canvas, places, heights, last):
    for (mark, stroke, dash), line in zip(LINES, heights):
        canvas.path(svg.ARROWS, list(zip(places, line)), stroke=stroke, thick=1.5, dash=dash)
        for place, height in zip(places, line):
            mark(canvas, place, height)
    for (mark, _stroke, _dash), height, value in zip(LINES, apart([line[-1] for line in heights], 14), last):
        mark(canvas, places[-1] + 24, height)
        canvas.text(places[-1] + 34, height + 4, f'{value:.1f}', size=svg.SMALL)


def draw_names(canvas, x, y, names):
    for (mark, stroke, dash), name in zip(LINES, names):
        canvas.path(svg.ARROWS, [(x, y), (x + 26, y)], stroke=stroke, thick=1.5, dash=dash)
        mark(canvas, x + 13, y)
        canvas.text(x + 34, y + 4, name)
        x += 34 + svg.width(name) + 30


def bars(title, tells, axis, panels, bold, theme='both'):
    """Panels in two columns, with one scale: (what it is of, [(name, value)]). The names in bold are filled, too."""
    canvas, top = svg.Canvas(), MARGIN + 40
    most = max(value for _of, rows in panels for _name, value in rows)
    left = 8 + max(svg.width(name, svg.SMALL) for _of, rows in panels for name, _value in rows)  # the room for names
    wide, high = left + LONGEST + 60, 34 + BAR * max(len(rows) for _of, rows in panels)
    canvas.text(MARGIN, MARGIN + 12, axis, bold=True)
    for count, (of, rows) in enumerate(panels):
        x, y = MARGIN + count % 2 * wide, top + count // 2 * high
        canvas.text(x + left, y, of, bold=True)
        for at, (name, value) in enumerate(rows):
            middle, length = y + 18 + at * BAR, LONGEST * value / most
            canvas.text(x + left - 8, middle + 4, name, bold=name in bold, size=svg.SMALL, anchor='end')
            canvas.box(svg.BARS, x + left, middle - 6, length, 12, 'edge' if name in bold else 'bar', 'edge', 1)
            canvas.text(x + left + length + 6, middle + 4, f'{value:,}', bold=name in bold, size=svg.SMALL)
    return canvas.svg(2 * wide + MARGIN, top + (len(panels) + 1) // 2 * high + MARGIN - 26, title, tells, theme)
