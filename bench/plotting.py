"""The plots of the page, drawn from its tables, for `plots` and tools/check."""
import os
import re
import sys

HERE = os.path.dirname(os.path.abspath(__file__))
sys.path.insert(0, os.path.join(HERE, '..', 'tools'))
import charts

PAGE = os.path.join(HERE, 'README.md')
OWN = ('living on', 'every step kept')  # this cache, among the others


def tables(text):
    """The tables of a text in Markdown: for each the cells of its rows, its head first."""
    for block in re.findall(r'(?:^[ ]*\|.*\|\n)+', text, re.MULTILINE):
        rows = [[cell.strip().strip('`') for cell in line.strip().strip('|').split('|')] for line in block.split('\n') if line.strip()]
        yield [row for row in rows if set(row) != {'---'}]


def table_with(text, *heads):
    """The table whose head has these words."""
    for head, *rows in tables(text):
        if all(word in head for word in heads):
            return head, rows
    raise ValueError(f'there is no table with {", ".join(heads)}')


def threads_plot(text, theme):
    """Of the table of calls on threads: how many calls a second all workers make together, by the wall clock."""
    head, rows = table_with(text, 'Stripes, workers')
    names = head[1].partition(': ')[2].split(', ')
    panels = {}
    for first, _processor, wall in rows:
        stripes, workers = [int(word) for word in first.split(', ')]
        of, xs, ys = panels.setdefault(stripes, (f'{stripes} stripe{"s" if stripes > 1 else ""}', [], [[] for _ in names]))
        xs.append(workers)
        for line, nanoseconds in zip(ys, wall.split(', ')):
            line.append(1000 / float(nanoseconds))
    tells = '; '.join(f'{of}: ' + ', '.join(f'{name} ' + ' '.join(f'{y:.1f}' for y in line) for name, line in zip(names, ys))
                      + f' with {" ".join(map(str, xs))} workers' for of, xs, ys in panels.values())
    return charts.lines('Calls a second by workers', f'Million calls a second, of all workers together. {tells}.',
                       'million calls a second, of all workers together', 'workers, each on a thread', list(panels.values()), names, theme)


def peers_plot(text, theme):
    """Of the table of calls beside other caches: the nanoseconds of a call."""
    head, rows = table_with(text, 'Cache', 'hit')
    panels = [(kind, [(row[0], int(re.match(r'[\d,]+', row[at]).group().replace(',', ''))) for row in rows if re.match(r'\d', row[at])])
              for at, kind in enumerate(head) if at]
    tells = '; '.join(f'{kind}: ' + ', '.join(f'{name} {value}' for name, value in rows) for kind, rows in panels)
    return charts.bars('Nanoseconds a call beside other caches', f'Nanoseconds of a processor for a call. {tells}.',
                      'nanoseconds of a processor for a call; filled: this cache', panels, OWN, theme)


def drawn(text, theme='both'):
    """Both plots, by the names of their files."""
    return {'threads.svg': threads_plot(text, theme), 'peers.svg': peers_plot(text, theme)}


def differing():
    """The files of the page's plots, and whether they are what its tables say."""
    with open(PAGE, encoding='utf-8') as page:
        text = page.read()
    for name, plot in drawn(text).items():
        path = os.path.join(HERE, name)
        if os.path.exists(path):
            with open(path, encoding='utf-8', newline='') as file:
                yield name, file.read() != plot
        else:
            yield name, True
