"""The pictures of docs/pictures: each is of the example that has its name, a script with its transcript or a record with its answer."""
import os

import recorded
from diagram import Diagram
from mermaid import text_of
from played import Mismatch, Reader

TOP = os.path.dirname(os.path.dirname(os.path.abspath(__file__)))
EXAMPLES, PICTURES = os.path.join(TOP, 'examples'), os.path.join(TOP, 'docs', 'pictures')


def read(path):
    with open(path, encoding='utf-8', newline='') as file:
        return file.read()


def title_of(script, name):
    """The first sentence of a script's story, which its first line begins."""
    story = script.split('\n', 1)[0]
    return story[2:] if story.startswith('# ') else name


def tells(rows):
    """The picture in words, for those who don't see it."""
    lines = '; '.join(row.text.replace('\n', ', ') for row in rows if row.text)
    return f'A sequence diagram with a lane for each session, for the history of each stripe and for the store. From above: {lines}.'


def drawn(script, transcript, name, theme='both'):
    """The SVG and the text of a script and its transcript."""
    try:
        rows = Reader(script, transcript).read()
        title = title_of(script, name)
        return Diagram(rows).draw(title, tells(rows), theme), text_of(rows, title)
    except (ValueError, IndexError, StopIteration) as error:
        raise Mismatch(f'the script and the transcript don\'t belong together: {error}') from error


def source(name):
    """The file of an example, and the file of what is printed for it."""
    base = os.path.join(EXAMPLES, name)
    return (f'{base}.history', f'{base}.verdict') if os.path.exists(f'{base}.history') else (f'{base}.script', f'{base}.transcript')


def drawn_of(path, printed, name, theme='both'):
    """The SVG and the text of a script or a record, by the name of its file."""
    return (recorded.drawn if path.endswith('.history') else drawn)(read(path), printed, name, theme)


def example(name):
    """The files of docs/pictures that an example has, and what is to be in them."""
    path, printed = source(name)
    picture, text = drawn_of(path, read(printed), name)
    return {f'{name}.svg': picture, f'{name}.mmd': text}


def chosen():
    """The examples that docs/pictures has."""
    return sorted(name[:-4] for name in os.listdir(PICTURES) if name.endswith('.svg'))


def differing():
    """The files that docs/pictures has or lacks, and what is wrong with each: nothing, if it is what its example says."""
    wanted, faults = {}, {}
    for name in chosen():
        try:
            wanted.update(example(name))
        except (Mismatch, OSError) as error:
            faults[f'{name}.svg'] = str(error)
    for file_name in sorted(wanted.keys() | set(os.listdir(PICTURES))):
        path = os.path.join(PICTURES, file_name)
        is_right = os.path.exists(path) and read(path) == wanted.get(file_name)
        yield file_name, '' if is_right else faults.get(file_name, 'it isn\'t what its example says: tools/picture --write makes it anew')
