"""A record that `jcache check` doesn't explain, as a picture: a lane for each thread, a bar for each call of the part that is told, in the
order of their times, and the call that has no place with a cross."""
import re
from collections import namedtuple

from mermaid import CODES
from played import Mismatch
from svg import BARS, LEADING, LIFELINES, SMALL, Canvas, cross, width

KEY = re.compile(r'^(\S+): not explained\b')
CALL = re.compile(r'^  t(\d+) (\d+)\.\.(\d*) (.*)$')
PART = re.compile(r'^  .* has (\d+):$')
LOST = re.compile(r'^  t(\d+) (\d+)\.\.\d* has no place')
MOST = 12                                        # calls in a picture
LEFT, TOP, STEP, BAR, GAP = 62, 52, 46, 12, 10   # pixels

Call = namedtuple('Call', 'thread began ended text lost')
Told = namedtuple('Told', 'key calls reasons')


def block_of(answer):
    """The key of an answer that isn't explained, the first one, and the lines that belong to it."""
    lines = answer.split('\n')
    for at, line in enumerate(lines):
        if KEY.match(line):
            end = next((end for end in range(at + 1, len(lines)) if not lines[end].startswith('  ')), len(lines))
            return KEY.match(line)[1], lines[at + 1:end]
    raise Mismatch('the answer has no key that isn\'t explained')


def told_of(answer):
    """What an answer tells of it: the calls of the part, or all that are listed, and why the last one has no place."""
    key, lines = block_of(answer)
    head = next((at for at, line in enumerate(lines) if PART.match(line)), None)
    if head is not None:
        lines = lines[head + 1:]
    lost = next((LOST.match(line).groups() for line in lines if LOST.match(line)), None)
    found = [CALL.match(line) for line in lines if CALL.match(line) and not LOST.match(line)]
    calls = [Call(int(call[1]), int(call[2]), int(call[3]) if call[3] else None, call[4], (call[1], call[2]) == lost) for call in found]
    if not 0 < len(calls) <= MOST:
        raise Mismatch(f'a picture has 1 to {MOST} calls, and this part {len(calls)}')
    return Told(key, calls, [line.strip() for line in lines if line.startswith('    ')])


def title_of(record, name):
    """The first sentence of the first comment of a record."""
    return next((line[2:].partition('. ')[0].rstrip('.') + '.' for line in record.split('\n') if line.startswith('# ')), name)


def words_of(call):
    """The lines of a call's label."""
    return [f'{call.began}..{"" if call.ended is None else call.ended}', *call.text.split(', '), *(['has no place'] if call.lost else [])]


def tells(told):
    calls = '; '.join(f't{call.thread} {", ".join(words_of(call))}' for call in told.calls)
    return f'Calls at {told.key}, a lane for each thread. By their begins: {calls}. {" ".join(told.reasons)}'


def places_of(calls):
    """Where each time is, from left to right: not to scale."""
    times = sorted({time for call in calls for time in (call.began, call.ended) if time is not None})
    return {time: LEFT + at * STEP for at, time in enumerate(times)}, LEFT + len(times) * STEP


def draw_call(canvas, call, places, end, y):
    """A bar and its label; the height of both."""
    x, words = places[call.began], words_of(call)
    wide = (places[call.ended] if call.ended is not None else end) - x
    canvas.box(BARS, x, y, wide, BAR, 'paper' if call.lost else 'bar', 'bad' if call.lost else 'edge')
    if call.lost:
        cross(canvas, x + wide + 8, y + BAR / 2)
    if call.ended is None:
        canvas.arrow(x, end + 14, y + BAR / 2)
    canvas.text(x, y + BAR + LEADING - 2, words, 'bad' if call.lost else 'ink', size=SMALL)
    return BAR + LEADING * len(words) + GAP


def drawn(record, answer, name, theme='both'):
    """The SVG and the text of a record and its answer."""
    told, title = told_of(answer), title_of(record, name)
    places, end = places_of(told.calls)
    labels = [places[call.began] + max(width(line, SMALL) for line in words_of(call)) for call in told.calls]
    wide = max([end + 24, *labels, LEFT + width(title), *(LEFT + width(line, SMALL) for line in told.reasons)]) + 16
    canvas, y = Canvas(), TOP
    canvas.text(16, 28, title)
    for thread in sorted({call.thread for call in told.calls}):
        top = y
        y += GAP
        for call in [call for call in told.calls if call.thread == thread]:
            y += draw_call(canvas, call, places, end, y)
        canvas.box(LIFELINES, 8, top, wide - 16, y - top, 'band')
        canvas.text(16, top + 22, f't{thread}', bold=True)
        y += 6
    if told.reasons:
        canvas.text(16, y + LEADING, told.reasons, size=SMALL)
        y += LEADING * (len(told.reasons) + 1)
    return canvas.svg(wide, y + 8, title, tells(told), theme), text_of(told, title)


def text_of(told, title):
    """The text form: a note for each call, by their begins."""
    threads = [f't{thread}' for thread in sorted({call.thread for call in told.calls})]
    whole = f'{threads[0]},{threads[-1]}' if len(threads) > 1 else threads[0]
    lines = ['sequenceDiagram', f'    accTitle: {re.sub("[;#]", ",", title)}', *(f'    participant {thread}' for thread in threads)]
    for call in sorted(told.calls, key=lambda call: call.began):
        lines.append(f'    Note over t{call.thread}: {"<br/>".join(word.translate(CODES) for word in words_of(call))}')
    lines += [f'    Note over {whole}: {line.translate(CODES)}' for line in told.reasons]
    return '\n'.join(lines) + '\n'
