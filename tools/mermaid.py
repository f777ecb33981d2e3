"""The text form of the sequence diagram of a script and its transcript, as code hosts draw it: Mermaid's `sequenceDiagram`."""
import re

from diagram import BAND_KINDS, LEGEND, asked_together, lanes_of, place_text, with_shared_steps


# What would end a message, or begin something else in it. Only a line with a fault has such characters.
CODES = str.maketrans({'#': '#35;', ';': '#59;', '<': '#lt;', '>': '#gt;'})


def text_of(rows, title):
    """The whole text. A message has the words of a row; what one ask of the loader or the writer says of several keys is one message."""
    lanes = [f'stripe{lane}' if isinstance(lane, int) else lane for lane in lanes_of(rows)]
    lines = ['sequenceDiagram', f'    accTitle: {re.sub("[;#]", ",", title)}']
    for lane, name in zip(lanes, lanes_of(rows).values()):
        lines.append(f'    participant {lane}' + (f' as {name}' if name != lane else ''))
    rows = with_shared_steps(rows)
    asks = {at: group for group in asked_together(rows) for at in group}
    whole = f'{lanes[0]},{lanes[-1]}' if len(lanes) > 1 else lanes[0]
    for at in range(len(rows)):
        lines += [f'    {line}' for line in row_lines(rows, at, asks.get(at), whole)]
    return '\n'.join(lines) + '\n'


def row_lines(rows, at, group, whole):
    """The lines of a row."""
    row = rows[at]
    text = row.text.translate(CODES).replace('\n', '<br/>')
    if row.kind in BAND_KINDS:
        yield f'Note over {whole}: {text}'
    elif row.kind == 'shared' and not row.session:
        yield f'Note over stripe{row.place[0]}: {place_text(row)}, {LEGEND["shared"][1]}'
    elif row.kind == 'evict':
        yield f'Note over stripe{row.place[0]}: {text}'
    elif row.kind in ('set', 'foreign'):
        yield f'Note over store: {text}{"<br/>" if text else ""}{held_text(row)}'
    else:
        yield from session_lines(rows, at, group, text)


def session_lines(rows, at, group, text):
    """Those of a row of a session: where its reservations begin and end, and between them what is said to whom."""
    row = rows[at]
    if group is not None and at == group[-1]:
        asked = '<br/>'.join(rows[other].text for other in group)
        yield f'{row.session}->>store: {asked}'
    elif row.kind == 'joined':
        loader = next(other.session for other in rows if other.call == row.joins and other.session)
        yield f'{row.session}->>{loader}: {text}'
    elif row.kind in ('reads', 'says', 'written', 'deleted'):
        yield f'store-->>{row.session}: {text}'
    elif row.kind == 'left':
        yield f'store--x{row.session}: {text}'
    elif row.kind == 'step':
        yield f'{row.session}->>stripe{row.place[0]}: {text}'
    elif row.kind == 'shared':
        yield f'stripe{row.place[0]}-->>{row.session}: {text}'
    elif row.kind == 'refused':
        yield f'{row.session}-x{row.session}: {text}'
    elif group is None:
        yield f'Note over {row.session}: {text}'
    if row.starts:
        yield f'activate {row.session}'
    yield from [f'deactivate {row.session}'] * len(row.ends)
    if row.held is not None:
        yield f'Note over store: {held_text(row)}'


def held_text(row):
    return ' '.join(row.held) if row.held else 'empty'
