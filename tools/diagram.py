"""Lays out the rows of a script and its transcript as a sequence diagram: time goes downwards.

There is a lane for each session, for the history of each stripe that has a step, and for the store. A lane has its line on the left and its
words to the right of it. A row has words in one lane alone, beside what the store has and a place in the history, so no arrow meets a
word."""
import dataclasses

import svg
from played import ASKS, Mismatch

MARGIN, GAP = 20, 26      # around the picture; between two lanes
ROW, BEFORE_CALL = 18, 7  # the height of a row; the room before a call begins
TRACK, BAR = 22, 14       # from bar to bar of a session, with room for the head of an arrow between them; the width of one
HEADER, BAND = 22, 22     # the height of a lane's name; of the first line of a band
BETWEEN_TEXTS = 18        # from a text of a band to the one beside it
WRAP, HELD = 38, 26       # characters of a line of words, and of what the store has; what is longer is broken at spaces
WORD, ROWS, BARS = 60, 400, 16  # what is longer, or more, isn't drawn
LEAST = 600               # the width of the narrowest picture, with two columns of what its marks mean

# The answers from outside, and their marks at the store.
ANSWERS = {'reads': 'reads', 'says': 'says', 'written': 'changed', 'deleted': 'changed', 'left': 'cross'}
BAND_KINDS = ('open', 'audit', 'untold', 'reopened', 'invalidated', 'fault')
# What a mark means, for those that a picture has.
LEGEND = {
    'bar': (None, 'the call has reserved the key'),
    'ask': (None, 'asks the loader or the writer'),
    'answer': (None, 'is answered'),
    'join': (None, 'joins a load'),
    'step': (svg.step, 'a step, at its place in the history'),
    'shared': (svg.shared_step, 'a step that shares a load'),
    'failed': (svg.failed_step, 'a step that failed'),
    'evict': (svg.eviction, 'an eviction'),
    'reads': (svg.read, 'the loader reads the store'),
    'says': (svg.other_answer, 'the loader answers by itself'),
    'changed': (svg.change, 'the store changes'),
    'foreign': (None, 'another program writes the store'),
    'cross': (svg.cross, 'a fault, or a call given up'),
    'refused': (svg.refusal, 'refused'),
}


def wrapped(text, most):
    """The lines of a text, broken at spaces."""
    lines = ['']
    for word in text.split(' '):
        if len(word) > WORD:
            raise Mismatch(f'a word of more than {WORD} characters: {word[:20]}..')
        if lines[-1] and len(lines[-1]) + 1 + len(word) > most:
            lines.append(word)
        else:
            lines[-1] += (' ' if lines[-1] else '') + word
    return lines


@dataclasses.dataclass
class Lane:
    """A column of the picture."""
    name: str
    x: float = 0        # of its line
    inside: float = 10  # from its line to its words
    wide: float = 0     # the width of its words

    @property
    def words(self):
        return self.x + self.inside


@dataclasses.dataclass
class Bar:
    """A reservation: of a key, by a session's call, from a row to another."""
    session: str
    key: str
    call: int
    first: int
    last: int = -1      # none, if the script ends before
    track: int = 0
    dropped: bool = False


class Diagram:
    """A picture that is being laid out."""

    def __init__(self, rows):
        if len(rows) > ROWS:
            raise Mismatch(f'more than {ROWS} lines')
        self.rows = with_shared_steps(rows)
        self.canvas, self.used = svg.Canvas(), set()
        self.bars = bars_of(self.rows)
        self.lanes = {lane: Lane(name) for lane, name in lanes_of(rows).items()}
        self.lines = [wrapped(row.text, WRAP) for row in self.rows]
        self.place_lanes()
        self.place_rows()

    # Where things are.

    def place_lanes(self):
        self.measure_words()
        for name, lane in self.lanes.items():
            tracks = [bar.track + 1 for bar in self.bars if bar.session == name]
            lane.inside = 14 + TRACK * (max(tracks, default=1) - 1)
        columns = [max(lane.inside + lane.wide + 16, svg.width(lane.name) + 12) for lane in self.lanes.values()]
        self.right = max(2 * MARGIN + sum(columns) + GAP * (len(columns) - 1), LEAST)
        gap = (self.right - 2 * MARGIN - sum(columns)) / max(1, len(columns) - 1)
        x = MARGIN + 10
        for lane, column in zip(self.lanes.values(), columns):
            lane.x = x
            x += column + gap

    def measure_words(self):
        """How wide the words of each lane are."""
        store = self.lanes['store']
        for row, lines in zip(self.rows, self.lines):
            if row.kind in BAND_KINDS:
                continue
            lane = self.lanes[self.lane_of(row)]
            lane.wide = max([lane.wide, *map(svg.width, lines)])
            if row.kind == 'foreign':
                store.wide = max(store.wide, svg.width('   ' + row.text))
            if row.held is not None:
                store.wide = max([store.wide, *map(svg.width, held_lines(row.held))])
            if row.kind in ('step', 'shared'):
                stripe = self.lanes[row.place[0]]
                stripe.wide = max(stripe.wide, svg.width(place_text(row)))

    def place_rows(self):
        """The middle of the first line of each row, and where the lanes end."""
        self.tops, y = [], MARGIN + HEADER
        if not any(row.kind == 'open' for row in self.rows):
            y += 8
        for row, lines in zip(self.rows, self.lines):
            if row.kind in BAND_KINDS:
                self.tops.append(y + 6 + BAND / 2)
                y += 6 + BAND + svg.LEADING * (len(self.band_lines(row)) - 1) + 4
            else:
                y += BEFORE_CALL if row.kind in ('call', 'foreign') else 0
                self.tops.append(y + ROW / 2)
                held = held_lines(row.held) if row.held is not None else []
                y += max(len(lines), len(held) + (row.kind == 'foreign')) * svg.LEADING + ROW - svg.LEADING
        self.end = y + 4

    def lane_of(self, row):
        if row.kind in ('foreign', 'set'):
            return 'store'
        return row.session or row.place[0]

    def band_lines(self, row):
        """The lines of a band: each has texts that stand beside each other, with their colours."""
        room, lines, used = self.right - 2 * MARGIN - 16, [], 0
        for text, fill in band_texts(row):
            for part in wrapped(text, int(room / svg.width('x'))):
                if not lines or used + svg.width(part) > room:
                    lines.append([])
                    used = 0
                lines[-1].append((part, fill))
                used += svg.width(part) + BETWEEN_TEXTS
        return lines

    def mark(self, kind, x, y):
        self.used.add(kind)
        LEGEND[kind][0](self.canvas, x, y)

    # What is drawn.

    def draw(self, title, tells, theme):
        for at, row in enumerate(self.rows):
            if row.kind in BAND_KINDS:
                self.draw_band(row, self.tops[at])
            else:
                self.draw_row(at, row)
        for bar in self.bars:
            self.draw_bar(bar)
        self.draw_asks()
        for lane in self.lanes.values():
            self.canvas.path(svg.LIFELINES, [(lane.x, MARGIN + HEADER), (lane.x, self.end)], stroke='rule', dash='2 3')
            self.canvas.box(svg.BANDS, lane.x - 10, MARGIN, svg.width(lane.name) + 14, HEADER, 'band', 'rule')
            self.canvas.text(lane.x - 3, MARGIN + 15, lane.name, bold=True)
        bottom = self.draw_legend(self.end + 14)
        return self.canvas.svg(self.right, bottom, title, tells, theme)

    def draw_band(self, row, y):
        lines = self.band_lines(row)
        high = BAND + svg.LEADING * (len(lines) - 1)
        self.canvas.box(svg.BANDS, MARGIN - 8, y - BAND / 2, self.right - 2 * MARGIN + 16, high, 'band',
                        'bad' if row.kind == 'fault' else 'rule')
        for count, texts in enumerate(lines):
            x = MARGIN
            for text, fill in texts:
                self.canvas.text(x, y + 4 + count * svg.LEADING, text, fill)
                x += svg.width(text) + BETWEEN_TEXTS

    def draw_row(self, at, row):
        y, lane = self.tops[at], self.lanes[self.lane_of(row)]
        if row.kind == 'foreign':
            self.canvas.arrow(lane.words + 14, lane.x + 7, y)
            self.used.add('foreign')
            self.mark('changed', lane.x, y)
            self.canvas.text(lane.words + svg.width('   '), y + 4, row.text)
        elif row.kind == 'evict':
            self.mark('evict', lane.x, y)
            self.canvas.text(lane.words, y + 4, row.text, 'gone')
        elif row.text:
            fill = 'bad' if row.failed else 'dim' if row.kind == 'runs' else 'ink'
            self.canvas.text(lane.words, y + 4, self.lines[at], fill, row.kind == 'call')
        if row.held is not None:
            self.draw_held(row, y)
        self.draw_links(at, row, y)

    def draw_held(self, row, y):
        """What the store has, beside its line; below the words of another program, if it has changed it."""
        y += svg.LEADING if row.kind == 'foreign' else 0
        self.canvas.text(self.lanes['store'].words, y + 4, held_lines(row.held), 'ink' if row.held else 'dim')

    def draw_links(self, at, row, y):
        """What leads from the words of a row to another lane, and the marks there."""
        end, store = self.end_of_words(at), self.lanes['store'].x
        if row.kind in ANSWERS:
            self.canvas.arrow(store - 8, end, y, '4 3')
            self.used.add('answer')
            self.mark(ANSWERS[row.kind], store - 9 if row.kind in ('left', 'says') else store, y)
        elif row.kind in ('step', 'shared'):
            self.draw_step(row, end, y)
        elif row.kind == 'joined':
            self.draw_join(at, row, y)
        elif row.kind == 'refused':
            self.mark('refused', end + 6, y)
        elif row.kind in ('fails', 'dropped'):
            self.mark('cross', end + 6, y)

    def draw_step(self, row, end, y):
        """A step, at its place. A shared one has its place in a row of its own, and is picked up in another."""
        lane = self.lanes[row.place[0]]
        if row.kind == 'shared' and row.session:
            self.canvas.arrow(lane.x - 3, end, y, '1 3')
            return
        if row.kind == 'step':
            self.canvas.path(svg.ARROWS, [(end, y), (lane.x - 8, y)], dash='1 3')
        self.mark('shared' if row.kind == 'shared' else 'failed' if row.failed else 'step', lane.x, y)
        self.canvas.text(lane.words, y + 4, place_text(row), size=svg.SMALL)

    def draw_join(self, at, row, y):
        """An arrow to the reservation whose load is joined."""
        bar = next(bar for bar in reversed(self.bars) if bar.call == row.joins and bar.key == row.key and bar.first < at)
        x, own = self.lanes[bar.session].x + bar.track * TRACK, self.lanes[row.session]
        if x < own.x:
            self.canvas.arrow(own.x, x + BAR / 2 + 1, y, stroke='edge')
        else:
            self.canvas.arrow(self.end_of_words(at), x - BAR / 2 - 1, y, stroke='edge')
        self.used.add('join')

    def end_of_words(self, at):
        row = self.rows[at]
        return self.lanes[self.lane_of(row)].words + svg.width(self.lines[at][0]) + 6

    def draw_bar(self, bar):
        """A reservation, with its key inside if there is room. If the script ends before it does, it goes down to the end of the lanes."""
        x, top = self.lanes[bar.session].x + bar.track * TRACK - BAR / 2, self.tops[bar.first] - 8
        bottom = self.tops[bar.last] + 8 if bar.last >= 0 else self.end - 4
        self.canvas.box(svg.BARS, x, top, BAR, bottom - top, 'bar', 'edge')
        self.used.add('bar')
        middle = x + BAR / 2
        if svg.width(bar.key, svg.SMALL) <= BAR:
            self.canvas.text(middle, top + 12, bar.key, size=svg.SMALL, anchor='middle')
        elif svg.width(bar.key, svg.SMALL) <= bottom - top - 8 and not self.bands_between(top, bottom):
            self.canvas.text(middle + 4, top + 4 + svg.width(bar.key, svg.SMALL), bar.key, size=svg.SMALL, turned=True)
        if bar.dropped:
            self.mark('cross', middle, bottom)

    def bands_between(self, top, bottom):
        return any(top < y < bottom for row, y in zip(self.rows, self.tops) if row.kind in BAND_KINDS)

    def draw_asks(self):
        """One arrow for all that a phase asks of the loader, or of the writer."""
        for group in asked_together(self.rows):
            ends = [self.end_of_words(at) for at in group]
            y, x = self.tops[group[-1]], ends[-1]
            if len(group) > 1:
                x = max(self.end_of_words(at) for at in range(group[0], group[-1] + 1)) + 4
                self.canvas.path(svg.ARROWS, [(x, self.tops[group[0]]), (x, y)])
                for at, end in zip(group, ends):
                    self.canvas.path(svg.ARROWS, [(end, self.tops[at]), (x, self.tops[at])])
            self.canvas.arrow(x, self.lanes['store'].x - 2, y)
            self.used.add('ask')

    def draw_legend(self, y):
        """What the marks mean that this picture has, in as many columns as there is room for."""
        used = [kind for kind in LEGEND if kind in self.used]
        wide = max((svg.width(LEGEND[kind][1], svg.SMALL) for kind in used), default=0) + 50
        columns = max(1, int((self.right - 2 * MARGIN + 22) / wide))
        for at, kind in enumerate(used):
            x, row = MARGIN - 6 + at % columns * wide, y + at // columns * svg.LEADING
            self.draw_sign(kind, x + 11, row)
            self.canvas.text(x + 28, row + 4, LEGEND[kind][1], 'dim', size=svg.SMALL)
        return y + (len(used) - 1) // columns * svg.LEADING + MARGIN - 4

    def draw_sign(self, kind, x, y):
        if LEGEND[kind][0]:
            LEGEND[kind][0](self.canvas, x, y)
        elif kind == 'bar':
            self.canvas.box(svg.BARS, x - BAR / 2, y - 6, BAR, 12, 'bar', 'edge')
        elif kind in ('answer', 'foreign'):
            self.canvas.arrow(x + 11, x - 11, y, '4 3' if kind == 'answer' else '')
        else:
            self.canvas.arrow(x - 11, x + 11, y, stroke='edge' if kind == 'join' else 'line')


def band_texts(row):
    """The texts of a row that is about all lanes, with their colours: what the transcript says, and then what the script asks for."""
    first, *others = row.text.split('\n')
    if row.kind == 'audit':
        return [(text, 'bad' if text.startswith('differs') else 'ink') for text in (first, *others)]
    return [(first, 'bad' if row.kind == 'fault' else 'ink'), *[(text, 'dim') for text in others]]


def lanes_of(rows):
    """The lanes and their names: sessions, stripes by their numbers, and the store."""
    sessions = sorted({row.session for row in rows if row.session}, key=lambda session: int(session[1:]))
    stripes = sorted({row.place[0] for row in rows if row.place})
    return {**{session: session for session in sessions}, **{stripe: f'stripe {stripe}' for stripe in stripes}, 'store': 'store'}


def place_text(row):
    return f'{row.place[0]}.{row.place[1]}'


def held_lines(held):
    """What the store has, in lines of the picture."""
    return wrapped(' '.join(held), HELD) if held else ['empty']


def with_shared_steps(rows):
    """The rows, and for each shared step another one where it was appended: behind the step that loaded, in the order of their places."""
    found = list(rows)
    for row in rows:
        if row.kind == 'shared':
            stripe, place, loaded = row.place
            opened = max((at for at, other in enumerate(found) if other.kind == 'reopened' and other.line < row.line), default=0)
            at = next(at for at, other in enumerate(found) if at >= opened and other.kind == 'step' and other.place == (stripe, loaded))
            while at + 1 < len(found) and found[at + 1].kind == 'shared' and not found[at + 1].session and found[at + 1].place[1] < place:
                at += 1
            found.insert(at + 1, dataclasses.replace(row, text='', session='', ends=()))
    return found


def bars_of(rows):
    """The reservations, each on the first track of its session that is free then."""
    bars, open_bars = [], {}
    for at, row in enumerate(rows):
        for key in row.ends:
            bar = open_bars.pop((row.call, key))
            bar.last, bar.dropped = at, row.kind == 'dropped'
        if row.starts:
            taken = {bar.track for bar in bars if bar.session == row.session and (bar.last < 0 or bar.last >= at)}
            track = next(track for track in range(BARS + 1) if track not in taken)
            if track == BARS:
                raise Mismatch(f'line {row.line} of the script: a call that has reserved more than {BARS} keys')
            bars.append(Bar(row.session, row.key, row.call, at, track=track))
            open_bars[row.call, row.key] = bars[-1]
    return bars


def asked_together(rows):
    """For each call of the loader or the writer the rows that ask for it. Of an entry processor, that of its net effect; of several
    processors none, since their writer is asked once all of them have run."""
    groups, processors = {}, {}
    for at, row in enumerate(rows):
        if row.kind == 'process':
            processors.setdefault(row.call, []).append(at)
        if row.kind in ASKS and row.starts or row.kind == 'effect' and len(processors.get(row.call, [])) == 1:
            groups.setdefault((row.call, row.line), []).append(at)
    return list(groups.values())
