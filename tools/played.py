"""Reads a script beside its transcript: what happened, row by row, in the words of both.

It plays nothing. Which lines of the transcript belong to a line of the script follows from which keys of its call wait then for the loader,
the writer, the processor or a reply, as docs/SCRIPT.md says."""
import dataclasses
import re

ASKS = ('load', 'write', 'delete')  # what the outside is asked for
ONE_KEY = ('get', 'contains', 'put', 'getput', 'putif', 'remove', 'removeif', 'getremove', 'replace', 'replaceif', 'getreplace', 'forget', 'invoke')
FAILURE = re.compile(r'(?:Loader|Writer|Processor)Failed \d+|HistoryFull')
EVICTION = re.compile(r'evict (\S+) (full|memory|invalidated) at (\d+)\.(\d+)')
STEP = re.compile(r'\d+ (\S+) is (.+) at (\d+)\.(\d+)(?: shared (\d+))?')


class Mismatch(Exception):
    """A script and a transcript that don't belong together, or a picture that can't be drawn."""


@dataclasses.dataclass
class Row:
    """A line of the transcript, or the beginning of a call, in the order in which it happened."""
    kind: str                # `call`, `runs`, or what the line of the transcript says
    text: str                # its words; several lines of one `audit` are separated by line feeds, with what is being written among them
    line: int                # the line of the script that it belongs to
    session: str = ''        # whose call it is; nobody's, of what is no call's
    call: int = -1
    key: str = ''
    place: tuple = None      # (stripe, place) of a step or an eviction; of a shared step also that of the step that loaded
    starts: bool = False     # the key is reserved from here on
    ends: tuple = ()         # the keys that are free again from here on
    joins: int = -1          # the call whose load is joined
    held: list = None        # what the store has after this change
    failed: bool = False


def shape(words):
    """What an `open` or a `reopen` asks for."""
    counted = [f'{words[at]} {one if words[at] == "1" else many}'
               for at, one, many in ((1, 'stripe', 'stripes'), (2, 'entry', 'entries'), (3, 'event', 'events'))]
    return ', '.join(counted + [f'{option}-through' for option in words[4:]])


class Call:
    """A call under way. The state of a key is what the transcript said of it last, or `answered` once the outside has."""

    def __init__(self, session, keys):
        self.session = session
        self.states = dict.fromkeys(keys, '')
        self.changed = set()  # the keys at which its writer has changed the store

    def keys(self, *words):
        return [key for key, state in self.states.items() if state.partition(' ')[0] in words]

    def started(self):
        return self.keys(*ASKS, 'process', 'answered')

    def uncommitted(self):
        """The keys at which the store has a change that the cache hasn't yet."""
        return [key for key in self.started() if key in self.changed]


class Reader:
    """Goes through a script and its transcript, line by line, and keeps the rows."""

    def __init__(self, script, transcript):
        self.script = script.split('\n')
        self.said, self.at = transcript.removesuffix('\n').split('\n') if transcript else [], 0
        self.rows, self.calls, self.store = [], {}, {}
        self.line = self.stripes = self.capacity = 0

    def read(self):
        for self.line, text in enumerate(self.script, 1):
            begun = len(self.rows)
            if self.finds(rf'line {self.line}: .*'):
                shown = ''.join(each if ' ' <= each <= '~' else '?' for each in text)
                self.add('fault', f'{self.takes("line .*")[0]}\n{shown}', failed=True)
                break
            if text and not text.startswith('#'):
                self.play(text.split(' '))
            changed = [row for row in self.rows[begun:] if row.held is not None]
            for row in changed[:-1]:
                row.held = None
        if self.at < len(self.said):
            raise Mismatch(f'the transcript goes on behind the script: {self.said[self.at]!r}')
        return self.rows

    def play(self, words):
        act = getattr(self, f'on_{words[0]}', None)
        if act is None:
            raise Mismatch(f'line {self.line}: {words[0]!r} is no word of scripts, and the transcript has no fault there')
        act(words)

    # The transcript.

    def finds(self, pattern, ahead=0):
        """What the next line is by a pattern, if it fits."""
        at = self.at + ahead
        return re.fullmatch(pattern, self.said[at]) if at < len(self.said) else None

    def takes(self, pattern):
        found = self.finds(pattern)
        if found is None:
            next_line = repr(self.said[self.at]) if self.at < len(self.said) else 'no further line'
            raise Mismatch(f'line {self.line} of the script: the transcript has {next_line}, and no line as {pattern!r}')
        self.at += 1
        return found

    def add(self, kind, text, **more):
        self.rows.append(Row(kind, text, self.line, **more))
        return self.rows[-1]

    def add_of(self, number, kind, text, **more):
        return self.add(kind, text, session=self.calls[number].session, call=number, **more)

    def call_of(self, words):
        number = int(words[1])
        if number not in self.calls:
            raise Mismatch(f'line {self.line} of the script: call {number} never began')
        return number, self.calls[number]

    # The lines of a script.

    def on_open(self, words):
        self.stripes, self.capacity = int(words[1]), int(words[2])
        self.add('open', f'{self.takes("open")[0]}\n{shape(words)}')

    def on_set(self, words):
        self.store[words[1]] = words[2]
        self.changed(next((row for row in self.rows if row.kind == 'set'), None) or self.add('set', ''))

    def on_begin(self, words):
        number, op, names = int(words[1]), words[3], words[4:]
        names = names[:1] if op in ONE_KEY else names[1:] if op == 'loadall' else names
        self.calls[number] = Call(words[2], [name.partition('=')[0] for name in names])
        self.add_of(number, 'call', ' '.join([words[1], *words[3:]]))
        if self.finds(f'{number} refused .*'):
            self.add_of(number, 'refused', self.takes('.*')[0], failed=True)
            return
        if op in ('removeevery', 'clear'):
            self.calls[number].states = dict.fromkeys(self.cached_keys(number), '')
        self.answers(number, list(self.calls[number].states))

    def on_more(self, words):
        number, call = self.call_of(words)
        self.answers(number, call.keys('put', 'again'))

    def on_end(self, words):
        number, call = self.call_of(words)
        self.answers(number, call.started())

    def on_take(self, words):
        number, call = self.call_of(words)
        self.answers(number, call.keys('joined', 'waits'))

    def on_drop(self, words):
        number, call = self.call_of(words)
        while self.finds(EVICTION):
            self.evicts()
        self.add_of(number, 'dropped', self.takes(f'{number} dropped')[0], ends=tuple(call.started()))
        call.states = {}

    def on_read(self, words):
        number, call = self.call_of(words)
        for key in call.keys('load'):
            self.loads(number, key)

    on_say = on_read

    def on_readfail(self, words):
        number, call = self.call_of(words)
        call.states.update(dict.fromkeys(call.keys('load'), 'answered'))
        self.fails(number)

    def on_apply(self, words):
        """A writer that is asked for both is asked for the writes first."""
        number, call = self.call_of(words)
        for key in call.keys('write') or call.keys('delete'):
            said = self.takes(f'{number} {re.escape(key)} (written|deleted|left)')
            row = self.add_of(number, said[1], said[0], key=key, failed=said[1] == 'left')
            if said[1] == 'written':
                self.store[key] = call.states[key].partition(' ')[2]
            elif said[1] == 'deleted':
                self.store.pop(key, None)
            if said[1] != 'left':
                self.changed(row)
                call.changed.add(key)
            call.states[key] = 'answered'
        if words[0] != 'apply':
            self.fails(number)

    on_applyfail = on_applylie = on_apply

    def on_process(self, words):
        """The processor of the first key that waits for it, up to the line that says what its net effect is."""
        number, call = self.call_of(words)
        key = (call.keys('process') or [''])[0]
        self.add_of(number, 'runs', ' '.join(words), key=key)
        while not self.finds(f'{number} {re.escape(key)} (ready|write .*|delete)'):
            if self.finds(f'{number} {re.escape(key)} (reads|says) .*'):
                self.loads(number, key)
            elif self.finds(f'{number} fails .*'):
                self.fails(number)
            else:
                said = self.takes(rf'{number} (got|exists) .*')
                self.add_of(number, said[1], said[0], key=key)
        effect = self.takes('.*')[0].split(' ', 2)[2]
        call.states[key] = 'answered' if effect == 'ready' else effect
        self.add_of(number, 'ready' if effect == 'ready' else 'effect', f'{number} {key} {effect}', key=key)

    def on_foreign(self, words):
        self.store[words[1]] = words[2]
        if words[2] == '-':
            del self.store[words[1]]
        self.changed(self.add('foreign', self.takes('foreign .*')[0]))

    def on_invalidate(self, words):
        self.add('invalidated', self.takes(f'invalidate {re.escape(words[1])}( marked)?')[0])
        while self.finds(EVICTION):
            self.evicts()

    def on_reopen(self, words):
        self.stripes, self.capacity = int(words[1]), int(words[2])
        self.add('reopened', f'{self.takes("reopened.*")[0]}\n{shape(words)}')

    def on_audit(self, _words):
        lines = [self.takes(pattern)[0] for pattern in ('cache.*', 'store.*', 'coherent|differs.*')]
        lines += [f'{key} is being written by call {number}' for number, call in self.calls.items() for key in call.uncommitted()]
        self.add('audit', '\n'.join(lines + [self.takes('history .*')[0]]))

    def on_untold(self, _words):
        self.add('untold', self.takes('untold.*')[0])

    # What several lines print.

    def changed(self, row):
        row.held = [f'{key}={value}' for key, value in sorted(self.store.items())]

    def loads(self, number, key):
        said = self.takes(f'{number} {re.escape(key)} (reads|says) .*')
        self.add_of(number, said[1], said[0], key=key)
        if self.calls[number].states[key] == 'load':
            self.calls[number].states[key] = 'answered'

    def fails(self, number):
        self.add_of(number, 'fails', self.takes(rf'{number} fails \d+')[0], failed=True)

    def cached_keys(self, number):
        """The keys that a call without a list takes: those of the lines that follow, up to one of a line that comes later."""
        keys = []
        while found := self.finds(rf'{number} (\S+) (?:delete|put off|refused HistoryFull|is .* at .*)', len(keys)):
            if found[1] in keys:
                break
            keys.append(found[1])
        return keys

    def answers(self, number, keys):
        """What a phase prints of each of these keys, with what it evicts; at last that the call is over."""
        for key in keys:
            while self.finds(EVICTION):
                self.evicts()
            self.answer(number, key, self.takes(f'{number} {re.escape(key)} (.*)'))
            while self.is_evicted_at_once(key):
                self.evicts()
        if self.finds(f'{number} over .*'):
            said = self.takes('.*')[0]
            self.add_of(number, 'over', said, failed=not said.endswith(' ok'))

    def answer(self, number, key, said):
        call, words = self.calls[number], said[1]
        kind, was_started = words.partition(' ')[0], key in call.started()
        row = self.add_of(number, kind, said[0], key=key, failed=kind == 'refused')
        step = STEP.fullmatch(said[0])
        if step:
            row.failed = bool(FAILURE.match(step[2]))
            row.place = tuple(int(part) for part in step.groups()[2:] if part is not None)
            row.kind = 'shared' if step[5] else 'step'
            row.ends = (key,) if was_started else ()
        elif kind == 'joined':
            row.joins = next(other for other, loader in self.calls.items() if key in loader.started())
        row.starts = kind in (*ASKS, 'process')
        call.states[key] = words

    def evicts(self):
        said = self.takes(EVICTION)
        self.add('evict', said[0], key=said[1], place=(int(said[3]), int(said[4])))

    def is_evicted_at_once(self, key):
        """Whether the next line evicts the key of the step before it, and isn't of a victim of the step behind it."""
        said = self.finds(EVICTION)
        if not said or said[1] != key:
            return False
        behind = self.finds(STEP, 1)
        is_before_step = behind and (int(behind[3]), int(behind[4])) == (int(said[3]), int(said[4]) + 1)
        reserved = [other for call in self.calls.values() for other in call.started() if sum(other.encode()) % self.stripes == int(said[3])]
        return said[2] != 'full' or not is_before_step or len(reserved) >= self.capacity
