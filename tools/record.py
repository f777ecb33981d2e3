"""A script and its transcript, as `jcache run` prints it, as a record for `jcache check` (docs/CHECK.md).

It plays nothing: which lines of the transcript belong to a line of the script follows from their words. Lines have no times, since
each event has its line. A session s1 is the thread t1; other programs are t0."""

MANY = ('getall', 'putall', 'removeall', 'removeevery', 'clear', 'loadall', 'invokeall')
BEGINS = ('is', 'load', 'write', 'delete', 'process', 'joined', 'refused', 'put')


class Conversion:
    """The record so far, and the lines of the transcript that are left."""

    def __init__(self, transcript):
        self.lines = [line.split(' ') for line in transcript.split('\n') if line]
        self.record = ['history 1']
        self.thread, self.words, self.values = {}, {}, {}  # of each call
        self.asked, self.held = {}, {}                     # whom it has asked; what its processors ask for later

    def take(self, belongs):
        """The next lines, as long as they belong."""
        taken = []
        while self.lines and belongs(self.lines[0]):
            taken.append(self.lines.pop(0))
        return taken

    def note(self, call, *words):
        self.record.append(' '.join((self.thread[call],) + words))

    def ask(self, call, rows):
        """What a call asks its loader and its writer, of all keys together."""
        for what in ('load', 'write', 'delete'):
            keys = [w[1] + (f'={w[3]}' if what == 'write' else '') for w in rows if len(w) > 2 and w[2] == what]
            if keys:
                self.note(call, what, call, *keys)
                self.asked.setdefault(call, []).append(what)

    def end(self, call, rows):
        """What it answered."""
        many = self.words[call][0] in MANY
        for w in rows:
            if len(w) > 2 and w[2] == 'is':
                self.values[call][w[1]] = reply = w[3:w.index('at')]
                if not many:
                    self.note(call, 'is', call, *reply)
            elif w[1] == 'over':
                found = [f'{k}={v[0]}' for k, v in self.values[call].items() if v != ['-'] and len(v) == 1]
                self.note(call, 'is', call, *(['all'] + found if w[2:] == ['ok'] and self.words[call][0] == 'getall' else w[2:]))

    def begin(self, words):
        call = words[1]
        if words[0] == 'begin':
            self.thread[call], self.words[call], self.values[call] = 't' + words[2][1:], words[3:], {}
            self.note(call, 'call', call, *words[3:])
        rows = self.take(lambda w: w[0] == 'evict' or w[0] == call and (w[1] in ('refused', 'over') or w[2] in BEGINS))
        own = [w for w in rows if w[0] == call]
        self.ask(call, own)
        self.end(call, own)

    def loads(self, words):
        call = words[1]
        rows = self.take(lambda w: w[0] == call and (w[1] == 'fails' or len(w) > 2 and w[2] in ('reads', 'says')))
        if words[0] == 'readfail':
            self.note(call, 'loadfails', call, words[2])
        else:
            self.note(call, 'loads', call, *(f'{w[1]}={w[3]}' for w in rows if w[3] != '-'))

    def writes(self, words):
        call = words[1]
        self.take(lambda w: w[0] == call and (w[1] == 'fails' or len(w) > 2 and w[2] in ('written', 'deleted', 'left')))
        if call in self.held:
            self.ask(call, self.held.pop(call))
        what = next(one for one in self.asked[call] if one != 'load')
        self.asked[call].remove(what)
        but = words[words.index('but'):] if 'but' in words else []
        if words[0] == 'apply':
            self.note(call, f'{what}s', call, *but)
        else:
            self.note(call, f'{what}fails', call, words[2], *but)

    def process(self, words):
        call = words[1]
        key, answers, failure, last = self.words[call][1], [], None, None
        while last is None:
            w = self.lines.pop(0)
            if w[1] in ('got', 'exists'):
                answers.append(('get=' if w[1] == 'got' else 'exists=') + w[2])
            elif len(w) > 2 and w[2] in ('reads', 'says'):
                self.note(call, 'load', call, w[1])
                self.note(call, 'loads', call, *([f'{w[1]}={w[3]}'] if w[3] != '-' else []))
            elif w[1] == 'fails' and any(one.startswith('loadfail') for one in words):
                self.note(call, 'load', call, key)
                self.note(call, 'loadfails', call, w[2])
                answers.append('getfails=' + w[2])
            elif w[1] == 'fails':
                failure = w[2]
            if len(w) > 2 and w[2] in ('write', 'delete', 'ready'):
                key, last = w[1], w
        told = iter(answers)
        calls = [next(told, None) if one in ('get', 'exists') else one for one in words[2:] if one in ('get', 'exists', 'remove') or one.startswith('set=')]
        calls = [one for one in calls if one]
        value = next((one[4:] for one in reversed(calls) if one.startswith('get=')), '-')
        self.note(call, 'process', call, key, *calls, f'fails={failure}' if failure else f'returns={value}')
        self.held.setdefault(call, []).append(last)
        if self.words[call][0] == 'invoke':
            self.ask(call, self.held.pop(call))

    def line(self, words):
        """One line of the script."""
        if words[0] == 'open':
            self.lines.pop(0)
            self.record.append(' '.join(['open'] + words[4:]))
        elif words[0] == 'set':
            self.record.append(' '.join(words))
        elif words[0] in ('begin', 'more'):
            self.begin(words)
        elif words[0] in ('read', 'say', 'readfail'):
            self.loads(words)
        elif words[0] in ('apply', 'applyfail', 'applylie'):
            self.writes(words)
        elif words[0] == 'process':
            self.process(words)
        elif words[0] in ('end', 'take'):
            rows = self.take(lambda w: w[0] == 'evict' or w[0] == words[1] and (w[1] == 'over' or len(w) > 2 and w[2] in ('is', 'waits', 'again')))
            self.end(words[1], [w for w in rows if w[0] == words[1]])
        elif words[0] == 'foreign':
            self.lines.pop(0)
            self.record.append(f't0 foreign {words[1]} {words[2]}')
        elif words[0] == 'audit':
            del self.lines[:4]
        elif words[0] in ('drop', 'reopen', 'untold', 'invalidate'):
            self.take(lambda w: w[0] == 'evict')
            self.lines.pop(0)
            self.take(lambda w: w[0] == 'evict' and words[0] == 'invalidate')


def record_of(script, transcript):
    """The record of a script whose transcript this is, both as text."""
    conversion = Conversion(transcript)
    for line in script.split('\n'):
        if line and not line.startswith('#'):
            conversion.line(line.split(' '))
    return '\n'.join(conversion.record) + '\n'
