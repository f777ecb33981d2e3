"""Plays random scripts with calls of many keys through the library and through `jcache run`, and compares what they say, byte by byte.

The library has no such calls: a host makes them of calls of one key, each by a session of its own, in rounds. Its loader and its writer are
asked once for all keys of a round, and may fail in part. Beside them are the calls of one key of differ.py.

usage: differ_bulk.py JCACHE FIRST COUNT     JCACHE: the program; FIRST: the first random seed
"""
from differ import HISTORY, KEYS, VALUES, Call, Player, main, raw, word
from cadwrelch import core

# Each call of many keys: the operation at each of them, and the words before them.
BULK = {
    'getall': (core.GET, 'getall'), 'putall': (core.PUT, 'putall'), 'removeall': (core.REMOVE, 'removeall'),
    'removeevery': (core.REMOVE, 'removeevery'), 'clear': (core.CLEAR_KEY, 'clear'), 'loadall': (core.LOAD, 'loadall keep'),
    'reloadall': (core.RELOAD, 'loadall replace'), 'invokeall': (core.INVOKE, 'invokeall'),
}
BULK_CHOICES = ['getall', 'getall', 'putall', 'putall', 'removeall', 'loadall', 'reloadall', 'invokeall', 'invokeall', 'removeevery', 'clear']


class Bulk:
    """A call of many keys."""

    def __init__(self, line, session, name, values):
        self.line = line
        self.session = session
        self.name = name
        self.values = values
        """The value of each key, in their order, or ''."""
        self.waiting = list(values)
        """The keys that have no first phase in this round."""
        self.out = {}
        """The calls of its keys that have something out."""
        self.cause = None
        self.next = None
        self.processed = None

    def started(self):
        return [call for call in self.out.values() if call.next != core.JOINED]

    def fail(self, cause):
        if self.name != 'invokeall':
            self.cause = self.cause or cause


class BulkPlayer(Player):
    """One random script, with calls of many keys."""

    def history(self):
        return HISTORY, False

    def is_over(self, call):
        """No generation nears its end, so nobody asks."""
        return False

    # Rounds.

    def begin_one(self, session):
        if self.random.random() < .4:
            super().begin_one(session)
            return
        name = self.random.choice(BULK_CHOICES)
        keys = self.random.sample(KEYS, self.random.randint(1, len(KEYS)))
        if name in ('removeevery', 'clear'):
            keys = sorted(self.table)
        values = {key: self.random.choice(VALUES) if name == 'putall' else '' for key in keys}
        self.line += 1
        words = [f'{key}={value}' if value else key for key, value in values.items()]
        listed = words if name not in ('removeevery', 'clear') else []
        self.script.append(' '.join([f'begin {self.line} s{session} {BULK[name][1]}', *listed]))
        bulk = self.calls[self.line] = Bulk(self.line, session, name, values)
        self.round(bulk)

    def round(self, bulk):
        """The first phase of each key that waits for it."""
        waiting, bulk.waiting = bulk.waiting, []
        for key in waiting:
            # Of a session of its own: those of scripts are below 33.
            session = 100 * bulk.line + KEYS.index(key)
            was_missing = key not in self.table
            values = [bulk.values[key]] if bulk.name == 'putall' else []
            out = self.first_phase(session, BULK[bulk.name][0], key, *values)
            if out.next == core.DONE:
                self.done(bulk.line, key, was_missing and bulk.name == 'putall')
            elif out.next == core.REFUSED:
                assert out.reply == core.BUSY, 'a key was refused'
                bulk.waiting.append(key)
                self.say(bulk.line, key, 'put off')
            else:
                call = bulk.out[key] = Call(bulk.line, session, key, out)
                self.say(bulk.line, key, self.asked(call))
        self.end_if_over(bulk)

    def end_if_over(self, bulk):
        if not bulk.waiting and not bulk.out:
            self.says.append(f'{bulk.line} over {bulk.cause or "ok"}')
            del self.calls[bulk.line]

    def go_on(self, call):
        if not isinstance(call, Bulk):
            super().go_on(call)
            return
        started = call.started()
        unanswered = [it for it in started if not it.is_answered()]
        is_joined = len(started) < len(call.out)
        if len(unanswered) == len(started) and not is_joined and not any(it.processed for it in started) and self.random.random() < .1:
            self.drop_all(call)
        elif unanswered:
            self.ask(call, unanswered)
        elif started:
            self.end_all(call, started)
        elif call.out:
            self.take_all(call)
        else:
            self.script.append(f'more {call.line}')
            self.round(call)

    def drop_all(self, bulk):
        self.script.append(f'drop {bulk.line}')
        self.says.append(f'{bulk.line} dropped')
        for call in bulk.out.values():
            self.withdraw(call)
        del self.calls[bulk.line]

    def take_all(self, bulk):
        self.script.append(f'take {bulk.line}')
        told = {key: (self.picked_up(call), self.desk.out.reply, self.desk.out.code) for key, call in bulk.out.items()}
        for key, (picked, reply, code) in told.items():
            if picked == core.NOT_YET:
                continue
            del bulk.out[key]
            if picked == core.AGAIN:
                bulk.waiting.append(key)
            elif reply == core.LOADER_FAILED:
                bulk.fail(f'LoaderFailed {code}')
        bulk.waiting.sort(key=list(bulk.values).index)
        self.end_if_over(bulk)

    def end_all(self, bulk, started):
        self.script.append(f'end {bulk.line}')
        for call in started:
            self.commit(call)
            del bulk.out[call.key]
            if call.loaded is not None and call.loaded[0] == core.FAILED:
                bulk.fail(f'LoaderFailed {call.loaded[1]}')
            if call.written is not None and call.written[0] == core.FAILED:
                bulk.fail(f'WriterFailed {call.written[1]}')
        self.end_if_over(bulk)

    # One call outside for all keys of a round.

    def ask(self, bulk, calls):
        unprocessed = [call for call in calls if call.next == core.ASK_PROCESS and call.processed is None]
        sets = [call for call in calls if call.change is not None]
        if unprocessed:
            self.process(unprocessed[0])
        elif calls[0].next == core.ASK_LOAD:
            self.load_all(bulk, calls)
        else:
            self.write_all(bulk, sets or calls)

    def load_all(self, bulk, calls):
        chance = self.random.random()
        if chance < .2:
            self.script.append(f'readfail {bulk.line} 7')
            self.says.append(f'{bulk.line} fails 7')
            answers = None
        elif chance < .5:
            pairs = [(self.random.choice(KEYS), self.random.choice(VALUES)) for _ in range(self.random.randint(0, 6))]
            self.script.append(' '.join([f'say {bulk.line}', *(f'{key}={value}' for key, value in pairs)]))
            answers, says = {key: raw(value) for key, value in pairs}, 'says'
        else:
            self.script.append(f'read {bulk.line}')
            answers, says = self.store, 'reads'
        for call in calls:
            if answers is None:
                call.loaded = (core.FAILED, 7, b'')
                continue
            value = answers.get(call.key)
            self.say(call.line, call.key, f'{says} {word(value)}')
            call.loaded = (core.NOTHING, 0, b'') if value is None else (core.FOUND, 0, value)

    def write_all(self, bulk, calls):
        form, code = self.random.choice([('apply', None)] * 6 + [('applyfail', 4), ('applylie', 6)])
        words = [form, str(bulk.line)] + [str(code)] * (code is not None)
        left = set(KEYS) if form == 'applyfail' else set()
        if form != 'applylie' and self.random.random() < .4:
            named = self.random.sample(KEYS, self.random.randint(form == 'apply', 3))
            words += ['but', *named]
            left = set(named)
        self.script.append(' '.join(words))
        for call in calls:
            if call.key in left:
                self.say(call.line, call.key, 'left')
            else:
                self.say(call.line, call.key, 'deleted' if call.change is None else 'written')
                self.change(call)
            failed = call.key in left or form == 'applylie'
            call.written = (core.FAILED, code or 0) if failed else (core.WRITTEN, 0)
        if code is not None:
            self.says.append(f'{bulk.line} fails {code}')
            bulk.fail(f'WriterFailed {code}')


if __name__ == '__main__':
    main(BulkPlayer, __doc__)
