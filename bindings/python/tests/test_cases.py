"""Plays the table of cases that all languages share, bindings/cases, whose README describes the format."""
import collections
import glob
import os
import threading
import unittest
from unittest import mock

import cadwrelch
from cadwrelch import waiting

HERE = os.path.dirname(os.path.abspath(__file__))
PLACES = [os.environ.get('CADWRELCH_CASES', ''), os.path.join(HERE, '..', '..', 'cases'), os.path.join(HERE, '..', '..', '..', 'cases')]
# What can't be played: a word of a line or the name of a case, and why.
LEFT_OUT = {'leaves': 'a writer says by an exception what it has not written', 'remove_all': 'Cache has no such call',
            'invoke_many': 'Cache has no such call'}
COUNTS = ('hits', 'misses', 'puts', 'removals', 'evictions')
HANGS = 60  # seconds: what takes longer hangs. Nothing is awaited by a time.


class Broken(Exception):
    """The loader, the writer or the processor has failed."""


def cases_of(path):
    """The cases of a file: the name of each, and its lines (their number, words and reply, and the asks below)."""
    cases = []
    with open(path, encoding='utf-8') as lines:
        for number, line in enumerate(map(str.strip, lines), 1):
            if line.startswith('case '):
                cases.append((line[5:], []))
            elif line.startswith('asks '):
                cases[-1][1][-1][3].append(line[5:])
            elif line and not line.startswith('#'):
                words, _, reply = line.partition(':')
                cases[-1][1].append((number, words.split(), reply.strip(), []))
    return cases


def pairs(words):
    return dict(word.split('=') for word in words if '=' in word)


def shown(entries):
    return ' '.join(f'{key}={value}' for key, value in entries.items())


def in_order(entries, nothing):
    return shown(dict(sorted(entries.items()))) or nothing


class Worker:
    """A thread of a case, or the case's own: where it is held, what has become of its call, and whom that has asked."""

    def __init__(self, held_in=None):
        self.held_in, self.state, self.reply, self.asks = held_in, None, '', []
        self.has_come, self.may_go = threading.Semaphore(0), threading.Semaphore(0)

    def come(self, state):
        self.state = state
        self.has_come.release()

    def hold(self, place):
        if self.held_in == place:
            self.held_in = None
            self.come('begins')
            assert self.may_go.acquire(timeout=HANGS)


class Player:
    """Plays one case. It is the loader and the writer, too: each call does its work, and then it may be held."""

    sleeps_in = waiting

    def __init__(self, options):
        self.stored, self.load_next, self.write_next, self.now = {}, [], [], 0
        self.own, self.workers, self.mine = Worker(), {}, threading.local()
        numbers = {name: int(number) for name, number in zip(options, options[1:]) if number.isdigit()}
        self.cache = self.make_cache(stripes=1, read_through='read' in options, write_through='write' in options, timer=lambda: self.now,
                                     **{'capacity': 100, **numbers})

    def make_cache(self, **words):
        return cadwrelch.Cache(self, self, **words)

    def worker(self):
        return getattr(self.mine, 'worker', self.own)

    def ask(self, text):
        self.worker().asks.append(text)
        self.worker().hold('store')

    def load(self, key):
        return self.load_many([key]).get(key)

    def load_many(self, keys):
        answer, self.load_next = self.load_next, []
        found = pairs(answer) if answer else dict(self.stored)
        self.ask('load ' + ' '.join(keys))
        if answer == ['fails']:
            raise Broken('loader')
        return found

    def write(self, key, value):
        self.write_many({key: value})

    def delete(self, key):
        self.delete_many([key])

    def write_many(self, entries):
        self.change('write ' + shown(entries), entries)

    def delete_many(self, keys):
        self.change('delete ' + ' '.join(keys), dict.fromkeys(keys))

    def change(self, asked, entries):
        answer, self.write_next = self.write_next, []
        left = list(entries) if answer in (['fails'], ['lies']) else [key for key in entries if key in answer]
        self.stored.update((key, value) for key, value in entries.items() if key not in left)
        self.stored = {key: value for key, value in self.stored.items() if value}
        self.ask(asked)
        if 'at' in answer:
            raise cadwrelch.NotWritten(left) from Broken('writer')
        if 'fails' in answer:
            raise Broken('writer')

    def play(self, steps):
        sleep = self.sleeps_in.sleep
        with mock.patch.object(self.sleeps_in, 'sleep', lambda waits_at: self.worker().come('waits') or sleep(waits_at)):
            for number, words, reply, asks in steps:
                is_look, is_begun = hasattr(self, 'see_' + words[0]), words[1:2] in (['begins'], ['waits'])
                found, worker = self.step(*words)
                found, worker.asks = [found, *worker.asks], []
                wanted = [' '.join(words[1:]) if is_look else words[1] if is_begun else reply, *asks]
                # The keys of a call that names none come in any order.
                if ([sorted(it.split()) for it in found] != [sorted(it.split()) for it in wanted] if 'remove_all' in words else found != wanted):
                    raise AssertionError(f'line {number}, {" ".join(words)}: wanted {wanted}, found {found}')
        assert self.load_next == self.write_next == [] and (self.cache.closed or self.cache._agrees())

    def step(self, first, *words):
        """What a line answers, and the thread that it is about."""
        if first.isdigit():
            return self.threaded(first, *words)
        do = getattr(self, 'see_' + first, None) or getattr(self, 'do_' + first, None)
        return (do(*words) or '' if do else self.reply(first, words)), self.own

    def see_stored(self, *_):
        return in_order(self.stored, 'nothing')

    def see_cached(self, *_):
        return in_order({key: self.cache.hit(key) for key in self.cache.keys()}, 'nothing')

    def see_counted(self, *_):
        counts = self.cache.stats()
        return ' '.join(f'{name} {counts[name]}' for name in COUNTS if counts[name]) or 'nothing'

    def do_with(self, *_):
        pass

    def do_store(self, *words):
        self.stored.update(pairs(words))

    def do_cache(self, *words):
        for word in words:
            self.load_next = ['finds', word]
            self.call('load_many', [word[0]])
        self.own.asks = []

    def do_load(self, *words):
        self.load_next = list(words)

    def do_write(self, *words):
        self.write_next = list(words)

    def do_clock(self, now):
        self.now = int(now)

    def threaded(self, name, what, *call):
        if what == 'ends':
            worker = self.workers.pop(name)
            worker.may_go.release()
            while worker.state != 'ends':
                assert worker.has_come.acquire(timeout=HANGS)
            return worker.reply, worker
        worker = self.workers[name] = Worker(None if what == 'waits' else 'processor' if 'hold' in call else 'store')
        threading.Thread(target=self.run, args=(worker, *call), daemon=True).start()
        assert worker.has_come.acquire(timeout=HANGS)
        return worker.state, worker

    def run(self, worker, verb, *words):
        self.mine.worker = worker
        worker.reply = self.reply(verb, words)
        worker.come('ends')

    def reply(self, verb, words):
        try:
            found = self.call(verb, words)
        except cadwrelch.ClosedError:
            return 'closed'
        except (cadwrelch.CacheError, Broken) as error:
            where = f' at {" ".join(sorted(error.failed)) or "no key"}' if isinstance(error, cadwrelch.BulkError) else ''
            return f'{error if isinstance(error, Broken) else error.__cause__} failed{where}'
        nothing = 'none' if verb.startswith('get') else 'ok'
        return in_order(found, nothing) if isinstance(found, dict) else nothing if found is None else str(found).lower()

    def call(self, verb, words):
        if verb == 'contains_key':
            return words[0] in self.cache
        call = getattr(self.cache, verb)
        if verb == 'put_many':
            return call(pairs(words))
        if verb == 'load_many':
            return call([word for word in words if word != 'replacing'], replace='replacing' in words)
        if verb == 'invoke':
            return call(words[0], self.process, words[2:])
        return call(words) if verb.endswith('_many') else call(*words)

    def process(self, entry, acts):
        return ' '.join([answer for act in acts if (answer := self.act(entry, act))]) or 'ok'

    def act(self, entry, act):
        """What an act is answered, if anything."""
        if act == 'get':
            return value_of(entry)
        if act == 'exists':
            return str(entry.exists()).lower()
        if act == 'fail':
            raise Broken('processor')
        if act == 'remove':
            entry.remove()
        elif act == 'hold':
            self.worker().hold('processor')
        else:
            entry.value = act.partition('=')[2]
        return ''


def value_of(entry):
    try:
        return entry.value or 'none'
    except cadwrelch.LoaderError:
        return 'failed'


class Cases(unittest.TestCase):
    player = Player

    def test_cases(self):
        folder = next((place for place in PLACES if os.path.isdir(place)), None)
        if folder is None:
            self.skipTest('there is no folder bindings/cases')
        played, left_out = 0, collections.Counter()
        for path in sorted(glob.glob(os.path.join(folder, '*.cases'))):
            for name, steps in cases_of(path):
                lacks = [it for it in (name, *(word for step in steps for word in step[1])) if it in LEFT_OUT]
                left_out.update(lacks[:1])
                if not lacks:
                    played += 1
                    with self.subTest(file=os.path.basename(path), case=name):
                        self.player(steps[0][1] if steps[0][1][0] == 'with' else []).play(steps)
        reasons = [f', {count} left out: {lack} ({LEFT_OUT[lack]})' for lack, count in left_out.items()]
        print(f'{self.player.__name__}: {played} cases played' + ''.join(reasons))
        self.assertGreater(played, 0)
