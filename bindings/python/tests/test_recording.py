"""What a recorder notes of a cache's calls."""
import os
import re
import tempfile
import threading
import unittest

import cadwrelch
from cadwrelch import BulkError, LoaderError, NotWritten, WriterError
from cadwrelch.recording import CallRecorder

from .stores import Broken, Store, Waits


class Many(Store):
    """A store of many keys at a time. It leaves the keys of `refused`."""
    refused = ()

    def load_many(self, keys):
        return {key: self.load(key) for key in keys}

    def write_many(self, entries):
        self.held.update({key: value for key, value in entries.items() if key not in self.refused})
        self.end(entries)

    def delete_many(self, keys):
        for key in keys:
            self.held.pop(key, None)
        self.end(keys)

    def end(self, keys):
        if any(key in self.refused for key in keys):
            raise NotWritten([key for key in keys if key in self.refused])


class Scene(unittest.TestCase):
    def setUp(self):
        self.over(Store())

    def over(self, store):
        self.recorder = CallRecorder()
        self.store = store
        self.cache = self.recorder.cache(cadwrelch.Cache(self.recorder.loader(store), self.recorder.writer(store), stripes=1, capacity=4))

    def lines(self, *words):
        """The record without its head and the times, and with codes from 1 on in the order of their coming; those that have a word."""
        lines = self.recorder.text().splitlines()
        self.assertEqual(lines[:2], ['history 1', 'open read write'])
        codes = {}
        found = []
        for line in lines[2:]:
            line = re.sub(r'^@\d+ ', '', line)
            line = re.sub(r'(fails \d+ |fails \S* ?|Failed |fails=)(\d+)\b',
                          lambda found: found[1] + str(codes.setdefault(found[2], len(codes) + 1)), line)
            found.append(line)
        return [line for line in found if not words or line.split(' ')[1] in words]

    def assert_lines(self, *lines):
        self.assertEqual(self.lines(), list(lines))

    def assert_ends(self, *lines):
        """What each call has answered, without its thread."""
        self.assertEqual([line.split(' ', 1)[1] for line in self.lines('is')], list(lines))


class Calls(Scene):
    def test_calls_loads_and_writes_are_lines(self):
        self.store.held['a'] = '1'
        self.recorder.stored('a', '1')
        self.assertEqual(self.cache.get('a'), '1')
        self.cache['b c'] = ''
        self.assertTrue(self.cache.replace_if('a', '1', '2'))
        self.assertEqual(self.cache.get_and_remove('a'), '2')
        self.assert_lines('set a 1', 't1 call 1 get a', 't1 load 1 a', 't1 loads 1 a=1', 't1 is 1 1',
                          't1 call 2 put b.20c ~', 't1 write 2 b.20c=~', 't1 writes 2', 't1 is 2 ok',
                          't1 call 3 replaceif a 1 2', 't1 write 3 a=2', 't1 writes 3', 't1 is 3 true',
                          't1 call 4 getremove a', 't1 delete 4 a', 't1 deletes 4', 't1 is 4 2')

    def test_all_other_calls_of_a_key(self):
        cache = self.cache
        found = [cache.get_and_put('a', '1'), cache.put_if_absent('a', '2'), cache.replace('a', '3', ttl=60), cache.get_and_replace('a', '4'),
                 'a' in cache, cache.remove_if('a', '5'), cache.remove('a'), cache.get('a', 'none'), cache.put('a', '6'), cache.hit('a'),
                 cache.hit('b'), len(cache), list(cache), cache.keys()]
        self.assertEqual(found, [None, False, True, '3', True, False, True, 'none', None, '6', None, 1, ['a'], ['a']])
        with self.assertRaises(KeyError):
            cache['b']
        del cache['a']
        self.assert_ends('is 1 -', 'is 2 false', 'is 3 true', 'is 4 3', 'is 5 true', 'is 6 false', 'is 7 true', 'is 8 -', 'is 9 ok', 'is 10 6',
                         'is 12 -', 'is 13 threw untold')
        self.assertEqual([line.split(' ')[3] for line in self.lines('call')],
                         'getput putif replace getreplace contains removeif remove get put get get remove'.split())

    def test_callables(self):
        recorder = CallRecorder()
        held = {}
        cache = recorder.cache(cadwrelch.Cache(recorder.loader(held.get), recorder.writer(lambda key, value: held.update({key: value}))))
        cache.put('a', '1')
        cache.remove('a')
        self.assertEqual([line.split(' ', 2)[2] for line in recorder.text().splitlines() if ' write ' in line or ' delete ' in line],
                         ['write 1 a=1', 'delete 2 a'])

    def test_names(self):
        recorder = CallRecorder(lambda it: f'n{it}')
        recorder.cache(cadwrelch.Cache()).put(1, 2)
        self.assertIn(' t1 call 1 put n1 n2\n', recorder.text())
        self.assertTrue(recorder.text().startswith('history 1\nopen\n'))

    def test_long_names(self):
        recorder = CallRecorder()
        cache = recorder.cache(cadwrelch.Cache())
        for key, value in (('a' * 40, 'b' * 300), ('a' * 41, 'c' * 256), ('', '')):
            cache[key] = value
        words = [line.split(' ')[5:] for line in recorder.text().splitlines() if ' call ' in line]
        self.assertEqual([[re.sub(r'\d+$', 'N', word) for word in pair] for pair in words],
                         [['a' * 20 + '..N', 'b' * 20 + '..N'], ['a' * 20 + '..N', 'c' * 256], ['..', '~']])
        self.assertNotEqual(words[0][0], words[1][0])

    def test_files(self):
        self.cache.get('a')
        with tempfile.TemporaryDirectory() as folder:
            path = os.path.join(folder, 'a.history')
            self.recorder.write(path)
            with open(path) as file:
                self.assertEqual(file.read(), self.recorder.text())

    def test_what_changes_and_has_no_word(self):
        for name in ('pop', 'popitem', 'setdefault', 'update'):
            with self.assertRaises(AttributeError):
                getattr(self.cache, name)

    def test_others_write_by_the_recorded_writer(self):
        self.recorder.writer(self.store).delete('a')
        self.assert_lines('t1 call 1 removeall a', 't1 delete 1 a', 't1 deletes 1')

    def test_it_closes(self):
        with self.cache as cache:
            self.assertIs(cache, self.cache)
        self.assertTrue(self.cache.closed)
        with self.assertRaises(cadwrelch.ClosedError):
            self.cache.get('a')
        self.assert_ends('is 1 threw ClosedError')


class ManyKeys(Scene):
    def setUp(self):
        self.over(Many())

    def test_one_call(self):
        self.store.refused = ('b',)
        with self.assertRaises(BulkError):
            self.cache.put_many({'a': '1', 'b': '2'})
        self.assertEqual(self.cache.get_many(['a', 'b']), {'a': '1'})
        self.assertEqual(self.cache.get_many([]), {})
        self.cache.load_many(['c'], replace=True)
        self.store.refused = ()
        self.cache.remove_many(['a'])
        self.cache.clear()
        self.assert_lines('t1 call 1 putall a=1 b=2', 't1 write 1 a=1 b=2', 't1 writefails 1 1 but b', 't1 is 1 WriterFailed 1',
                          't1 call 2 getall a b', 't1 load 2 b', 't1 loads 2', 't1 is 2 all a=1',
                          't1 call 3 loadall replace c', 't1 load 3 c', 't1 loads 3', 't1 is 3 ok',
                          't1 call 4 removeall a', 't1 delete 4 a', 't1 deletes 4', 't1 is 4 ok', 't1 call 5 clear', 't1 is 5 ok')

    def test_a_load_fails(self):
        self.store.load_fails = Broken()
        with self.assertRaises(BulkError):
            self.cache.get_many(['a'])
        with self.assertRaises(BulkError):
            self.cache.load_many(['a'])
        self.assert_ends('is 1 LoaderFailed 1', 'is 2 LoaderFailed 1')


class Failures(Scene):
    def test_loader_and_writer(self):
        self.store.load_fails, self.store.write_fails = Broken(), Broken()
        with self.assertRaises(LoaderError):
            self.cache.get('a')
        with self.assertRaises(WriterError):
            self.cache.put('a', '1')
        self.assert_lines('t1 call 1 get a', 't1 load 1 a', 't1 loadfails 1 1', 't1 is 1 LoaderFailed 1',
                          't1 call 2 put a 1', 't1 write 2 a=1', 't1 writefails 2 2', 't1 is 2 WriterFailed 2')

    def test_what_is_no_exception(self):
        self.store.load_fails, self.store.write_fails = KeyboardInterrupt(), SystemExit()
        with self.assertRaises(KeyboardInterrupt):
            self.cache.get('a')
        with self.assertRaises(SystemExit):
            self.cache.put('a', '1')
        self.assert_ends('is 1 LoaderFailed 1', 'is 2 WriterFailed 2')

    def test_who_joins_a_load(self):
        entered, opened = threading.Event(), threading.Event()

        def load(key):
            entered.set()
            opened.wait(60)
            raise Broken

        recorder = self.recorder = CallRecorder()
        recorder.writer(print)
        cache = recorder.cache(cadwrelch.Cache(recorder.loader(load)))
        failed = []

        def get():
            try:
                cache.get('a')
            except LoaderError as error:
                failed.append(error)

        threads = [threading.Thread(target=get) for _ in range(2)]
        with Waits() as waits:
            threads[0].start()
            entered.wait(60)
            threads[1].start()
            waits.of(1)
        self.assertEqual(sorted(self.lines()), ['t1 call 1 get a', 't1 load 1 a', 't2 call 2 get a'])
        opened.set()
        for thread in threads:
            thread.join()
        self.assertEqual(len(failed), 2)
        self.assertEqual(sorted(self.lines('loadfails', 'is')),
                         ['t1 is 1 LoaderFailed 1', 't1 loadfails 1 1', 't2 is 2 LoaderFailed 1'])


class Processors(Scene):
    def test_its_calls_are_a_line(self):
        def processor(entry, step):
            entry.value = (entry.value or '') + step
            del entry.value
            entry.value = step
            return entry.exists()

        self.assertTrue(self.cache.invoke('a', processor, 'x'))
        self.assert_lines('t1 call 1 invoke a', 't1 load 1 a', 't1 loads 1',
                          't1 process 1 a get=- set=x remove set=x exists=true returns=True', 't1 write 1 a=x', 't1 writes 1', 't1 is 1 True')

    def test_a_load_that_fails_inside(self):
        def passes(entry):
            entry.value

        def raises(entry):
            try:
                entry.value
            except LoaderError:
                raise ValueError from None

        def fails(entry):
            entry.value = '1'
            raise ValueError

        self.store.load_fails = Broken()
        with self.assertRaises(LoaderError):
            self.cache.invoke('a', passes)
        with self.assertRaises(LoaderError):
            self.cache.invoke('a', raises)
        with self.assertRaises(ValueError):
            self.cache.invoke('a', fails)
        self.assertEqual([line for line in self.lines('process')],
                         ['t1 process 1 a getfails=1 fails=1', 't1 process 2 a getfails=1 fails=2', 't1 process 3 a set=1 fails=3'])
        self.assert_ends('is 1 LoaderFailed 1', 'is 2 LoaderFailed 1', 'is 3 ProcessorFailed 3')

    def test_another_call_inside_fails(self):
        self.store.load_fails = Broken()
        with self.assertRaises(LoaderError):
            self.cache.invoke('a', lambda entry: self.cache.get('b'))
        self.assert_lines('t1 call 1 invoke a', 't2 call 2 get b', 't1 load 2 b', 't1 loadfails 2 1', 't2 is 2 LoaderFailed 1',
                          't1 process 1 a fails=2', 't1 is 1 ProcessorFailed 2')


class Inside(Scene):
    def test_a_call_inside_a_loader_leaves_the_load_its_own(self):
        recorder = self.recorder = CallRecorder()
        recorder.writer(print)
        cache = recorder.cache(cadwrelch.Cache(recorder.loader(lambda key: cache.get('b') + '!' if key == 'a' else '1')))
        self.assertEqual(cache.get('a'), '1!')
        self.assertEqual(self.lines('loads'), ['t1 loads 2 b=1', 't1 loads 1 a=1.21'])

    def test_two_recorders(self):
        other = CallRecorder()
        inner = other.cache(cadwrelch.Cache(other.loader(lambda key: '1')))
        recorder = self.recorder = CallRecorder()
        recorder.writer(print)
        cache = recorder.cache(cadwrelch.Cache(recorder.loader(inner.get)))
        cache.get('a')
        for one in (recorder, other):
            self.assertEqual(one.text().count(' load 1 a\n'), 1)

    def test_threads_of_a_cache_work_for_a_call(self):
        class Dict(dict):
            def __missing__(self, key):
                number = recorder.current_call()
                thread = threading.Thread(target=self.work, args=(number, key))
                thread.start()
                thread.join()
                return self.get(key)

            def work(self, number, key):
                with recorder.in_call(number):
                    self[key] = load(key)

        recorder = self.recorder = CallRecorder()
        recorder.writer(print)
        load = recorder.loader(lambda key: '1')
        self.assertEqual(recorder.cache(Dict())['a'], '1')
        self.assertIsNone(recorder.current_call())
        self.assert_lines('t1 call 1 get a', 't2 load 1 a', 't2 loads 1 a=1', 't1 is 1 1')


if __name__ == '__main__':
    unittest.main()
