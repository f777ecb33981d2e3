"""Keys: how they are dealt to stripes, what is equal; and how large a cache is."""
import copy
import pickle
import unittest

import cadwrelch
from cadwrelch import shape

from .stores import Store


class Plain:
    """An object with the default hash."""


class Dealt(unittest.TestCase):
    def test_keys_of_any_step_fill_all_stripes(self):
        room = 16 * 1024
        plain = [Plain() for _ in range(room)]
        kinds = {f'step {step}': [i * step for i in range(room)] for step in (1, 2, 10, 16, 1000, 4096, 2**32, 2**40)}
        kinds.update(objects=plain, tuples=[(i, 'page') for i in range(room)], strings=[str(i) for i in range(room)],
                     floats=[i / 64 for i in range(room)], bytes=[i.to_bytes(8, 'big') for i in range(room)])
        for kind, keys in kinds.items():
            cache = cadwrelch.Cache(stripes=16, capacity=room)
            for key in keys:
                cache[key] = 1
            # 16 stripes with as many keys as they have room for, at random, keep 98.8 of 100, and hardly ever fewer than 97.6.
            self.assertGreaterEqual(len(cache), 0.97 * room, kind)


class Equal(unittest.TestCase):
    def test_a_subclass_has_its_own_equality(self):
        def folded(kind, fold):
            class Folded(kind):
                def __eq__(self, other):
                    return fold(self) == fold(other)

                def __hash__(self):
                    return hash(fold(self))

            return Folded

        text = folded(str, lambda key: str(key).lower())
        number = folded(int, lambda key: abs(int(key)))
        octets = folded(bytes, lambda key: bytes(key).lower())
        pair = folded(tuple, lambda key: tuple(sorted(key)))
        some = folded(frozenset, lambda key: frozenset(map(abs, key)))
        for one, same, other in ((text('Ann'), text('ANN'), text('Bob')), (number(5), number(-5), number(4)), (octets(b'a'), octets(b'A'), octets(b'b')),
                                 (pair((1, 2)), pair((2, 1)), pair((1, 3))), (some([1]), some([-1]), some([2]))):
            cache = cadwrelch.Cache()
            cache[one] = 1
            self.assertEqual((cache.hit(same), cache.hit(other), same in cache, {one: 1}.get(same)), (1, None, True, 1))
            self.assertEqual((cache.get_many([same]), cache.remove(same), len(cache)), ({same: 1}, True, 0))

    def test_numbers_of_several_types_are_one_key(self):
        cache = cadwrelch.Cache()
        cache[1] = 'one'
        self.assertEqual([cache.hit(key) for key in (1.0, True, 1 + 0j, 2)], ['one'] * 3 + [None])

    def test_many_keys_of_one_hash(self):
        class Same:
            def __init__(self, number):
                self.number = number

            def __hash__(self):
                return 1

            def __eq__(self, other):
                return self.number == other.number

        cache = cadwrelch.Cache(stripes=4)
        for number in range(200):
            cache[Same(number)] = number
        self.assertEqual([cache.hit(Same(number)) for number in range(200)], list(range(200)))
        self.assertTrue(cache._agrees())


class Made(unittest.TestCase):
    def test_wrong_arguments_are_told_at_once(self):
        for words, kind, told in (
                ({'loader': 3}, TypeError, 'loader is 3: it has to be a callable, or to have a method load'),
                ({'writer': []}, TypeError, r'writer is \[\]: it has to be a callable, or to have a method write'),
                ({'name': 3}, TypeError, 'name is 3: it has to be a str'),
                ({'stripes': True}, TypeError, 'stripes is True: it has to be a whole number'),
                ({'capacity': 2.5}, TypeError, 'capacity is 2.5: it has to be a whole number'),
                ({'maxsize': '10'}, TypeError, "maxsize is '10': it has to be a whole number"),
                ({'stripes': 0}, ValueError, 'stripes is 0: it has to be a number from 1 to 4096'),
                ({'stripes': 4097}, ValueError, 'stripes is 4097: it has to be a number from 1 to 4096'),
                ({'capacity': 0}, ValueError, 'capacity is 0: it has to be a number from 1 to 16777216'),
                ({'capacity': 3, 'stripes': 4}, ValueError, 'capacity is 3: it has to be a number from 4 to 16384 with 4 stripes'),
                ({'history': 15}, ValueError, 'history is 15: it has to be a number from 16 to 65536'),
                ({'maxsize': 4096 * 4096 + 1}, ValueError, 'maxsize is 16777217: it has to be a number from 1 to 16777216'),
                ({'maxsize': 10, 'capacity': 20}, ValueError, 'capacity is 20 and maxsize 10: they are one option, by two names'),
                ({'maxsize': 10, 'stripes': 0}, ValueError, 'stripes is 0: it has to be a number from 1 to 4096'),
                ({'ttl': -1}, ValueError, 'ttl is -1: it has to be a number of seconds, 0 or more'),
                ({'ttl': '1'}, TypeError, "ttl is '1': it has to be a number of seconds, or None"),
                ({'tti': 0}, ValueError, 'tti is 0: it has to be longer than 0'),
                ({'timer': 5}, TypeError, 'timer is 5: it has to be a callable that gives seconds'),
                ({'refresh_after': 5}, ValueError, 'refresh_after is 5, and there is no loader'),
                ({'refresh_after': 0, 'loader': print}, ValueError, 'refresh_after is 0: it has to be longer than 0'),
                ({'absent_for': 5}, ValueError, 'absent_for is 5, and read-through is off'),
                ({'absent_for': float('nan'), 'loader': print}, ValueError, 'absent_for is nan: it has to be longer than 0'),
                ({'read_through': 1}, TypeError, 'read_through is 1: it has to be True or False'),
                ({'write_through': True}, ValueError, 'write_through is True, and there is no writer')):
            for made in (cadwrelch.Cache, cadwrelch.AsyncCache):
                with self.subTest(words), self.assertRaisesRegex(kind, f'^{told}'):
                    made(**words)
        with self.assertRaisesRegex(TypeError, 'executor is 3: it has to be what has a method submit'):
            cadwrelch.Cache(executor=3)
        with self.assertRaisesRegex(ValueError, 'a time to live is -1: it has to be 0 or more seconds'):
            cadwrelch.Cache().put('a', 1, ttl=-1)

    def test_capacity_is_the_whole_cache_s(self):
        cache = cadwrelch.Cache(capacity=7, stripes=4)
        for key in range(1000):
            cache[key] = key
        self.assertEqual(len(cache), 7)
        for capacity in (1, 3, 511, 2047, 2048, 2049, 10_000):
            cache = cadwrelch.Cache(capacity=capacity) if capacity % 2 else cadwrelch.Cache(maxsize=capacity)
            for key in range(3 * capacity):
                cache[key] = key
            self.assertTrue(cache._agrees())
            # One stripe keeps exactly as many; several may lack a few.
            self.assertLessEqual(len(cache), capacity)
            self.assertGreaterEqual(len(cache), capacity if capacity < 512 else 0.97 * capacity)

    def test_sizes_are_those_of_the_other_languages(self):
        def sizes(capacity=None, stripes=None):
            return shape._sizes(capacity, None, stripes)

        self.assertEqual([sizes(), sizes(1), sizes(511), sizes(512), sizes(4095), sizes(4096), sizes(65_537)],
                         [(16, 65_536), (1, 1), (1, 511), (2, 512), (15, 4095), (16, 4096), (17, 65_537)])
        self.assertEqual([sizes(stripes=1), sizes(stripes=16), sizes(stripes=4096), sizes(4096, 1)], [(1, 4096), (16, 65_536), (4096, 65_536), (1, 4096)])
        self.assertEqual(shape.HISTORY_DEFAULT, 260)

    def test_a_writer_without_delete(self):
        class Writer:
            def write(self, key, value):
                pass

        self.assertRaises(AttributeError, cadwrelch.Cache, writer=Writer())

    def test_arguments_by_name(self):
        cache = cadwrelch.Cache()
        cache.put(key='a', value=1, ttl=None)
        cache.put('b', value=2)
        self.assertEqual((cache.get(key='a', default=5), cache.get('c', default=5), cache.get(key='b')), (1, 5, 2))
        for wrong in (lambda: cache.put('a'), lambda: cache.put('a', 1, 2), lambda: cache.put('a', 1, key=2), lambda: cache.put('a', 1, when=2),
                      lambda: cache.get(), lambda: cache.get('a', 1, 2), lambda: cache.get(default=2)):
            self.assertRaises(TypeError, wrong)

    def test_a_cache_is_neither_copied_nor_pickled(self):
        cache = cadwrelch.Cache()
        for call in (copy.copy, copy.deepcopy, pickle.dumps):
            with self.assertRaisesRegex(TypeError, 'a cache is neither copied nor pickled'):
                call(cache)

    def test_what_was_not_made(self):
        for call in (lambda cache: cache.get('a'), lambda cache: cache.put('a', 1), lambda cache: len(cache), lambda cache: 'a' in cache,
                     lambda cache: cache.keys(), lambda cache: cache.stats(), lambda cache: cache.hit('a')):
            self.assertRaises(RuntimeError, call, cadwrelch.Cache.__new__(cadwrelch.Cache))
        self.assertTrue(cadwrelch.Cache.__new__(cadwrelch.Cache).closed)
        made = cadwrelch.Cache()
        self.assertRaises(RuntimeError, made.__init__)

    def test_an_entry_after_its_processor(self):
        kept = []
        cache = cadwrelch.Cache(loader=Store({'a': 1}))
        cache.invoke('a', kept.append)
        for use in (lambda entry: entry.value, lambda entry: setattr(entry, 'value', 1), lambda entry: entry.remove(), lambda entry: entry.exists()):
            self.assertRaises(RuntimeError, use, kept[0])

    def test_errors_name_the_key(self):
        class Odd:
            def __repr__(self):
                raise ValueError

        def fail(key, value=None):
            raise ValueError

        cache = cadwrelch.Cache(loader=fail, writer=fail, name='pages')
        for key, named in (('page', "'page'"), (Odd(), '<Odd instance.*>'), ('x' * 1000, "'xxx.*xxx'"), (list, "<class 'list'>")):
            for call, kind in ((lambda: cache.get(key), cadwrelch.LoaderError), (lambda: cache.put(key, 1), cadwrelch.WriterError),
                               (lambda: cache.invoke(key, lambda entry: entry.value), cadwrelch.LoaderError),
                               (lambda: cache.invoke(key, lambda entry: entry.remove()), cadwrelch.WriterError)):
                with self.assertRaisesRegex(kind, rf'^the (loader|writer) failed \(key {named}, cache pages\)$') as caught:
                    call()
                self.assertLess(len(str(caught.exception)), 120)
        for keys, told in ((['k'], "a key failed ('k', cache pages)"), (range(6), '6 keys failed (0, 1, 2, 3, 4, .., cache pages)')):
            with self.assertRaises(cadwrelch.BulkError) as caught:
                cache.get_many(keys)
            self.assertEqual((str(caught.exception), str(pickle.loads(pickle.dumps(caught.exception)))), (told, told))

    def test_errors_name_the_cache(self):
        caches = [made(name='pages') for made in (cadwrelch.Cache, cadwrelch.AsyncCache)]
        for cache in caches:
            self.assertEqual(cache.name, 'pages')
            cache.close()
            for call in (cache.keys, lambda: cache.hit('a')):
                with self.assertRaisesRegex(cadwrelch.ClosedError, '^the cache pages is closed$'):
                    call()
        self.assertEqual(len({cadwrelch.Cache().name, cadwrelch.Cache().name}), 2)

    def test_a_deadlock_names_key_and_cache(self):
        cache = cadwrelch.Cache(loader=lambda key: cache.get(key), name='pages', stripes=1)
        with self.assertRaises(cadwrelch.LoaderError) as caught:
            cache.get('a')
        self.assertEqual(str(caught.exception.__cause__), "the call would wait for itself (key 'a', cache pages)")


if __name__ == '__main__':
    unittest.main()
