"""What the core refuses of a desk: each is a code, with nothing done."""
import os
import subprocess
import sys
import unittest

from cadwrelch import core
from cadwrelch.core import CoreError, Desk, Processed, Shape

HERE = os.path.dirname(os.path.abspath(__file__))


def shape(stripes=1, capacity=2, history=16, keeps_events=False):
    return Shape(stripes, capacity, history, True, True, keeps_events)


class Misuse(unittest.TestCase):
    def refused(self, code, call, *arguments):
        with self.assertRaises(CoreError) as caught:
            call(*arguments)
        self.assertEqual(caught.exception.code, code)

    def test_shapes_and_contents(self):
        for wrong in (shape(0), shape(65), shape(1, 0), shape(1, 4097), shape(1, 2, 15), shape(1, 2, 65537)):
            self.refused(core.BAD_ARGUMENT, Desk, wrong)
        self.refused(core.BAD_ARGUMENT, Desk, shape(), 1)
        for wrong in ([(b'a', b''), (b'a', b'')], [(b'', b'')], [(b'a', b'v' * 257)], [(b'k' * 33, b'')],
                      [(b'a', b''), (b'b', b''), (b'c', b'')]):
            self.refused(core.BAD_ARGUMENT, Desk, shape(), 0, wrong)
        self.assertEqual(Desk(shape(), 0, [(b'a', b'1'), (b'b', b'2')]).entries(), [(b'a', b'1'), (b'b', b'2')])

    def test_keys_and_values(self):
        desk = Desk(shape())
        self.refused(core.BAD_ARGUMENT, desk.begin, 1, core.GET, b'')
        self.refused(core.BAD_ARGUMENT, desk.begin, 1, core.GET, b'k' * 33)
        self.refused(core.BAD_ARGUMENT, desk.begin, 1, core.PUT, b'a', b'v' * 257)
        self.refused(core.BAD_ARGUMENT, desk.begin, 1, 15, b'a')
        self.refused(core.BAD_ARGUMENT, desk.peek, b'')
        ticket = desk.begin(1, core.GET, b'a').number
        self.refused(core.BAD_ARGUMENT, desk.commit_load, ticket, 4)
        self.refused(core.BAD_ARGUMENT, desk.commit_load, ticket, core.FOUND, 0, b'v' * 257)
        self.assertEqual(desk.commit_load(ticket, core.FOUND, 0, b'v').moves, core.STORED)

    def test_tickets(self):
        desk = Desk(shape())
        ticket = desk.begin(1, core.GET, b'a').number
        self.refused(core.MISUSE, desk.begin, 1, core.GET, b'b')
        self.refused(core.MISUSE, desk.commit_write, ticket, core.WRITTEN)
        self.refused(core.MISUSE, desk.commit_process, ticket, Processed())
        self.refused(core.MISUSE, desk.commit_load, ticket + 1, core.NOTHING)
        self.refused(core.IN_USE, desk.close)
        desk.withdraw(ticket)
        self.refused(core.MISUSE, desk.withdraw, ticket)
        desk.close()
        for call in (desk.close, desk.entries, desk.statistics, desk.end_generation, lambda: desk.begin(1, core.GET, b'a'),
                     lambda: desk.hit(1, b'a'), lambda: desk.peek(b'a'), lambda: desk.withdraw(ticket), lambda: desk.invalidate(b'a'),
                     desk.invalidate_all, desk.sweep):
            self.refused(core.WRONG_HANDLE, call)
        self.assertEqual(desk.events_len(), 0)

    def test_invalidations(self):
        desk = Desk(shape(), 0, [(b'a', b'1'), (b'b', b'2')])
        out = desk.invalidate(b'a')
        self.assertEqual((out.next, out.moves, out.left.get()), (core.DONE, core.REMOVED | core.INVALIDATED, b'1'))
        self.assertEqual((desk.invalidate(b'a').moves, desk.peek(b'a')), (0, None))
        ticket = desk.begin(1, core.GET, b'a').number
        self.assertEqual(desk.invalidate(b'a').moves, 0)
        self.assertEqual((desk.begin(2, core.GET, b'a').next, desk.out.reply), (core.REFUSED, core.BUSY))
        self.assertEqual((desk.commit_load(ticket, core.FOUND, 0, b'3').moves, desk.peek(b'a')), (core.INVALIDATED, None))
        ticket = desk.begin(1, core.PUT, b'b', b'4').number
        desk.invalidate(b'b')
        self.assertEqual((desk.withdraw(ticket).moves, desk.out.left.get()), (core.REMOVED | core.INVALIDATED, b'2'))
        self.refused(core.BAD_ARGUMENT, desk.invalidate, b'')
        self.refused(core.MISUSE, Desk(shape(2)).invalidate, b'a')

    def test_sweeps(self):
        desk = Desk(shape(), 0, [(b'a', b'1'), (b'b', b'2')])
        self.assertEqual(desk.sweep().next, core.DONE)
        desk.invalidate_all()
        self.assertEqual(desk.begin(1, core.GET, b'a').next, core.SHUT)
        for key, value in ((b'b', b'2'), (b'a', b'1')):
            out = desk.sweep()
            self.assertEqual((out.next, out.moves, out.victim.get(), out.evicted.get()), (core.SHUT, core.EVICTED, key, value))
        self.assertEqual((desk.sweep().next, desk.out.moves), (core.DONE, 0))
        self.assertEqual((desk.entries(), desk.statistics().evictions), ([], 0))
        self.assertEqual([desk.event(place).cause for place in range(desk.events_len())], [core.CAUSE_INVALIDATED] * 2)

    def test_a_full_history_waits_for_its_reader(self):
        desk = Desk(shape(keeps_events=True), 0, [(b'a', b'1')])
        while desk.hit(1, b'a') is not None:
            pass
        self.assertEqual(desk.begin(1, core.GET, b'a').next, core.FULL)
        desk.end_generation()
        self.assertEqual(desk.hit(1, b'a'), b'1')

    def test_events_are_legal(self):
        opening = [(b'a', b'1')]
        desk = Desk(shape(capacity=1, keeps_events=True), 0, opening)
        ticket = desk.begin(1, core.PUT, b'b', b'2').number
        desk.commit_write(ticket, core.WRITTEN)
        self.assertIsNone(desk.event(2))
        events = [desk.event(place) for place in range(desk.events_len())]
        self.assertEqual([event.kind for event in events], [core.EVICTION, core.STEP])
        self.assertEqual((events[0].key.get(), events[1].key.get(), events[1].value.get()), (b'a', b'b', b'2'))
        self.assertTrue(core.legal(shape(capacity=1), opening, events))
        self.assertFalse(core.legal(shape(capacity=1), [], events))
        self.assertTrue(core.legal(shape(), [], []))
        self.refused(core.BAD_ARGUMENT, core.legal, shape(), [(b'', b'')], events)

    def test_a_library_that_is_missing(self):
        environment = dict(os.environ, CADWRELCH_CORE_SO='/nowhere/libcadwrelch.so')
        ran = subprocess.run([sys.executable, '-c', 'import cadwrelch.core'], env=environment, stderr=subprocess.PIPE, universal_newlines=True)
        self.assertIn('there is no /nowhere/libcadwrelch.so', ran.stderr)


if __name__ == '__main__':
    unittest.main()
