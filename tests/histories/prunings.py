"""A history for each wrong pruning of search.py which tells it from the oracle."""
from calls import Item, Rules

CASES = [
    ('still', Rules(read=True, through=False, store=True, evict=True, real=True), '2', [
        Item(0, 't0', ('putif', '2'), 0, 1),
        Item(1, 't1', ('remove',), 2, 4, reply=('flag', True)),
        Item(2, 't0', ('remove',), 3, 5, reply=('flag', False)),
    ]),
    ('pending', Rules(read=True, through=False, store=True, evict=True, real=True), None, [
        Item(0, 't1', ('putif', '1'), 0, 4),
        Item(1, 't0', ('put', '2'), 1, 2, reply=('unit',)),
        Item(2, 't0', ('get',), 3, 5, reply=('value', '1')),
        Item(3, 't1', ('get',), 6, 7, reply=('fault', 'LoaderFailed', 13), load=('failed', 13)),
    ]),
    ('early', Rules(read=True, through=True, store=False, evict=False, real=True), '?', [
        Item(0, 't0', ('put', '1'), 0, 2, change=('write', '1'), write=('done',)),
        Item(1, 't1', ('remove',), 1, 4, reply=('flag', True), change=('delete',), write=('done',)),
        Item(2, 't0', ('contains',), 3, 5, reply=('flag', False)),
    ]),
    ('prefix', Rules(read=True, through=False, store=True, evict=True, real=True), '1', [
        Item(0, 't2', ('get',), 0, 2, reply=('value', '2')),
        Item(1, 't3', ('putif', '2'), 1, 3, load=('found', '2')),
    ]),
]
