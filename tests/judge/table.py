"""The operations: whom each asks, what it leaves, what it replies (docs/CONSISTENCY.md, "The operations", "Faults").

It is written from that page alone: tests/histories/table.py copies the definitions that the crates are proved by, and this is to judge them.

An entry is None or a text. An operation is its name in scripts with its values; a `loadall` has `keep` or `replace`. Whom it asks is None,
('load',), ('write', v), ('delete',) or ('process',). Answers from outside, None if nobody was asked: of a loader ('found', v), in which v
is None if it found nothing, or ('failed', c); of a writer ('done',) or ('failed', c); of a processor ('ended', effect, result), with the effect
('keep',), ('set', v) or ('remove',), or ('failed', c). A reply is ('ok',), ('flag', b), ('value', v) or ('fault', name, c)."""
from collections import namedtuple

Answers = namedtuple('Answers', 'load write process', defaults=(None, None, None))

LOAD, PROCESS = ('load',), ('process',)


def asks_loader(op, entry, read):
    """Whether the loader is asked. A processor asks it by itself."""
    if op[0] == 'get':
        return read and entry is None
    return op[0] == 'loadall' and (entry is None or op[1] == 'replace')


def change_of(effect):
    """What the writer is asked for a processor's net effect."""
    return {'keep': None, 'set': ('write', effect[-1]), 'remove': ('delete',)}[effect[0]]


def change(op, entry):
    """What the writer is asked, if write-through is on, of any operation but `invoke`."""
    name = op[0]
    if name in ('put', 'getput') or name == 'putif' and entry is None or name in ('replace', 'getreplace') and entry is not None:
        return 'write', op[1]
    if name in ('remove', 'getremove') or name == 'removeif' and entry == op[1]:
        return ('delete',)
    if name == 'replaceif' and entry == op[1]:
        return 'write', op[2]
    return None


def asked_first(op, entry, config):
    """Whom the first phase asks."""
    if op[0] == 'invoke':
        return PROCESS
    if asks_loader(op, entry, config.read):
        return LOAD
    return change(op, entry) if config.write else None


def fault(answers):
    """The fault of a call: the loader's comes before the processor's, and this before the writer's."""
    for answer, name in ((answers.load, 'LoaderFailed'), (answers.process, 'ProcessorFailed'), (answers.write, 'WriterFailed')):
        if answer is not None and answer[0] == 'failed':
            return 'fault', name, answer[1]
    return None


def found(load):
    """The value that a loader has found."""
    return load[1] if load is not None and load[0] == 'found' else None


def after_process(process, entry, loaded):
    """What a processor leaves, and its answer."""
    effect = process[1]
    kept = loaded if entry is None else entry
    return ('value', process[2]), {'keep': kept, 'set': effect[-1], 'remove': None}[effect[0]]


def step(op, entry, answers):
    """The reply, and the entry afterwards."""
    failed = fault(answers)
    if failed is not None:
        return failed, entry
    name, is_there, loaded = op[0], entry is not None, found(answers.load)
    is_equal = is_there and len(op) > 1 and entry == op[1]
    rows = {'get': lambda: (('value', entry if is_there else loaded), entry if is_there else loaded),
            'contains': lambda: (('flag', is_there), entry),
            'put': lambda: (('ok',), op[1]),
            'getput': lambda: (('value', entry), op[1]),
            'putif': lambda: (('flag', not is_there), entry if is_there else op[1]),
            'remove': lambda: (('flag', is_there), None),
            'getremove': lambda: (('value', entry), None),
            'removeif': lambda: (('flag', is_equal), None if is_equal else entry),
            'replace': lambda: (('flag', is_there), op[1] if is_there else None),
            'getreplace': lambda: (('value', entry), op[1] if is_there else None),
            'replaceif': lambda: (('flag', is_equal), op[2] if is_equal else entry),
            'forget': lambda: (('ok',), None),
            'loadall': lambda: (('ok',), entry if loaded is None else loaded),
            'invoke': lambda: after_process(answers.process, entry, loaded)}
    return rows[name]()


def is_use(op, reply, answers):
    """Whether a step that leaves an entry which was there makes it the most recently used one."""
    return reply[0] != 'fault' and op[0] != 'contains' and (op[0] != 'loadall' or found(answers.load) is not None)


def shared_reply(load):
    """What a call that has joined a load is answered."""
    return ('fault', 'LoaderFailed', load[1]) if load[0] == 'failed' else ('value', load[1])


def shown(value):
    """A value as it is printed."""
    return '-' if value is None else value or '~'


def shown_reply(reply):
    """A reply as it is printed."""
    if reply[0] == 'flag':
        return 'true' if reply[1] else 'false'
    return {'ok': lambda: 'ok', 'value': lambda: shown(reply[1]), 'fault': lambda: f'{reply[1]} {reply[2]}'}[reply[0]]()
