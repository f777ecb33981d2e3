"""Calls at one key, as a record tells of them, and how they are written."""
from dataclasses import dataclass
from typing import Any, NamedTuple, Optional, Tuple

import table

UNANSWERED = ('unanswered',)
"""The answer of a loader or a writer that hasn't answered."""


class Rules(NamedTuple):
    """The rules by which a record is judged, as `jcache check` has them."""
    read: bool = True
    through: bool = True
    store: bool = True      # a loader's answer has to be what the store has
    evict: bool = True      # entries may vanish
    real: bool = True       # the order in real time counts, not only that of each thread


@dataclass
class Item:
    """A call at one key. `reply` is None if it isn't told."""
    number: Any
    thread: str
    op: Tuple
    began: float
    ended: Optional[float] = None
    reply: Optional[Tuple] = None
    load: Optional[Tuple] = None       # the loader's answer, or UNANSWERED
    change: Optional[Tuple] = None     # what the writer was asked for
    write: Optional[Tuple] = None      # the writer's answer, or UNANSWERED
    calls: Tuple = ()                  # of an invoke: its calls on the entry,
    answers: Tuple = ()                # and how they were answered
    returned: Optional[Tuple] = None   # of an invoke: ('value', v) or ('failed', c)

    @property
    def must(self):
        """Whether an order has to place it."""
        return self.reply is not None


def answer(told):
    """An answer from outside, as a step has it: that of who hasn't answered is none."""
    return None if told == UNANSWERED else told


def value_of(change):
    return change[1] if change[0] == 'write' else None


# How they are written.

def word(value):
    return '-' if value is None else value


def reply_words(reply):
    if reply[0] == 'flag':
        return 'true' if reply[1] else 'false'
    return {'unit': lambda: 'ok', 'value': lambda: word(reply[1]), 'fault': lambda: f'{reply[1]} {reply[2]}'}[reply[0]]()


def sight_word(call, seen):
    if call[0] == 'get':
        return f'getfails={seen[1]}' if seen[0] == 'failed' else f'get={word(seen[1])}'
    if call[0] == 'exists':
        return f'exists={"true" if seen[1] else "false"}'
    return f'set={call[1]}' if call[0] == 'set' else 'remove'


def outside_lines(item, key):
    """What its loader and its writer were asked, and their answers."""
    asked, answered, number = [], [], item.number
    if item.load is not None:
        asked.append(f'load {number} {key}')
        if item.load != UNANSWERED:
            found = table.found(item.load)
            answered.append(f'loadfails {number} {item.load[1]}' if item.load[0] == 'failed' else
                            f'loads {number}' + (f' {key}={found}' if found is not None else ''))
    if item.change is not None:
        what = item.change[0]
        asked.append(f'{what} {number} {key}' + (f'={item.change[1]}' if what == 'write' else ''))
        if item.write not in (None, UNANSWERED):
            answered.append(f'{what}s {number}' if item.write[0] == 'done' else f'{what}fails {number} {item.write[1]}')
    return asked, answered


def op_words(item, key):
    name, values = item.op[0], list(item.op[1:])
    if name == 'loadall':
        return f'loadall {values[0]} {key}'
    return ' '.join([{'clear': 'forget'}.get(name, name), key, *values])


def item_lines(item, key):
    """Its lines with their times. What it asks, it asks at once, and what it is answered, at last."""
    thread, end = item.thread, item.began if item.ended is None else item.ended
    if item.op[0] == 'foreign':
        return [(item.began, f'{thread} foreign {key} {word(item.op[1])}')]
    asked, answered = outside_lines(item, key)
    lines = [(item.began, f'call {item.number} {op_words(item, key)}')] + [(item.began, line) for line in asked]
    lines += [(end, line) for line in answered]
    if item.returned is not None:
        sights = [sight_word(*pair) for pair in zip(item.calls, item.answers)]
        last = f'fails={item.returned[1]}' if item.returned[0] == 'failed' else f'returns={word(item.returned[1])}'
        lines.append((end, ' '.join([f'process {item.number} {key}', *sights, last])))
    if item.ended is not None:
        lines.append((end, f'is {item.number} ' + ('threw X' if item.reply is None else reply_words(item.reply))))
    return [(at, f'{thread} {line}') for at, line in lines]


def record(rules, histories):
    """The text of some histories, each at a key of its own: a pair of what its store has at first, and its items. '?' is anything."""
    head = ['history 1', 'open' + ' read' * rules.read + ' write' * rules.through]
    lines, number = [], 0
    for place, (store, items) in enumerate(histories):
        key = f'k{place}'
        head.append(f'set {key} {word(store)}')
        for item in items:
            number += 1
            item.number = number
        own = sorted((line for item in items for line in item_lines(item, key)), key=lambda line: line[0])
        lines += [line for _, line in own]
    return '\n'.join(head + [f'@{at} {line}' for at, line in enumerate(lines)]) + '\n'
