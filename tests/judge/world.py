"""A cache beside a store, which the lines of a script play (docs/SCRIPT.md, "The lines", "What is printed")."""
from collections import namedtuple

import table
import telling
from stripe import Stripe
from words import Fault

Config = namedtuple('Config', 'stripes capacity history read write')
LIMITS = {'stripes': (1, 64), 'capacity': (1, 4096), 'history': (16, 65536)}


def config_of(line):
    """The shape that an `open` or a `reopen` names."""
    config = Config(*line.shape, 'read' in line.fixed, 'write' in line.fixed)
    for name, (least, most) in LIMITS.items():
        if not least <= getattr(config, name) <= most:
            raise Fault(f'bad config {name}')
    return config


class World:
    """A cache, its store, and the calls under way. `printed` is what the last line has printed."""

    def __init__(self, config):
        self.store, self.printed, self.untold = {}, [], telling.Untold()
        self.calls, self.sessions, self.last_number, self.is_late = {}, set(), -1, False
        self.open_stripes(config, [[] for _ in range(config.stripes)])

    def open_stripes(self, config, openings):
        self.config = config
        self.stripes = [Stripe(config, number, opening) for number, opening in enumerate(openings)]

    def stripe_of(self, key):
        return self.stripes[sum(key.encode()) % self.config.stripes]

    def entries(self):
        """What is cached, over all stripes."""
        return {key: value for stripe in self.stripes for key, value in stripe.entries.items()}

    def say(self, text):
        self.printed.append(text)

    def set_stored(self, key, value):
        self.store[key] = value
        if value is None:
            del self.store[key]

    def untold_keys(self):
        return self.untold.keys(self.stripe_of)

    def call(self, number):
        """A call under way."""
        if number not in self.calls:
            raise Fault('no such call')
        return self.calls[number]

    def leave(self, call):
        """A call is over, and its session is free."""
        del self.calls[call.number]
        self.sessions.remove(call.session)

    def end_if_over(self, call):
        if call.is_over():
            if call.is_bulk:
                self.say(f'{call.number} over {"ok" if call.cause is None or call.name == "invokeall" else call.cause}')
            self.leave(call)


def set_store(world, line):
    """`set K V`"""
    if world.is_late:
        raise Fault('set too late')
    world.set_stored(line.key, line.values[0])


def foreign(world, line):
    """`foreign K V`, `foreign K -`"""
    world.is_late = True
    world.set_stored(line.key, line.values[0])
    world.untold.after_foreign_write(line.key, world.stripe_of(line.key))
    world.say(f'foreign {line.key} {table.shown(line.values[0])}')


def invalidate(world, line):
    """`invalidate K`"""
    stripe = world.stripe_of(line.key)
    if not stripe.may_invalidate(line.key):
        raise Fault('not now')
    world.is_late = True
    first = len(stripe.history)
    stripe.invalidate(line.key)
    world.say(f'invalidate {line.key}' + (' marked' if stripe.is_marked(line.key) else ''))
    for place, event in enumerate(stripe.history[first:], first):
        world.say(f'evict {event.key} {event.cause} at {stripe.number}.{place}')


def reopen(world, line):
    """`reopen S C H [read] [write]`: old stripe by old stripe, in each the most recently used first."""
    config = config_of(line)
    if world.calls:
        raise Fault('not now')
    openings, dropped, kept = [[] for _ in range(config.stripes)], [], {}
    for stripe in world.stripes:
        for key, value in reversed(stripe.entries.items()):
            opening = openings[sum(key.encode()) % config.stripes]
            if len(opening) < config.capacity:
                opening.append((key, value))
                kept[key] = value
            else:
                dropped.append(key)
    world.is_late = True
    world.open_stripes(config, openings)
    world.untold.after_reopening(kept, world.store)
    world.say(' '.join(['reopened', *dropped]))


def audit(world, _line):
    """`audit`"""
    for name, held in (('cache', world.entries()), ('store', world.store)):
        world.say(' '.join([name, *(f'{key}={table.shown(held[key])}' for key in sorted(held))]))
    differing = telling.differing(world)
    world.say(' '.join(['differs', *differing]) if differing else 'coherent')
    world.say(f'history {sum(len(stripe.history) for stripe in world.stripes)} legal')


def show_untold(world, _line):
    """`untold`"""
    world.say(' '.join(['untold', *sorted(world.untold_keys())]))
