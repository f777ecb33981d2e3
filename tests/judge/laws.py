"""What holds of every script by docs/PROMISES.md, tested of the judge. So it holds of a program, too, that prints the same."""
import table
import telling
from stripe import CALL_PLACES, JOIN_PLACES, Eviction


class Broken(Exception):
    """A law doesn't hold."""


def expect(holds, what):
    if not holds:
        raise Broken(what)


class Watch:
    """Looks at a world after each line."""

    def __init__(self):
        self.stripes = self.untold = None
        self.has_premises, self.marked = False, {}

    def __call__(self, world):
        if world.stripes is not self.stripes:
            self.end()
            self.stripes, self.has_premises = world.stripes, world.config.write and self.is_coherent_opening(world)
        for key, held in self.marked.items():
            is_over = world.stripe_of(key).reserved.get(key) is not held
            expect(not is_over or key not in world.stripe_of(key).entries, 'an invalidated key has no entry once its reservation is over')
        self.marked = {key: held for stripe in world.stripes for key, held in stripe.reserved.items() if held.is_marked}
        self.untold = world.untold_keys()
        for stripe in world.stripes:
            look_at(stripe)
        expect(not self.has_premises or self.untold.issuperset(telling.differing(world)), 'a cached value is the store\'s, or its key is untold')

    def is_coherent_opening(self, world):
        """Whether each entry is the store's, but for keys that were untold before."""
        return all(world.store.get(key) == value or key in self.untold for key, value in world.entries().items())

    def end(self):
        """Looks at the histories, once a script is over, or the cache is opened again."""
        for stripe in self.stripes or []:
            expect(left_by(stripe) == dict(stripe.entries), 'a history leaves what is cached')


def look_at(stripe):
    """The limits of a stripe, and what stays while a key is reserved."""
    waiting = sum(len(held.joiners) for held in stripe.reserved.values())
    expect(len(stripe.entries) <= stripe.config.capacity, 'a stripe has at most its capacity of entries')
    expect(stripe.promised == CALL_PLACES * len(stripe.reserved) + JOIN_PLACES * waiting, 'each call under way has its places')
    expect(stripe.free() >= 0, 'a history has room for each call under way')
    expect(all(stripe.entries.get(key) == held.found for key, held in stripe.reserved.items()), 'while a key is reserved its entry stays')


def left_by(stripe):
    """The entries that a history leaves, which is legal (docs/CONSISTENCY.md, "Legal histories")."""
    cache, events, at, calls, last = dict(stripe.opening), stripe.history, 0, set(), {}
    for event in events:
        if not isinstance(event, Eviction):
            expect(last.get(event.session, 0) <= event.call, 'the numbers of the calls of a session never fall')
            expect((event.session, event.call, event.key) not in calls, 'a call has one step of a key')
            last[event.session] = event.call
            calls.add((event.session, event.call, event.key))
    while at < len(events):
        if isinstance(events[at], Eviction) and events[at].cause == 'invalidated':
            expect(cache.pop(events[at].key, None) is not None, 'an invalidated key that is evicted has an entry')
            at += 1
        else:
            at = after_group(stripe.config, cache, events, at)
        expect(len(cache) <= stripe.config.capacity, 'between two groups there are no more entries than the capacity')
    return cache


def after_group(config, cache, events, at):
    """Makes a group of events on the entries. The place after it."""
    victim = None
    if isinstance(events[at], Eviction):
        victim, is_full = events[at].key, len(cache) == config.capacity
        expect(events[at].cause == 'full' and is_full and cache.pop(victim, None) is not None, 'an entry is evicted from a full stripe')
        at += 1
    place, step = at, events[at]
    expect(not isinstance(step, Eviction) and step.shared is None, 'a group has a step')
    before = cache.get(step.key)
    reply, after = table.step(step.op, before, step.answers)
    is_new = before is None and after is not None
    expect(reply == step.reply and is_answered(config, step, before), 'a step is one of the operation table')
    expect(victim is None or is_new and victim != step.key, 'an eviction comes before a step with a new key')
    cache[step.key] = after
    if after is None:
        del cache[step.key]
    at += 1
    while at < len(events) and not isinstance(events[at], Eviction) and events[at].shared is not None:
        expect(shares(config, events[at], step, before, place), 'a shared step shares the load of its group')
        at += 1
    if len(cache) > config.capacity:
        expect(events[at] == Eviction(step.key, 'full') and is_new and victim is None, 'a new key that isn\'t kept is evicted')
        del cache[step.key]
        at += 1
    return at


def is_answered(config, step, before):
    """Whether those were asked, and no others, that the operation asks."""
    load, write, process = step.answers
    if step.op[0] == 'invoke':
        has_load, may_load = load is not None, config.read and before is None
        asked = table.change_of(process[1]) if process[0] == 'ended' else None
        is_load = may_load or not has_load
    else:
        asked, is_load = table.change(step.op, before), (load is not None) == table.asks_loader(step.op, before, config.read)
    if not config.write or table.fault(table.Answers(load, None, process)) is not None:
        asked = None
    return is_load and (write is not None) == (asked is not None) and (process is not None) == (step.op[0] == 'invoke')


def shares(config, event, step, before, place):
    """Whether a step is a `get` that shares the load of a step."""
    load = step.answers.load
    return (config.read and step.op[0] in ('get', 'loadall') and before is None and load is not None and event.op == ('get',)
            and event.key == step.key and event.shared == place and event.reply == table.shared_reply(load))
