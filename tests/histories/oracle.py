"""What `jcache check` decides, tried literally for a handful of calls: each choice of those that may be left out, each order, and between
two calls each eviction and each landing of a write. Nothing is remembered and nothing cut off. It shares no code with the program."""
from itertools import combinations

import table
from calls import answer, value_of


def precedes(rules, a, b):
    """Whether a call has to come before another one."""
    return rules.real and a.ended is not None and a.ended < b.began or a.thread == b.thread and a.began < b.began


def process_at(rules, item, entry):
    """What the processor answers its step; None if it isn't one, False if it saw something else than this entry."""
    if item.op[0] != 'invoke' or item.returned is None:
        return None
    calls, load = list(item.calls), answer(item.load)
    if list(item.answers) != table.processor_answers(rules.read, entry, load, calls):
        return False
    if table.uses_load(rules.read, entry, calls) != (load is not None):
        return False
    if item.returned[0] == 'failed':
        return 'failed', item.returned[1]
    return 'ended', table.net_effect(rules.read, entry, load, calls), item.returned[1]


def stores(rules, item):
    """Whether its own step changes the store."""
    return rules.store and answer(item.write) == ('done',)


def after_step(rules, item, state):
    """What a call's step leaves, as a list of no or one state: (entry, store, answer that others may share, writes that have landed)."""
    entry, store, _, landed = state
    process = process_at(rules, item, entry)
    if process is False:
        return []
    out = answer(item.load), answer(item.write), process
    change = table.write_ask(item.op, entry, process) if out[1] is not None else None
    fits = (table.answers_fit(rules.read, rules.through, item.op, entry, out) and item.change == change
            and item.reply in (None, table.reply_after(item.op, entry, out)))
    told = out[0] is not None and out[0][0] != 'failed'
    if not fits or rules.store and told and store != table.found(out[0]) or stores(rules, item) and item in landed:
        return []
    if stores(rules, item):
        store, landed = value_of(item.change), landed + [item]
    shared = out[0] if table.joinable(rules.read, item.op, entry, out[0]) else None
    return [(table.entry_after(item.op, entry, out), store, shared, landed)]


def after_call(rules, item, state):
    """What there may be after a call has its place: after its step, or with the answer of the load before it."""
    if item.op[0] == 'foreign':
        return [(state[0], item.op[1] if rules.store else state[1], state[2], state[3])]
    found = after_step(rules, item, state)
    shared = state[2]
    if item.op[0] == 'get' and (item.load, item.change, item.write) == (None,) * 3 and shared is not None:
        if item.reply is not None and item.reply == table.reply_after(('get',), None, (shared, None, None)):
            found = found + [state]
    return found


def may_land(item):
    return item.op[0] != 'foreign' and item.change is not None and (item.reply is None or answer(item.write) != ('done',))


def between(rules, items, chosen, placed, states):
    """With any evictions and landings. A write lands only after all calls that have to come before its own."""
    found = list(states)
    for entry, store, shared, landed in found:
        more = [(None, store, None, landed)] if rules.evict else []
        for item in items if rules.store else ():
            left = [other for other in chosen if all(other is not one for one in placed)]
            if may_land(item) and item not in landed and not any(precedes(rules, other, item) for other in left):
                more.append((entry, value_of(item.change), shared, landed + [item]))
        found += [state for state in more if state not in found]
    return found


def is_played(rules, items, chosen, placed, states):
    """Whether the chosen calls that aren't placed yet have an order from one of these states on."""
    left = [item for item in chosen if all(item is not one for one in placed)]
    if not left:
        return True
    for item in left:
        if any(precedes(rules, other, item) for other in left):
            continue
        after = [one for state in between(rules, items, chosen, placed, states) for one in after_call(rules, item, state)]
        if after and is_played(rules, items, chosen, placed + [item], after):
            return True
    return False


def opening_values(items, store):
    """What the store may have at first. A value that nobody names stands for all others."""
    if store != '?':
        return [store]
    return list({None, 'other', *(table.found(item.load) for item in items)})


def choices(items):
    """Which calls may have been made: all that have answered, and any of the others."""
    must, may = [item for item in items if item.must], [item for item in items if not item.must]
    for count in range(len(may) + 1):
        yield from (must + list(extra) for extra in combinations(may, count))


def is_explained(rules, items, store):
    """Whether some order explains the calls, if this was in the store at first."""
    openings = [[(None, value, None, [])] for value in opening_values(items, store)]
    return any(is_played(rules, items, chosen, [], states) for chosen in choices(items) for states in openings)
