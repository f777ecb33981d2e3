"""The calls of a script: how they begin, are committed, given up and picked up (docs/SCRIPT.md, "The lines", "Bulk calls")."""
import table
from stripe import RETRY, Eviction, Refused
from words import MANY_KEYS, Fault

BULK_KEYS_MAX = 1024
PUT_OFF, STARTED, JOINED, TOLD_TO_RETRY, SETTLED = 'put off', 'started', 'joined', 'told to retry', 'settled'
IS_OPEN = {PUT_OFF, STARTED, JOINED, TOLD_TO_RETRY}


class Part:
    """A key of a call, its operation there, and what was answered for it outside."""

    def __init__(self, key, op):
        self.key, self.op, self.state, self.ask = key, op, PUT_OFF, None
        self.load = self.write = self.process = None
        self.has_changed = self.has_returned = self.has_lied = False

    def is_started(self):
        return self.state == STARTED

    def awaits_loader(self):
        return self.is_started() and self.ask == table.LOAD and self.load is None

    def awaits_processor(self):
        return self.is_started() and self.ask == table.PROCESS and self.process is None

    def awaits_writer(self):
        return self.is_started() and self.ask[0] in ('write', 'delete') and not self.has_returned

    def awaits(self):
        """Whether somebody outside is asked, and hasn't answered."""
        return self.awaits_loader() or self.awaits_processor() or self.awaits_writer()

    def was_answered(self):
        """Whether somebody outside has answered or done anything."""
        return self.load is not None or self.process is not None or self.has_changed or self.has_returned


class Call:
    """A call under way. Its cause is what it met first: a fault, or a refusal that isn't put off."""

    def __init__(self, number, session, name, parts):
        self.number, self.session, self.name, self.parts = number, session, name, parts
        self.is_bulk, self.cause = name in MANY_KEYS, None

    def among(self, *states):
        return [part for part in self.parts if part.state in states]

    def started(self):
        return self.among(STARTED)

    def meet(self, cause):
        if self.cause is None:
            self.cause = cause

    def is_over(self):
        return not any(part.state in IS_OPEN for part in self.parts)


def parts_of(world, line):
    """The keys of a call, with their operations."""
    name = line.op
    if name in ('removeevery', 'clear'):
        op = {'removeevery': ('remove',), 'clear': ('forget',)}[name]
        return [Part(key, op) for stripe in world.stripes for key in sorted(stripe.entries)]
    if name == 'putall':
        return [Part(key, ('put', value)) for key, value in line.pairs]
    if name in MANY_KEYS:
        op = {'getall': ('get',), 'removeall': ('remove',), 'loadall': line.fixed, 'invokeall': ('invoke',)}[name]
        return [Part(key, op) for key in line.keys]
    return [Part(line.key, (name, *line.values))]


def begin(world, line):
    """`begin N WHO OP ..`"""
    if line.number <= world.last_number:
        raise Fault('number not rising')
    if line.session in world.sessions:
        raise Fault('caller busy')
    world.last_number, world.is_late = line.number, True
    call = Call(line.number, line.session, line.op, parts_of(world, line))
    if len(line.keys) + len(line.pairs) > BULK_KEYS_MAX:
        world.say(f'{call.number} refused TooManyKeys')
        return
    world.calls[call.number] = call
    world.sessions.add(call.session)
    for part in call.parts:
        start(world, call, part)
    world.end_if_over(call)


def start(world, call, part):
    """The first phase of a key."""
    stripe = world.stripe_of(part.key)
    try:
        begun = stripe.begin(call.session, call.number, part.key, part.op)
    except Refused as refused:
        refuse(world, call, part, refused.name)
        return
    name, *detail = begun
    part.ask, part.state = begun, {'done': SETTLED, 'joined': JOINED}.get(name, STARTED)
    if name == 'done':
        show_events(world, call, stripe, detail[0])
    else:
        found = stripe.entries.get(part.key)
        world.say(' '.join([str(call.number), part.key, name, *map(table.shown, [found] if name == 'process' else detail)]))
        if part.is_started():
            world.untold.after_reservation(part.key, found)


def refuse(world, call, part, name):
    """A key is refused for good, or put off, in a call of many keys, unless the history is full."""
    if call.is_bulk and name != 'HistoryFull':
        part.state = PUT_OFF
        world.say(f'{call.number} {part.key} put off')
    else:
        part.state = SETTLED
        call.meet(name)
        world.say(f'{call.number} {part.key} refused {name}')


def show_events(world, call, stripe, first):
    """The events of a phase, but for the steps of those who have joined the load: they are shown at their pick-up."""
    for place, event in enumerate(stripe.history[first:], first):
        at = f'{stripe.number}.{place}'
        if isinstance(event, Eviction):
            world.say(f'evict {event.key} {event.cause} at {at}')
        elif event.shared is None:
            world.say(f'{call.number} {event.key} is {table.shown_reply(event.reply)} at {at}')


def end(world, line):
    """`end N`: the commit of each started key."""
    call = world.call(line.number)
    started = call.started()
    if not started or any(part.awaits() for part in started):
        raise Fault('not now')
    for part in started:
        stripe = world.stripe_of(part.key)
        first = stripe.commit(part.key, table.Answers(part.load, part.write, part.process))
        part.state = SETTLED
        for event in stripe.history[first:]:
            if not isinstance(event, Eviction) and event.shared is None and event.reply[0] == 'fault':
                call.meet(table.shown_reply(event.reply))
        show_events(world, call, stripe, first)
        world.untold.after_commit(part.key, part.has_lied, stripe.entries.get(part.key), world.store.get(part.key))
    world.end_if_over(call)


def drop(world, line):
    """`drop N`: the call gives up."""
    call = world.call(line.number)
    started = call.started()
    if call.among(JOINED) or any(part.was_answered() for part in started):
        raise Fault('not now')
    for part in started:
        stripe = world.stripe_of(part.key)
        show_events(world, call, stripe, stripe.withdraw(part.key))
    world.say(f'{call.number} dropped')
    world.leave(call)


def take(world, line):
    """`take N`: the call asks for the answer of each load that it has joined."""
    call = world.call(line.number)
    joined = call.among(JOINED)
    if not joined or call.started():
        raise Fault('not now')
    for part in joined:
        stripe, told = world.stripe_of(part.key), f'{call.number} {part.key} '
        parked = stripe.pick_up(call.number, part.key)
        if parked is None:
            world.say(told + 'waits')
        elif parked == RETRY:
            part.state = TOLD_TO_RETRY
            world.say(told + 'again')
        else:
            reply, place, shared = parked
            part.state = SETTLED
            if reply[0] == 'fault':
                call.meet(table.shown_reply(reply))
            world.say(f'{told}is {table.shown_reply(reply)} at {stripe.number}.{place} shared {shared}')
    world.end_if_over(call)


def more(world, line):
    """`more N`: the first phase again, of the keys that were put off or told to retry."""
    call = world.call(line.number)
    waiting = call.among(PUT_OFF, TOLD_TO_RETRY)
    if not waiting or call.among(STARTED, JOINED):
        raise Fault('not now')
    for part in waiting:
        start(world, call, part)
    world.end_if_over(call)
