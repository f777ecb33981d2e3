"""What loaders, writers and processors answer in a script (docs/SCRIPT.md, "The lines", "Bulk calls")."""
import table
from words import Fault


# The loader.

def loading(call):
    """The keys for which the loader is asked, and hasn't answered."""
    parts = [part for part in call.parts if part.awaits_loader()]
    if not parts:
        raise Fault('not now')
    return parts


def take_load(world, part, answer):
    """Notes an answer, and whether it is a lie: neither a failure, nor what the store holds at this moment."""
    part.load = answer
    part.has_lied = answer[0] == 'found' and answer[1] != world.store.get(part.key)


def read(world, line):
    """`read N`: the loader reads the store."""
    call = world.call(line.number)
    for part in loading(call):
        take_load(world, part, ('found', world.store.get(part.key)))
        world.say(f'{call.number} {part.key} reads {table.shown(part.load[1])}')


def readfail(world, line):
    """`readfail N C`: the loader fails."""
    call = world.call(line.number)
    for part in loading(call):
        take_load(world, part, ('failed', line.code))
    world.say(f'{call.number} fails {line.code}')


def say(world, line):
    """`say N [pair ..]`: the loader answers what the pairs say."""
    call, said = world.call(line.number), dict(line.pairs)
    for part in loading(call):
        take_load(world, part, ('found', said.get(part.key)))
        world.say(f'{call.number} {part.key} says {table.shown(part.load[1])}')


# The writer.

def writing(call, has_but):
    """The keys for which the writer is asked now, and hasn't returned: of an `invokeall` those with a value first."""
    parts = [part for part in call.parts if part.awaits_writer()]
    if not parts or has_but and not call.is_bulk or any(part.awaits_processor() for part in call.parts):
        raise Fault('not now')
    values = [part for part in parts if part.ask[0] == 'write']
    return values if call.name == 'invokeall' and values else parts


def take_write(world, call, parts, changed, failing, code):
    """The writer changes the store at some keys and returns, or fails with a code. It lies of a key that it changes and reports as failed,
    or the other way round."""
    for part in parts:
        told = 'left'
        if part in changed:
            part.has_changed, told = True, 'written' if part.ask[0] == 'write' else 'deleted'
            world.set_stored(part.key, part.ask[1] if part.ask[0] == 'write' else None)
            world.untold.after_own_write(part.key)
        world.say(f'{call.number} {part.key} {told}')
        part.has_returned = True
        part.write = ('failed', code or 0) if part in failing else ('done',)
        part.has_lied = part.has_lied or (part in changed) == (part in failing)
    if code is not None:
        world.say(f'{call.number} fails {code}')
        call.meet(f'WriterFailed {code}')


def apply(world, line):
    """`apply N [but K ..]` and `applyfail N C [but K ..]`: of a failure without keys nothing is changed, else all but these."""
    call, has_but = world.call(line.number), 'but' in line.fixed
    parts = writing(call, has_but)
    left = [part for part in parts if part.key in line.keys]
    if line.code is not None and not has_but:
        left = parts
    take_write(world, call, parts, [part for part in parts if part not in left], left, line.code)


def applylie(world, line):
    """`applylie N C`: the writer changes the store, and reports that it failed."""
    call = world.call(line.number)
    parts = writing(call, False)
    take_write(world, call, parts, parts, parts, line.code)


# The processor.

class Run:
    """A processor's run on an entry (docs/CONSISTENCY.md, "Entry processors")."""

    def __init__(self, world, call, part, said):
        self.world, self.call, self.part, self.said = world, call, part, said
        self.entry = world.stripe_of(part.key).entries.get(part.key)
        self.effect, self.result, self.may_load = ('keep',), None, self.entry is None and world.config.read

    def make(self, calls):
        """Makes the calls on the entry, up to a load that fails."""
        for name, *values in calls:
            if name == 'get' and not self.get():
                return
            if name == 'exists':
                self.world.say(f'{self.call.number} exists {table.shown_reply(("flag", self.entry is not None))}')
            if name in ('set', 'remove'):
                self.effect, self.entry, self.may_load = (name, *values), values[0] if values else None, False

    def get(self):
        """A `get`, and whether it doesn't fail."""
        if self.may_load:
            self.may_load = False
            self.load()
            if self.part.load[0] == 'failed':
                return False
        self.result = self.entry
        self.world.say(f'{self.call.number} got {table.shown(self.entry)}')
        return True

    def load(self):
        answer = self.said or ('found', self.world.store.get(self.part.key))
        take_load(self.world, self.part, answer)
        if answer[0] == 'failed':
            self.world.say(f'{self.call.number} fails {answer[1]}')
        else:
            self.entry = answer[1]
            self.world.say(f'{self.call.number} {self.part.key} {"says" if self.said else "reads"} {table.shown(answer[1])}')


def process(world, line):
    """`process N [..] [CALL ..] [fail=C]`: the processor runs, at the first key that waits for it."""
    call = world.call(line.number)
    part = next((part for part in call.parts if part.awaits_processor()), None)
    if part is None:
        raise Fault('not now')
    run = Run(world, call, part, line.load)
    run.make(line.calls)
    part.process = ('ended', run.effect, run.result)
    if line.code is not None:
        part.process = ('failed', line.code)
        world.say(f'{call.number} fails {line.code}')
    asked = table.change_of(run.effect) if world.config.write else None
    if asked is None or table.fault(table.Answers(part.load, None, part.process)) is not None:
        world.say(f'{call.number} {part.key} ready')
    else:
        part.ask = asked
        world.say(' '.join([str(call.number), part.key, asked[0], *map(table.shown, asked[1:])]))
