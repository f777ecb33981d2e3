"""Plays scripts by what the documents say: the judge of `jcache run` (docs/SCRIPT.md)."""
import re

import calls
import outside
import world
from words import Fault, read_line

INPUT_MAX = 4_194_304
LINE_MAX = 65_536
PLAYED, FAULTY, TOO_LONG = 0, 1, 3
"""Exit statuses of `jcache run`."""
BAD_BYTE = re.compile(rb'[^\x20-\x7e]')
PLAYS = {'set': world.set_store, 'foreign': world.foreign, 'invalidate': world.invalidate, 'reopen': world.reopen, 'audit': world.audit,
         'untold': world.show_untold, 'begin': calls.begin, 'end': calls.end, 'drop': calls.drop, 'take': calls.take, 'more': calls.more,
         'read': outside.read, 'readfail': outside.readfail, 'say': outside.say, 'apply': outside.apply, 'applyfail': outside.apply,
         'applylie': outside.applylie, 'process': outside.process}


class Player:
    """Plays a script line by line. Without an `open` there is no world."""

    def __init__(self):
        self.world = None

    def play(self, raw):
        """What a line prints, without its line feed. Raises its fault, and has changed nothing then."""
        if len(raw) > LINE_MAX:
            raise Fault('line too long')
        if BAD_BYTE.search(raw):
            raise Fault('bad byte')
        if not raw or raw.startswith(b'#'):
            return []
        line = read_line(raw.decode())
        if (line.word == 'open') != (self.world is None):
            raise Fault('not open' if self.world is None else 'open twice')
        if self.world is None:
            self.world = world.World(world.config_of(line))
            return ['open']
        self.world.printed = []
        PLAYS[line.word](self.world, line)
        return self.world.printed


def transcript(script, watch=None):
    """What `jcache run` prints of a script, and its exit status. `watch` is called with the world after each line."""
    if len(script) > INPUT_MAX:
        return b'', TOO_LONG
    player, printed, status = Player(), [], PLAYED
    *lines, rest = script.split(b'\n')
    try:
        for raw in lines:
            printed.append(player.play(raw))
            if watch is not None and player.world is not None:
                watch(player.world)
        if rest:
            raise Fault('cut line')
    except Fault as fault:
        printed.append([f'line {len(printed) + 1}: {fault.text}'])
        status = FAULTY
    return ''.join(f'{text}\n' for shown in printed for text in shown).encode(), status
