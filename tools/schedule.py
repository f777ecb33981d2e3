"""What the gate costs after a change, reckoned from what its parts took when they were last measured (docs/matrix/costs.txt)."""
import os

from sources import ALL, LISTED, TOP, read

COSTS = os.path.join(TOP, "docs", "matrix", "costs.txt")


class Cost:
    """The seconds of a processor that a crate took: its code's proof, its tests' and its wrong edits."""

    def __init__(self, code=0, tests=0, edits=0):
        self.code, self.tests, self.edits = code, tests, edits


class Parts:
    """What takes no proof: the seconds of a processor beside the proofs and behind them, and these by the clock."""

    def __init__(self, beside, behind, clock):
        self.beside, self.behind, self.clock = beside, behind, clock


def read_costs():
    """Of each crate its cost; and that of what takes no proof."""
    rows = [line.split() for line in read(COSTS).split("\n") if line and not line.startswith("#")]
    numbers = {row[0]: [int(word) for word in row[1:]] for row in rows}
    return {name: Cost(*numbers.get(name, [])) for name in ALL}, Parts(*numbers["beside"], *numbers["behind"])


def above(crate):
    """The crates that use a crate, directly or through others, in the order of crates.txt."""
    found = {crate}
    for _ring, name, uses in LISTED:
        if found & set(uses):
            found.add(name)
    return [name for name in ALL if name in found - {crate}]


def chains(proofs):
    """Of each crate the seconds of the longest chain of proofs that begins with it."""
    uses = {name: used for _ring, name, used in LISTED}
    behind = {}
    for name in reversed(ALL):
        behind[name] = proofs[name] + max((behind[other] for other in behind if name in uses[other]), default=0)
    return behind


def clock(proofs, edits, beside, processors):
    """The seconds by the clock, on this many processors: proofs as soon as their libraries are proved, those with the longest chain first; on idle
    processors the edits of the crates that are proved, one processor a crate, and what is beside."""
    uses = {name: [it for it in used if it in proofs] for _ring, name, used in LISTED if name in proofs}
    order, left, running, done = chains({**dict.fromkeys(ALL, 0), **proofs}), dict(proofs), {}, set()
    fill, now = {"": beside}, 0.0
    while left or running or any(fill.values()):
        ready = sorted((it for it in left if all(below in done for below in uses[it])), key=lambda it: -order[it])
        for name in ready[:processors - len(running)]:
            running[name] = left.pop(name)
        fillers = sorted((it for it in fill if fill[it] > 0), key=lambda it: -fill[it])[:processors - len(running)]
        step = min([*running.values(), *(fill[it] for it in fillers)])
        now += step
        for it in fillers:
            fill[it] -= step
        for it in [*running]:
            running[it] -= step
            if running[it] <= 0:
                del running[it]
                done.add(it)
                fill[it] = edits.get(it, 0)
    return now


class Landing:
    """What the gate costs if these crates are proved, and the edits of those are tried: seconds of a processor, and by the clock on four and on two."""

    def __init__(self, proved, tried):
        costs, parts = read_costs()
        proofs = {name: costs[name].code + costs[name].tests for name in proved}
        edits = {name: costs[name].edits for name in tried}
        self.processor = sum(proofs.values()) + sum(edits.values()) + parts.beside + parts.behind
        self.clock = {count: clock(proofs, edits, parts.beside, count) + parts.clock for count in (4, 2)}
