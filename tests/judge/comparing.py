"""Plays scripts with the program, compares, and cuts a script that is told otherwise down to what tells."""
import subprocess
import time

import judge

SECONDS = 20
"""How long a program may play a script, and how long one may be cut down."""


def play(program, script):
    """What a program prints of a script, and its exit status; None if it doesn't end."""
    try:
        ran = subprocess.run([program, 'run'], input=script, stdout=subprocess.PIPE, stderr=subprocess.DEVNULL, timeout=SECONDS)
    except subprocess.TimeoutExpired as stopped:
        return stopped.stdout or b'', None
    return ran.stdout, ran.returncode


def differs(program, script):
    """Whether a program prints something else than the judge."""
    return play(program, script) != judge.transcript(script)


def without(items, at, count):
    return items[:at] + items[at + count:]


def cut_items(items, is_wanted, until):
    """Leaves items out, many at once and then each alone, as long as what is left is wanted."""
    count = max(1, len(items) // 2)
    while True:
        at, was = 0, len(items)
        while at < len(items) and time.monotonic() < until:
            if is_wanted(without(items, at, count)):
                items = without(items, at, count)
            else:
                at += count
        if time.monotonic() >= until or count == 1 and len(items) == was:
            return items
        count = max(1, count // 2)


def cut_script(program, script):
    """A script with as few lines, and in these as few words, that still differs. A word isn't left out if that makes a fault."""
    until = time.monotonic() + SECONDS

    def is_wanted(raws, status=None):
        text = b''.join(raw + b'\n' for raw in raws)
        return (status is None or judge.transcript(text)[1] == status) and differs(program, text)

    if not script.endswith(b'\n'):
        return script
    raws = cut_items(script.split(b'\n')[:-1], is_wanted, until)
    status = judge.transcript(b''.join(raw + b'\n' for raw in raws))[1]
    for at in range(len(raws)):
        words = cut_items(raws[at].split(b' '), lambda some: is_wanted(raws[:at] + [b' '.join(some)] + raws[at + 1:], status), until)
        raws[at] = b' '.join(words)
    return b''.join(raw + b'\n' for raw in raws)


def difference(program, script):
    """What is told of a script that differs."""
    (wanted, status), (found, exit_status) = judge.transcript(script), play(program, script)
    pairs = enumerate(zip(wanted.split(b'\n'), found.split(b'\n')), 1)
    at, (line, other) = next((pair for pair in pairs if pair[1][0] != pair[1][1]), (0, (b'', b'')))
    return (f'{clip(script)}the judge, status {status}:\n{clip(wanted)}the program, status {exit_status}:\n{clip(found)}'
            f'line {at} of the transcript: the judge {clip(line)!r}, the program {clip(other)!r}')


def clip(text):
    """A text, without its middle if it is long."""
    shown = text.decode('latin-1')
    return shown if len(shown) < 4000 else f'{shown[:2000]}\n..\n{shown[-2000:]}'
