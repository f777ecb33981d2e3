"""Random lines of scripts, whose words are good or bad."""
from words import FORMS, WORDS, is_fixed

KEYS = ['a', 'b', 'c', 'd', 'k' * 32, 'but']
VALUES = ['~', '1', '2', 'v' * 255, 'v' * 256, 'x.y_Z', '0']
WRONG = {'N': ['00', '01', '1000000000', '18446744073709551616', '-1', '+1', '1.0', '1a', 'x'],
         'S': ['s33', 's0', 's01', 's', 'S1', '1', 's1a', 's100'],
         'K': ['k' * 33, '~', '-', 'a-b', 'a=b', '=', 'a!', '@', '[', '/', ':', 'a,b', '"', '|', 'a~'],
         'V': ['~~', '-', '~a', 'a~', 'v' * 257, '=', 'a=b', 'a-b', '!', '--'],
         'pair': ['=', '=1', 'a=', '==', 'a==1', 'a=1=2', '!=1', '!', '!=!', 'a=!', 'a']}
RIGHT = {'N': ['0', '1', '2', '3', '5', '9', '999999999'], 'S': ['s1', 's2', 's3', 's32'], 'K': KEYS, 'V': VALUES}
CALLS = ['get', 'exists', 'remove', 'set=1', 'set=~']
WRONG_CALLS = ['set', 'got', 'get=', 'exists=1', 'setx=1', 'remove=', 'fail=1', 'loadfail=1', 'loadsay=1', 'Get', 'fail', 'set=', 'set=-']
OTHER = ['Open', 'BEGIN', 'quit', 'ended', 'invalid', 'invalidated', 'told', 'forget', '~', '=', 'a']
ODD_BYTES = b'\0\t\x0b\r\x1f   !#-.0==A_a~~\x7f\x80\xa0\xc3\xff'


def word(rng, kind):
    """A number, session, key or value."""
    return rng.choice((WRONG if rng.random() < 0.1 else RIGHT)[kind])


def pair(rng):
    return rng.choice(WRONG['pair']) if rng.random() < 0.1 else word(rng, 'K') + '=' + word(rng, 'V')


def item_words(rng, item):
    """Words for an item of a form."""
    if is_fixed(item):
        return [item if rng.random() < 0.95 else rng.choice(['read', 'keep', 'get', 'but', item.upper()])]
    if item[1:] in ('+', '*'):
        count = rng.choice([1, 1, 2, 3, 4]) if item[1:] == '+' or rng.random() < 0.7 else 0
        return [word(rng, 'K') if item[0] == 'K' else pair(rng) for _ in range(count)]
    if item == 'X' and rng.random() < 0.3:
        return ['-']
    return [word(rng, {'C': 'N', 'A': 'N', 'X': 'V'}.get(item, item))]


def shape(rng, first):
    """An `open` or a `reopen` whose numbers are at their limits."""
    return [first, rng.choice(['0', '1', '2', '64', '65']), rng.choice(['0', '1', '2', '4096', '4097']),
            rng.choice(['15', '16', '100', '65536', '65537']), *rng.choice([[], ['read'], ['write'], ['read', 'write'], ['write', 'read']])]


def process(rng):
    found = ['process', word(rng, 'N')]
    if rng.random() < 0.4:
        found.append(rng.choice(['loadfail=', 'loadsay=']) + rng.choice([word(rng, 'N'), word(rng, 'V'), '-', '']))
    found += [rng.choice(WRONG_CALLS if rng.random() < 0.1 else CALLS) for _ in range(rng.randrange(4))]
    return found + (['fail=' + rng.choice([word(rng, 'N'), ''])] if rng.random() < 0.3 else [])


def random_words(rng):
    """A line by one of the forms."""
    first = rng.choice(WORDS + ['begin'] * 6)
    if first == 'process':
        return process(rng)
    if first in ('open', 'reopen') and rng.random() < 0.7:
        return shape(rng, first)
    found = [first if rng.random() < 0.96 else rng.choice(OTHER)]
    for item in rng.choice(FORMS[first]):
        found += item_words(rng, item)
    return found


def shaken(rng, found):
    """A word more, or less, or in another place."""
    at = rng.randrange(len(found))
    kind = rng.randrange(5)
    if kind == 0:
        found.insert(at, rng.choice(['', 'a', '1', 'but']))
    elif kind == 1:
        del found[at]
    elif kind == 2:
        found.append(rng.choice(found))
    elif kind == 3:
        rng.shuffle(found)
    else:
        found.append('')
    return found


def edited(rng, raw):
    """A line after an edit of some bytes."""
    made = bytearray(raw)
    for _ in range(rng.choice([1, 1, 1, 2, 3])):
        at = rng.randrange(len(made) + 1)
        kind = rng.randrange(3)
        if kind == 0 or at == len(made):
            made.insert(at, rng.choice(ODD_BYTES))
        elif kind == 1:
            made[at] = rng.choice(ODD_BYTES)
        else:
            del made[at]
    return bytes(made)


def long_line(rng):
    """A line near the limit, or beyond it."""
    size = rng.choice([65_535, 65_536, 65_537, 70_000])
    return rng.choice([b'#' * size, b'audit' + b' ' * (size - 5), (b'process 1' + b' get' * (size // 4))[:size],
                       (b'say 1' + b' key=value' * (size // 10))[:size]])


def odd_line(rng):
    """A line that most often has a fault."""
    if rng.random() < 0.04:
        return long_line(rng)
    found = random_words(rng)
    raw = ' '.join(shaken(rng, found) if rng.random() < 0.2 else found).encode()
    return edited(rng, raw) if rng.random() < 0.2 else raw
