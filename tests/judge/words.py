"""The lines of a script: the shape of a line, and then its words from the left (docs/SCRIPT.md, "Lines and words", "The lines",
"The fault of a line")."""
import functools
import re
from dataclasses import dataclass, field
from typing import Any, List, Optional, Tuple

NUMBER = re.compile(r'0|[1-9][0-9]{0,8}')
SESSION = re.compile(r's([1-9]|[12][0-9]|3[0-2])')
KEY = re.compile(r'[A-Za-z0-9_.]{1,32}')
VALUE = re.compile(r'~|[A-Za-z0-9_.]{1,256}')

# The words of a form. N, C: a number, a code; S: a session; K: a key; V: a value; X: a value or `-`; A: a number of a shape.
# K+, K*: at least one key, or none; Q+: pairs with different keys; P*: pairs. Any other word stands for itself.
ONE_KEY = {'get': 'K', 'contains': 'K', 'put': 'K V', 'getput': 'K V', 'putif': 'K V', 'remove': 'K', 'removeif': 'K V', 'getremove': 'K',
           'forget': 'K', 'replace': 'K V', 'replaceif': 'K V V', 'getreplace': 'K V', 'invoke': 'K'}
MANY_KEYS = {'getall': ['K+'], 'putall': ['Q+'], 'removeall': ['K+'], 'removeevery': [''], 'clear': [''],
             'loadall': ['keep K+', 'replace K+'], 'invokeall': ['K+']}
SHAPES = ['A A A', 'A A A read', 'A A A write', 'A A A read write']
FORMS = {'open': SHAPES, 'reopen': SHAPES, 'set': ['K V'], 'foreign': ['K X'], 'invalidate': ['K'], 'audit': [''], 'untold': [''],
         'begin': [f'N S {op} {form}' for op, form in ONE_KEY.items()] + [f'N S {op} {form}' for op in MANY_KEYS for form in MANY_KEYS[op]],
         'end': ['N'], 'drop': ['N'], 'take': ['N'], 'more': ['N'], 'read': ['N'], 'readfail': ['N C'], 'say': ['N P*'],
         'apply': ['N', 'N but K+'], 'applyfail': ['N C', 'N C but K*'], 'applylie': ['N C']}
FORMS = {word: [form.split() for form in forms] for word, forms in FORMS.items()}
WORDS = [*FORMS, 'process']
"""The first words of lines."""


class Fault(Exception):
    """The fault of a line, which has done nothing then."""

    def __init__(self, text):
        super().__init__(text)
        self.text = text


@dataclass
class Line:
    """A line whose shape and words are right. `fixed` are the words of its form that stand for themselves."""
    word: str
    fixed: Tuple[str, ...] = ()
    number: int = -1
    session: int = 0
    key: str = ''
    code: Optional[int] = None
    values: List[Optional[str]] = field(default_factory=list)
    shape: List[int] = field(default_factory=list)
    keys: List[str] = field(default_factory=list)
    pairs: List[Tuple[str, str]] = field(default_factory=list)
    load: Any = None        # of a `process`: what its loader answers, if not what the store has
    calls: List[Tuple[str, ...]] = field(default_factory=list)

    @property
    def op(self):
        return self.fixed[0]


def number(word):
    if not NUMBER.fullmatch(word):
        raise Fault('bad number')
    return int(word)


def session(word):
    if not SESSION.fullmatch(word):
        raise Fault('bad caller')
    return int(word[1:])


def key(word):
    if not KEY.fullmatch(word):
        raise Fault('bad key')
    return word


def value(word):
    if not VALUE.fullmatch(word):
        raise Fault('bad value')
    return '' if word == '~' else word


def value_or_none(word):
    return None if word == '-' else value(word)


def fresh_key(word, seen):
    """A key that none of these is; it is one of them then."""
    if key(word) in seen:
        raise Fault('repeated key')
    seen.add(word)
    return word


def pair(word, seen=None):
    """A pair, whose key comes before its value."""
    name, is_pair, text = word.partition('=')
    name = key(name) if seen is None else fresh_key(name, seen)
    if not is_pair:
        raise Fault('bad value')
    return name, value(text)


SINGLE = {'N': ('number', number), 'C': ('code', number), 'S': ('session', session), 'K': ('key', key)}
LISTED = {'V': ('values', value), 'X': ('values', value_or_none), 'A': ('shape', number)}


def is_fixed(item):
    """Whether a word of a form stands for itself."""
    return item not in SINGLE and item not in LISTED and item[1:] not in ('+', '*')


def fits(form, words):
    """Whether words have this shape."""
    has_list, may_lack = bool(form) and form[-1][1:] in ('+', '*'), bool(form) and form[-1][1:] == '*'
    if len(words) < len(form) - may_lack or len(words) > len(form) and not has_list:
        return False
    return all(item == word for item, word in zip(form, words) if is_fixed(item))


def read_words(line, form, words):
    """Fills a line with the words that its form names, from the left."""
    for at, item in enumerate(form):
        seen = set()
        if is_fixed(item):
            continue
        if item in SINGLE:
            name, reader = SINGLE[item]
            setattr(line, name, reader(words[at]))
        elif item in LISTED:
            name, reader = LISTED[item]
            getattr(line, name).append(reader(words[at]))
        elif item[0] == 'K':
            line.keys += [fresh_key(word, seen) for word in words[at:]]
        else:
            line.pairs += [pair(word, seen if item[0] == 'Q' else None) for word in words[at:]]
    return line


def read_process(words):
    """`process N [loadfail=C or loadsay=V or loadsay=-] [CALL ..] [fail=C]`"""
    calls = words[1:]
    load = calls.pop(0) if calls and calls[0].startswith(('loadfail=', 'loadsay=')) else None
    fail = calls.pop() if calls and calls[-1].startswith('fail=') else None
    if not words or not all(call in ('get', 'exists', 'remove') or call.startswith('set=') for call in calls):
        raise Fault('bad line')
    line = Line('process', number=number(words[0]))
    if load is not None:
        how, _, word = load.partition('=')
        line.load = ('failed', number(word)) if how == 'loadfail' else ('found', value_or_none(word))
    line.calls = [('set', value(call[4:])) if call.startswith('set=') else (call,) for call in calls]
    line.code = None if fail is None else number(fail[5:])
    return line


@functools.lru_cache(maxsize=None)
def read_line(text):
    """A line that has no bad byte, and is neither empty nor a comment. Raises its fault, if that isn't of the world's state. What is
    returned is kept, since scripts are played more than once; so nobody changes it."""
    word, *words = text.split(' ')
    if '' in words or word not in WORDS:
        raise Fault('bad line')
    if word == 'process':
        return read_process(words)
    form = next((form for form in FORMS[word] if fits(form, words)), None)
    if form is None:
        raise Fault('bad line')
    return read_words(Line(word, tuple(filter(is_fixed, form))), form, words)
