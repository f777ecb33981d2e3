"""Recordings that are made now, of this repository's hosts and of caches that have to be caught."""
import glob
import os
import shutil
import subprocess
import sys
import sysconfig
import tempfile

from calls import Rules

HERE = os.path.dirname(os.path.abspath(__file__))
BINDINGS = os.path.join(HERE, '..', '..', 'bindings')
JARS = '/usr/share/java'
API = f'{JARS}/geronimo-jcache-1.0-spec.jar'
ONE = 'ops=get,get,contains,put,getput,putif,remove,removeif,getremove,replace,replaceif,getreplace,loadall,loadkeep,invoke,invoke'
MANY = 'ops=get,get,put,getall,putall,removeall,removeevery,clear,loadall,loadkeep,invoke,invokeall'


def runs(words, **more):
    """Runs a command. What it says, if it fails."""
    ran = subprocess.run(words, stdout=subprocess.PIPE, stderr=subprocess.STDOUT, universal_newlines=True, timeout=300, **more)
    return ran.stdout if ran.returncode else None


def leave_out(what, why):
    print(f'left out: {what} ({why})')


def count_keys(judge, folder):
    """How many keys of all records of a folder are explained, and how many aren't."""
    said = []
    for path in sorted(glob.glob(os.path.join(folder, '*.history'))):
        with open(path) as file:
            said += judge.verdicts(file.read(), Rules()).values()
    return said.count('explained'), said.count('not explained'), said.count('gave up')


def expect(judge, tally, name, folder, is_right):
    """Of a cache that is right each key is explained; of another one at least one isn't."""
    explained, refuted, stopped = count_keys(judge, folder)
    print(f'{name}: {explained} keys explained, {refuted} not, {stopped} given up')
    if is_right:
        tally.count(explained > 0 and refuted == 0, f'{name}: not all is explained')
    else:
        tally.count(refuted > 0, f'{name}: nothing was found')
    if is_right and refuted:
        shutil.copytree(folder, kept := tempfile.mkdtemp(prefix='histories-'), dirs_exist_ok=True)
        print(f'the records are in {kept}')


class Python:
    """The package for Python, built in a folder of its own."""

    def __init__(self, room):
        self.room = room
        shutil.copytree(os.path.join(BINDINGS, 'python', 'cadwrelch'), os.path.join(room, 'cadwrelch'), ignore=shutil.ignore_patterns('*.so'))

    def build(self):
        include = sysconfig.get_path('include')
        return runs(['cc', '-std=c11', '-O2', '-fvisibility=hidden', '-fPIC', '-shared', f'-I{include}', f'-I{BINDINGS}/core/include',
                     *glob.glob(f'{BINDINGS}/python/src/*.c'), f'{BINDINGS}/core/cadwrelch.s', '-Wl,-Bsymbolic',
                     '-o', os.path.join(self.room, 'cadwrelch', '_core.abi3.so')])

    def record(self, subject, rounds, *options):
        folder = tempfile.mkdtemp(dir=self.room)
        for seed in range(rounds):
            path = os.path.join(folder, f'{seed}.history')
            failed = runs([sys.executable, os.path.join(HERE, 'traffic.py'), subject, path, str(seed), *options],
                          env=dict(os.environ, PYTHONPATH=self.room, PYTHONDONTWRITEBYTECODE='1'))
            if failed:
                raise RuntimeError(failed)
        return folder


def judge_python(judge, tally, room):
    if not shutil.which('cc') or os.uname().machine != 'x86_64' or not os.path.exists(os.path.join(sysconfig.get_path('include'), 'Python.h')):
        return leave_out('Python', 'no cc, or no Python.h')
    python = Python(room)
    failed = python.build()
    tally.count(not failed, 'the package for Python is not built', failed)
    if not failed:
        expect(judge, tally, 'Python, our cache', python.record('cache', 12), True)
        expect(judge, tally, 'Python, our cache, a store that fails and lies', python.record('cache', 12, '12', '8'), True)
        expect(judge, tally, 'Python, a naive cache', python.record('naive', 40), False)


class Java:
    """The provider, the recorder, and the program that calls caches."""

    def __init__(self, room):
        self.room, out = room, os.path.join(BINDINGS, 'java', 'out')
        self.ehcache = [jar for name in ('ehcache-core', 'slf4j-api', 'slf4j-nop') if os.path.exists(jar := f'{JARS}/{name}.jar')]
        self.path = ':'.join([os.path.join(room, 'classes'), f'{out}/cadwrelch-jcache.jar', f'{out}/cadwrelch-recorder.jar', API, *self.ehcache])

    def build(self):
        sources = [f'{HERE}/java/{name}.java' for name in ('SlowStore', 'Subjects', 'Traffic', *['EhcacheSubject'] * bool(self.ehcache))]
        return runs([os.path.join(BINDINGS, 'java', 'build.sh')]) or runs(
            ['javac', '-nowarn', '--release', '11', '-d', os.path.join(self.room, 'classes'), '-cp', self.path, *sources])

    def record(self, subject, *options):
        folder = tempfile.mkdtemp(dir=self.room)
        failed = runs(['java', '-XX:TieredStopAtLevel=1', '-XX:+UseSerialGC', '-cp', self.path, 'Traffic', subject, folder, *options])
        if failed:
            raise RuntimeError(failed)
        return folder


def judge_java(judge, tally, room):
    if not all(map(shutil.which, ('javac', 'java', 'jar', 'gcc'))) or not os.path.exists(API):
        return leave_out('Java', f'no JDK, no gcc, or no {API}')
    java = Java(room)
    failed = java.build()
    tally.count(not failed, 'the provider or the recorder for Java is not built', failed)
    if failed:
        return
    expect(judge, tally, 'Java, our provider', java.record('provider', 'fail=8', 'lie=5', ONE), True)
    expect(judge, tally, 'Java, our provider, many keys', java.record('provider', 'fail=8', 'lie=5', MANY), True)
    expect(judge, tally, 'Java, a lock for each key', java.record('locked', 'fail=8', 'lie=5'), True)
    expect(judge, tally, 'Java, a naive cache', java.record('naive', 'rounds=30'), False)
    if java.ehcache:
        expect(judge, tally, "Java, Debian's Ehcache", java.record('ehcache', 'fail=15'), False)
    else:
        leave_out("Debian's Ehcache", 'no jar of libehcache-java')


def judge_all(judge, tally):
    for part in (judge_python, judge_java):
        with tempfile.TemporaryDirectory() as room:
            part(judge, tally, room)
