"""Runs programs that print how many calls did as they should, and measures them, for `calls`, `threads`, `peers` and `tables`."""
import contextlib
import os
import re
import statistics
import subprocess
import sys
import tempfile
import time
from concurrent.futures import ThreadPoolExecutor

# The caches that live on which are measured: how many stripes, and how many places the history of one has.
STRIPES = (1, 16, 64)
HISTORIES = (16, 64, 256, 512, 1024, 4096, 65536)
# The stripes and places of the one that is compared with other caches, as words of a command line.
LIVING = ('16', '256')
COUNTED = 10_000, 30_000  # between how many calls instructions are counted


def read_words(words, usage, known):
    """The options of a command line, and the folders that it names: one or none. With other words it ends, with status 2."""
    options = {word for word in words if word.startswith('-')}
    folders = [word for word in words if not word.startswith('-')]
    if not options <= set(known) or len(folders) > 1:
        print(usage, file=sys.stderr)
        sys.exit(2)
    return options, folders


@contextlib.contextmanager
def folder_for(folders):
    """The folder that is named, or a temporary one."""
    with tempfile.TemporaryDirectory() as temporary:
        folder = os.path.abspath(folders[0]) if folders else temporary
        os.makedirs(folder, exist_ok=True)
        yield folder


def processor_seconds():
    """What other processes have used of the processors, and what the host has kept from this machine, since it was started."""
    with open('/proc/stat') as file:
        words = file.readline().split()[1:9]
    user, nice, system, _, _, irq, softirq, steal = [int(word) / os.sysconf('SC_CLK_TCK') for word in words]
    return user + nice + system + irq + softirq - sum(os.times()[:4]), steal


@contextlib.contextmanager
def quietness():
    """Prints the load before a measurement, and after it what work the machine had beside it."""
    one, five, fifteen = os.getloadavg()
    print(f'load average before: {one:.2f} {five:.2f} {fifteen:.2f}, on {os.cpu_count()} processors', flush=True)
    begun, before = time.monotonic(), processor_seconds()
    yield
    spent = time.monotonic() - begun
    others, host = [(after - earlier) / spent for earlier, after in zip(before, processor_seconds())]
    print(f'\nin {spent:.0f} s other processes used {others:.2f} processors, and the host kept {host:.2f} from this machine', flush=True)


def timed(command, calls):
    """One run: its time by the wall clock, and its processor time, in seconds. All calls are to have done as they should."""
    begun = time.perf_counter()
    with subprocess.Popen(command, stdout=subprocess.PIPE, text=True) as child:
        printed = child.stdout.read()
        _, status, used = os.wait4(child.pid, 0)
        child.returncode = os.waitstatus_to_exitcode(status)
    spent = time.perf_counter() - begun
    if child.returncode != 0 or printed != f'{calls}\n':
        sys.exit(f'{command}: status {child.returncode}, and {printed!r} was printed')
    return spent, used.ru_utime + used.ru_stime


def medians(cases, runs):
    """Of each case the nanoseconds of a call by the wall clock and of processor time: the medians of some runs, which are made in turns.

    A case is what gives the command for a number of calls, and two such numbers: a call takes as much longer as the greater one does."""
    spent = {name: [] for name in cases}
    for _ in range(runs):
        for name, (command, few, many) in cases.items():
            once, more = timed(command(few), few), timed(command(many), many)
            spent[name].append([(after - before) / (many - few) * 1e9 for before, after in zip(once, more)])
    return {name: [statistics.median(clock) for clock in zip(*pairs)] for name, pairs in spent.items()}


def own_costs(path):
    """How many instructions a run took, and how many of them copied memory and cleared it, of a file of callgrind's."""
    total, copied, cleared = 0, 0, 0
    function, is_of_callee = '', False
    with open(path, errors='replace') as file:
        for line in file:
            if line.startswith('fn='):
                function = line
            elif line.startswith('calls='):
                is_of_callee = True  # the next line has what the callee took
            elif re.match(r'[\d+*-]', line):
                cost = 0 if is_of_callee else int(line.split()[1])
                is_of_callee = False
                total += cost
                copied += cost if re.search('memcpy|memmove', function) else 0
                cleared += cost if 'memset' in function else 0
    return total, copied, cleared


def count_run(command):
    """The instructions of one run, as `own_costs` has them."""
    with tempfile.TemporaryDirectory() as folder:
        out = os.path.join(folder, 'out')
        ran = subprocess.run(['valgrind', '--tool=callgrind', '--compress-strings=no', f'--callgrind-out-file={out}', *command],
                             stdout=subprocess.DEVNULL, stderr=subprocess.PIPE, text=True)
        if ran.returncode != 0:
            sys.exit(f'{command}: valgrind ended with status {ran.returncode}\n{ran.stderr}')
        return own_costs(out)


def instructions(cases):
    """Of each case the instructions of a call, as `own_costs` has them. A case is what gives the command for a number of calls, and how many
    keys one names. The runs are side by side, since other work doesn't change what is counted."""
    with ThreadPoolExecutor(len(os.sched_getaffinity(0))) as pool:
        runs = {name: [(calls // keys, pool.submit(count_run, command(calls // keys))) for calls in COUNTED]
                for name, (command, keys) in cases.items()}
        counts = {}
        for name, ((few, once), (many, more)) in runs.items():
            keys = cases[name][1]
            counts[name] = [(after - before) / ((many - few) * keys) for before, after in zip(once.result(), more.result())]
    return counts


def print_table(title, heads, rows):
    """A table in Markdown, below its title."""
    print(f'\n{title}\n')
    for row in (heads, None, *rows):
        print('|' + '---|' * len(heads) if row is None else '| ' + ' | '.join(row) + ' |', flush=True)
