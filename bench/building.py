"""Builds the programs of `calls`, `threads`, `peers`, `stress` and `sqlite` over copies of the crates, and changes nothing in the repository.

Each folder of programs/ has the files of one crate, which tools/laid_out.py lays out in a copy."""
import os
import shutil
import subprocess
import sys

HERE = os.path.dirname(os.path.abspath(__file__))
ABOVE = os.path.dirname(HERE)
sys.path.append(os.path.join(ABOVE, 'tools'))
from laid_out import SOURCES, files_in, lay_out

# What the program of `calls` uses, which `peers` runs, too.
CALLS_CRATES = ('jc_types', 'jc_model', 'jc_outside', 'jc_mutentry', 'jc_stripe', 'jc_store', 'jc_session', 'jc_cache', 'jc_bulk', 'indexmap', 'anyhow')
# The programs, each with the crates that it uses, as a line of crates.txt has them.
PROGRAMS = {
    'calls': CALLS_CRATES,
    'lru': ('lru', 'anyhow'),
    'sqlite': ('jc_types', 'jc_outside', 'jc_sqlite', 'itoa', 'anyhow'),
    'stress': ('indexmap', 'jc_types', 'jc_model', 'jc_store', 'jc_cache', 'anyhow'),
    'threads': ('jc_types', 'jc_store', 'jc_cache', 'anyhow'),
}
BUILT = ('out/rlib',)  # with it nothing is proved twice


def crate_of(kind):
    """The crate of a program: its line of crates.txt, and its files, each with its name in the copy."""
    return f'bench_{kind}: {" ".join(PROGRAMS[kind])}', list(files_in(os.path.join(HERE, 'programs', kind)))


def build(kind, words, folder):
    """The program of a kind, proved and built in a folder of its own below this one, and run once with these words."""
    at = lay_out(*crate_of(kind), os.path.join(folder, kind), SOURCES + BUILT)
    made = subprocess.run(['rt', 'run', '--', *words], cwd=at, stdin=subprocess.DEVNULL, stdout=subprocess.PIPE,
                          stderr=subprocess.STDOUT, text=True)
    if made.returncode != 0:
        sys.exit(f'{made.stdout}the program was not built: rt run ended with status {made.returncode}')
    return os.path.join(at, 'out', f'bench_{kind}')


def build_plain(name, folder):
    """A program in plain Rust, or none if there is no compiler."""
    if shutil.which('rustc') is None:
        return None
    program = os.path.join(folder, name)
    made = subprocess.run(['rustc', '-O', '-o', program, os.path.join(HERE, f'{name}.rs')])
    if made.returncode != 0:
        sys.exit('the cache in plain Rust was not built')
    return program
