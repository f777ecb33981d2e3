"""Repositories in a temporary folder: copies of the crates, and one crate more that is laid out of other sources.

Sources outside of crates/ have names that end in .rs, and in .antt.txt, since `rt ci` takes a file that ends in .rt or .antt only where it
proves it; in the copy they end so. What is built there changes nothing in the repository."""
import os
import re
import shutil
import subprocess
import sys

TOP = os.path.dirname(os.path.dirname(os.path.abspath(__file__)))
ENDINGS = {'.rs': '.rt', '.antt.txt': '.antt'}  # here, and in the copy
SOURCES = ('src', 'specs', 'proofs')


def listed():
    """The lines of crates.txt, by crate."""
    with open(os.path.join(TOP, 'crates.txt')) as file:
        return {re.match(r'\w+', line)[0]: line for line in file if ':' in line and not line.startswith('#')}


def crates_below(line, lines):
    """The crates of the repository that a line of crates.txt names, and those below them, lowest first."""
    for word in line.partition(':')[2].split():
        if word in lines:
            yield from crates_below(lines[word], lines)
            yield word


def copy_crate(crate, folder, parts):
    """These parts of a crate."""
    source, to = os.path.join(TOP, 'crates', crate), os.path.join(folder, 'crates', crate)
    for part in parts:
        if os.path.isdir(os.path.join(source, part)):
            shutil.rmtree(os.path.join(to, part), ignore_errors=True)
            shutil.copytree(os.path.join(source, part), os.path.join(to, part))


def files_in(folder):
    """The files of a folder outside of crates/, each with its name in the copy."""
    for at, _, names in os.walk(folder):
        for name in sorted(names):
            source = os.path.join(at, name)
            ending = next((ending for ending in ENDINGS if name.endswith(ending)), None)
            if ending is None:
                sys.exit(f'{os.path.relpath(source, TOP)}: a name here ends in {" or ".join(ENDINGS)}')
            yield source, os.path.relpath(source, folder).removesuffix(ending) + ENDINGS[ending]


def lay_out(line, files, folder, parts):
    """A repository in a folder, with a crate that has this line of crates.txt and these files, and these parts of all crates below it. It
    returns the crate's folder."""
    lines = listed()
    needed = list(dict.fromkeys(crates_below(line, lines)))
    at = os.path.join(folder, 'crates', re.match(r'\w+', line)[0])
    os.makedirs(folder, exist_ok=True)
    for crate in needed:
        copy_crate(crate, folder, parts)
    for part in SOURCES:
        shutil.rmtree(os.path.join(at, part), ignore_errors=True)
    for source, name in files:
        to = os.path.join(at, name)
        os.makedirs(os.path.dirname(to), exist_ok=True)
        shutil.copy(source, to)
    shutil.copy(os.path.join(TOP, 'HANDLES'), folder)
    with open(os.path.join(folder, 'crates.txt'), 'w') as file:
        file.writelines([lines[crate] for crate in needed] + [line.rstrip('\n') + '\n'])
    return at


def differing(line, files, folder):
    """Those of a crate's files that `rt fmt` lays out otherwise, each with its copy that is laid out."""
    at = lay_out(line, files, folder, ())
    made = subprocess.run(['rt', 'fmt'], cwd=at, stdout=subprocess.PIPE, stderr=subprocess.STDOUT, text=True)
    if made.returncode != 0:
        sys.exit(f'{made.stdout}rt fmt ended with status {made.returncode}')
    for source, name in files:
        copy = os.path.join(at, name)
        with open(source) as one, open(copy) as other:
            if one.read() != other.read():
                yield source, copy
