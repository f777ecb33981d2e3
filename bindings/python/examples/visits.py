"""Counts visits of pages through a cache before a SQLite file. Stopped, at any moment, and started again, it finds its numbers.

usage: visits.py FILE [ROUNDS]
"""
import contextlib
import os
import sqlite3
import sys
import threading

sys.path.insert(0, os.path.join(os.path.dirname(os.path.abspath(__file__)), '..'))
import cadwrelch  # noqa: E402

PAGES = ['home', 'news', 'about']


class Table:
    """A loader and a writer: a table of a SQLite file, with a connection a thread."""

    def __init__(self, path):
        self._path = path
        self._local = threading.local()
        with self._connection() as connection:
            connection.execute('create table if not exists visits (page text primary key, count integer not null)')

    def _connection(self):
        if not hasattr(self._local, 'connection'):
            self._local.connection = sqlite3.connect(self._path, timeout=60)
        return self._local.connection

    def load_many(self, keys):
        marks = ', '.join('?' * len(keys))
        with self._connection() as connection:
            return dict(connection.execute(f'select page, count from visits where page in ({marks})', keys))

    def load(self, key):
        return self.load_many([key]).get(key)

    def write_many(self, items):
        with self._connection() as connection:
            connection.executemany('insert or replace into visits values (?, ?)', items.items())

    def write(self, key, value):
        self.write_many({key: value})

    def delete_many(self, keys):
        with self._connection() as connection:
            connection.executemany('delete from visits where page = ?', [(key,) for key in keys])

    def delete(self, key):
        self.delete_many([key])


def count_visit(entry):
    """An entry processor: no other call changes the entry while it runs."""
    entry.value = (entry.value or 0) + 1
    return entry.value


def work(cache, rounds):
    for turn in range(rounds):
        cache.invoke(PAGES[turn % len(PAGES)], count_visit)


def main(path, rounds=10):
    table = Table(path)
    with contextlib.closing(cadwrelch.Cache(loader=table, writer=table, stripes=4, capacity=4000)) as cache:
        workers = [threading.Thread(target=work, args=(cache, rounds)) for _ in range(4)]
        for worker in workers:
            worker.start()
        for worker in workers:
            worker.join()
        found = cache.get_many(PAGES)
        print(' '.join(f'{page}={found.get(page, 0)}' for page in PAGES))
    return 0


if __name__ == '__main__':
    if not 2 <= len(sys.argv) <= 3:
        sys.exit(__doc__)
    sys.exit(main(sys.argv[1], *map(int, sys.argv[2:])))
