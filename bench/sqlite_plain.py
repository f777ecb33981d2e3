"""Loads keys from a SQLite file by Python's `sqlite3`, one by one, for `bench/sqlite` to time: usage: sqlite_plain.py FILE ROWS ROUNDS"""
import sqlite3
import sys

KEYS = 1000
path, rows, rounds = sys.argv[1], int(sys.argv[2]), int(sys.argv[3])
keys = [str(i * 7919 % KEYS * (rows // KEYS)).encode() for i in range(KEYS)]
connection = sqlite3.connect(path)
found = 0
for _ in range(rounds):
    for key in keys:
        if connection.execute('SELECT value FROM entry WHERE key = ?1', (key,)).fetchone() is not None:
            found += 1
print(found)
