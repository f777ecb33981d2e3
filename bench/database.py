"""The file from which `sqlite` times loads, and `check` makes some."""
import sqlite3

TABLE = 'CREATE TABLE entry (key BLOB PRIMARY KEY NOT NULL, value BLOB NOT NULL) STRICT'


def make_file(path, rows):
    """A file that `sqlite3` has made, with so many rows."""
    connection = sqlite3.connect(path)
    connection.execute(TABLE)
    connection.executemany('INSERT INTO entry VALUES (?, ?)', ((str(row).encode(), b'a 16-byte value.') for row in range(rows)))
    connection.commit()
    connection.close()
