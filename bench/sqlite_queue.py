#!/usr/bin/env python3
"""A durable queue in SQLite, as a careful script would have it: bench/table.py times the standard flow beside it.

Run in a folder with the folders `in`, `store` and `out`, it moves each file of `in` to `out`. A file is inserted into a
table, in a transaction of its own, and then removed from `in`. It is written aside in `out`, synced and renamed, and
the folder is synced. Then its row is deleted, in a second transaction. The log is written ahead (WAL), and each
transaction is synced (`synchronous=FULL`).
"""

import os
import pathlib
import sqlite3


def opened(path):
    store = sqlite3.connect(path, isolation_level=None)
    store.execute("PRAGMA journal_mode=WAL")
    store.execute("PRAGMA synchronous=FULL")
    store.execute("CREATE TABLE IF NOT EXISTS waiting (number INTEGER PRIMARY KEY, name TEXT, content BLOB)")
    return store


def take(store, path):
    store.execute("INSERT INTO waiting (name, content) VALUES (?, ?)", (path.name, path.read_bytes()))
    path.unlink()


def deliver(store, outbox, folder):
    number, name, content = store.execute(
        "SELECT number, name, content FROM waiting ORDER BY number LIMIT 1").fetchone()
    aside = outbox / f".aside-{number}"
    with open(aside, "wb") as file:
        file.write(content)
        file.flush()
        os.fsync(file.fileno())
    aside.rename(outbox / name)
    os.fsync(folder)
    store.execute("DELETE FROM waiting WHERE number = ?", (number,))


def main():
    store, outbox = opened(pathlib.Path("store", "queue")), pathlib.Path("out")
    folder = os.open(outbox, os.O_RDONLY)
    for path in sorted(pathlib.Path("in").iterdir()):
        take(store, path)
        deliver(store, outbox, folder)
    os.close(folder)
    store.close()


if __name__ == "__main__":
    main()
