#!/usr/bin/env python3
"""Copies and empties a log that SQLite wrote, beside SQLite's own checkpoint of the same files. Run by hand.

    bench/checkpoint.py [--mib 256] [--runs 5]

SQLite writes the log, with pages of 4096 bytes, in some commits that write many pages again; all files lie in a folder
that goes away at the end. Each run takes two copies of the database and its log. One is checkpointed by the proved
`backfill` and `restart`, the other by SQLite's `wal_checkpoint(TRUNCATE)`; then the two database files have to be the
same, and both logs empty. Before its checkpoint SQLite reads the whole log once, to make its index; `backfill` reads
it within its own time. The times are medians. Where Python has no SQLite it does nothing.
"""

import argparse
import filecmp
import os
import shutil
import statistics
import subprocess
import sys
import tempfile
import time

try:
    import sqlite3
except ImportError:
    print("skipped: this Python has no sqlite3")
    sys.exit(0)

ROOT = os.path.dirname(os.path.dirname(os.path.abspath(__file__)))
CRATE = os.path.join(ROOT, "crates", "checkpoint_bench")
BLOB_BYTES = 1 << 20
COMMITS = 8
WANTED = 1.4


def proved_program():
    """The proved program, built where need be."""
    subprocess.run(["rt", "run"], cwd=CRATE, stdout=subprocess.DEVNULL, stderr=subprocess.DEVNULL)
    path = os.path.join(CRATE, "out", "checkpoint_bench")
    if not os.path.exists(path):
        sys.exit("the program isn't built: run rt check in crates/checkpoint_bench to see why")
    return path


def connect(path):
    database = sqlite3.connect(path, isolation_level=None)
    database.execute("PRAGMA page_size = 4096")
    database.execute("PRAGMA journal_mode = WAL")
    database.execute("PRAGMA wal_autocheckpoint = 0")
    # pages that are pushed out early would be written to the log twice
    database.execute("PRAGMA cache_spill = 0")
    return database


def write_log(path, mib):
    """Makes a database whose log has some commits, the last of which ends where the log does. It stays open, since
    SQLite copies the log where the last one closes it."""
    database = connect(path)
    database.execute("CREATE TABLE t (a INTEGER PRIMARY KEY, b BLOB)")
    database.execute("PRAGMA wal_checkpoint(TRUNCATE)")
    each = max(mib // COMMITS, 1)
    for commit in range(COMMITS):
        database.execute("BEGIN")
        for row in range(commit * each, (commit + 1) * each):
            # each eighth row takes the place of one of the commit before
            place = row - each if row % 8 == 7 and commit > 0 else row
            database.execute("REPLACE INTO t VALUES (?, ?)", (place, os.urandom(BLOB_BYTES)))
        database.execute("COMMIT")
    return database


def copy_pair(path, copy):
    for end in ("", "-wal"):
        shutil.copyfile(path + end, copy + end)
        with open(copy + end, "rb") as file:
            os.fsync(file.fileno())


def ours(program, path):
    """The times of the two calls in seconds."""
    end = os.path.getsize(path + "-wal")
    run = subprocess.run([program, path, path + "-wal", str(end)], check=True, capture_output=True, text=True)
    times = dict(line.split() for line in run.stdout.splitlines())
    if set(times) != {"backfill", "restart"}:
        sys.exit(f"the checkpoint was refused: {run.stdout}")
    return int(times["backfill"]) / 1e9, int(times["restart"]) / 1e9


def sqlites(path):
    """The times in seconds of reading the log for the index and of the checkpoint."""
    start = time.perf_counter()
    database = sqlite3.connect(path, isolation_level=None)
    database.execute("SELECT count(*) FROM sqlite_schema").fetchone()
    read = time.perf_counter()
    busy, _, _ = database.execute("PRAGMA wal_checkpoint(TRUNCATE)").fetchone()
    done = time.perf_counter()
    if busy or os.path.getsize(path + "-wal") != 0:
        sys.exit("SQLite didn't copy the log")
    database.close()
    return read - start, done - read


def one_run(program, path, folder):
    a, b = os.path.join(folder, "a"), os.path.join(folder, "b")
    copy_pair(path, a)
    mine = ours(program, a)
    copy_pair(path, b)
    theirs = sqlites(b)
    if not filecmp.cmp(a, b, shallow=False) or os.path.getsize(a + "-wal") != 0:
        sys.exit("the two checkpoints left different files")
    return mine + theirs


def main():
    words = argparse.ArgumentParser(description=__doc__, formatter_class=argparse.RawDescriptionHelpFormatter)
    words.add_argument("--mib", type=int, default=256)
    words.add_argument("--runs", type=int, default=5)
    asked = words.parse_args()
    program = proved_program()
    with tempfile.TemporaryDirectory() as folder:
        path = os.path.join(folder, "app.db")
        database = write_log(path, asked.mib)
        size = os.path.getsize(path + "-wal")
        runs = [one_run(program, path, folder) for _ in range(asked.runs)]
        database.close()
    backfill, restart, read, checkpoint = (statistics.median(column) for column in zip(*runs))
    print(f"log of {size} bytes, {asked.runs} runs: the same database files, and empty logs")
    print(f"backfill   {backfill:7.3f} s, restart {restart:.3f} s")
    print(f"SQLite     {checkpoint:7.3f} s, and {read:.3f} s before that to read the log")
    ratio = (backfill + restart) / checkpoint
    whole = (backfill + restart) / (checkpoint + read)
    print(f"ratio      {ratio:7.2f} (wanted: at most {WANTED}), {whole:.2f} with SQLite's read of the log")
    if ratio > WANTED:
        sys.exit(1)


if __name__ == "__main__":
    main()
