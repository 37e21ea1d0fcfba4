#!/usr/bin/env python3
"""A long run on a real SQLite database: an application commits without a pause while `replicate` runs beside it, round
after round, merging and dropping. Then every transaction that is retained is restored and looked at.

    long_run.py [--program PATH] [--commits N] [--seconds S] [--retention D] [FOLDER]

FOLDER, which is made, keeps the database, the replica and what was restored last; without it they go away. Each commit
writes its number and one row that follows from it, so a restored database tells which commit it is of, and what all
its rows have to be is known without looking at the replica. The application keeps to the gate: its connection stays
open and makes no checkpoint. Where Python has no SQLite the run is skipped.
"""

import argparse
import hashlib
import os
import re
import subprocess
import sys
import tempfile
import threading
import time

try:
    import sqlite3
except ImportError:
    print("skipped: this Python has no sqlite3")
    sys.exit(0)

ROOT = os.path.dirname(os.path.dirname(os.path.abspath(__file__)))
LINE = re.compile(r"round \d+ (same|piece|whole) (\S+) passed 0 merged (\d+) dropped (\d+) lost (\d+)")
ROWS = 60
UNITS = {"s": 1, "m": 60, "h": 3600}


def row_of(commit):
    """What a commit writes into its row: 600 to 1900 bytes that follow from its number."""
    block = hashlib.sha256(str(commit).encode()).digest()
    return (block * 60)[: 600 + commit * 7919 % 1300]


class Application(threading.Thread):
    """The program that owns the database. It commits until it is told to stop."""

    def __init__(self, path, commits, pause):
        super().__init__()
        self.path, self.commits, self.pause, self.done = path, commits, pause, 0
        self.keep_open = threading.Event()
        self.ready = threading.Event()

    def run(self):
        connection = sqlite3.connect(self.path, isolation_level=None)
        connection.execute("PRAGMA journal_mode = WAL")
        connection.execute("PRAGMA wal_autocheckpoint = 0")
        connection.execute("PRAGMA synchronous = OFF")
        connection.execute("CREATE TABLE t (row INTEGER PRIMARY KEY, number INTEGER, content BLOB)")
        self.ready.set()
        for commit in range(1, self.commits + 1):
            values = (commit % ROWS, commit, row_of(commit))
            connection.execute("INSERT OR REPLACE INTO t VALUES (?, ?, ?)", values)
            self.done = commit
            time.sleep(self.pause)
        self.keep_open.wait()
        connection.close()


class Replica:
    def __init__(self, program, path, folder, retention):
        self.program, self.path, self.folder, self.retention = program, path, folder, retention
        # when each transaction was stored, by the clock before the run
        self.stored = {}
        self.merged = self.dropped = self.lost = self.rounds = 0

    def call(self, *words):
        return subprocess.run([self.program, *words], capture_output=True, text=True)

    def replicate(self, rounds):
        began = time.time()
        ran = self.call("replicate", "-rounds", str(rounds), "-retention", self.retention, self.path, self.folder)
        if ran.returncode != 0:
            sys.exit(f"replicate: status {ran.returncode}: {ran.stderr}")
        for line in ran.stdout.splitlines():
            found = LINE.fullmatch(line)
            if not found:
                sys.exit(f"no line of a round: {line}")
            self.rounds += 1
            self.merged += int(found[3])
            self.dropped += int(found[4])
            self.lost += int(found[5])
            if found[2] != "-":
                self.stored[int(found[2][-20:-4], 16)] = began
        return began

    def restore(self, txid, output):
        if os.path.exists(output):
            os.remove(output)
        return self.call("restore", "-o", output, "-txid", f"{txid:x}", self.folder)


def commit_in(path):
    """The number of the commit that the database is of, once all its rows are those of that commit."""
    connection = sqlite3.connect(f"file:{path}?immutable=1", uri=True)
    if connection.execute("PRAGMA integrity_check").fetchall() != [("ok",)]:
        sys.exit(f"{path}: SQLite finds it damaged")
    rows = dict((row, (number, content)) for row, number, content in connection.execute("SELECT * FROM t"))
    connection.close()
    newest = max((number for number, _ in rows.values()), default=0)
    for number in range(max(1, newest - ROWS + 1), newest + 1):
        if rows.pop(number % ROWS, None) != (number, row_of(number)):
            sys.exit(f"{path}: of commit {newest}, but row {number % ROWS} isn't")
    if rows:
        sys.exit(f"{path}: of commit {newest}, with rows more")
    return newest


def look_at_all(replica, last_began, seconds, folder):
    """Restores every transaction. Those that were stored within the retention have to be there."""
    output, earlier, restored = os.path.join(folder, "restored.db"), 0, 0
    for txid in range(1, max(replica.stored) + 1):
        ran = replica.restore(txid, output)
        if ran.returncode == 0:
            commit = commit_in(output)
            if commit < earlier:
                sys.exit(f"transaction {txid} is of commit {commit}, one before it of {earlier}")
            earlier, restored = commit, restored + 1
        elif not ran.stderr.startswith("litestream: missing range"):
            sys.exit(f"transaction {txid}: {ran.stderr}")
        elif replica.stored[txid] >= last_began - seconds + 1:
            sys.exit(f"transaction {txid} is lost, {last_began - replica.stored[txid]:.1f} s before the last run")
    return restored, earlier


def main():
    words = argparse.ArgumentParser()
    words.add_argument("--program", default=os.path.join(ROOT, "litestream"))
    words.add_argument("--commits", type=int, default=5000)
    words.add_argument("--seconds", type=int, default=90)
    words.add_argument("--retention", default="20s")
    words.add_argument("folder", nargs="?")
    asked = words.parse_args()
    with tempfile.TemporaryDirectory() as temporary:
        folder = asked.folder or temporary
        os.makedirs(folder, exist_ok=True)
        pause = asked.seconds / asked.commits
        application = Application(os.path.join(folder, "app.db"), asked.commits, pause)
        replica = Replica(asked.program, application.path, os.path.join(folder, "R"), asked.retention)
        application.start()
        application.ready.wait()
        try:
            began = time.time()
            while application.done < asked.commits:
                replica.replicate(20)
                time.sleep(0.1)
            # a whole database that is young lets the older files go
            last = replica.replicate(2)
            seconds = int(asked.retention[:-1]) * UNITS[asked.retention[-1]]
            restored, newest = look_at_all(replica, last, seconds, folder)
        finally:
            application.keep_open.set()
            application.join()
        if newest != asked.commits:
            sys.exit(f"the newest transaction is of commit {newest}, and not of {asked.commits}")
        print(
            f"{asked.commits} commits in {last - began:.0f} s beside {replica.rounds} rounds:"
            f" {len(replica.stored)} transactions, {replica.merged} merges, {replica.dropped} files dropped,"
            f" {replica.lost} transactions lost to age;"
            f" {restored} restored, each as it was"
        )


main()
