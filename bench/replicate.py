#!/usr/bin/env python3
"""Times `replicate` on a large database beside plain copies of the same bytes and SQLite's own backup. Run by hand.

    bench/replicate.py [--mib 256] [--runs 5] [--folder FOLDER]

First syncs of a database of so many MiB into an empty replica: where the database file holds the pages and the log one
commit of few; where the log holds all of them; and where there is no log. A run of `cp` counts with the sync of its
output, since a replication syncs too. Then the sync of one changed page, beside the program's own start and a small
file that is brought to the disk in the same way. The writer of the database keeps to the gate: its connection stays open
and makes no checkpoint. All lie in a folder that goes away at the end. Each time is the best of some runs, and the
machine's load is told with them. Where Python has no SQLite it does nothing; where `sqlite3` isn't installed, its
`.backup` is left out.
"""

import argparse
import os
import shutil
import subprocess
import sys
import tempfile
import time

try:
    import sqlite3
except ImportError:
    print("skipped: this Python has no sqlite3")
    sys.exit(0)

ROOT = os.path.dirname(os.path.dirname(os.path.abspath(__file__)))
BUILT = os.path.join(ROOT, "crates", "litestream_main", "out", "litestream_main")
PAGE_BYTES = 4096
ROW_BYTES = 4000  # a row of a leaf page of its own
WANTED = {"file": 1.6, "log": 2.0, "rest": 2.0}
WANTED_BACKUP = 0.9
WANTED_PAGE_MS = 20
WANTED_PEAK_MIB = 24


def built_program():
    """The proved program, built where need be. The script in front of it isn't timed."""
    quiet = {"stdout": subprocess.DEVNULL, "stderr": subprocess.DEVNULL}
    subprocess.run([os.path.join(ROOT, "litestream")], **quiet)
    if not os.path.exists(BUILT):
        sys.exit("the program isn't built: run ./litestream to see why")
    return BUILT


def open_database(path):
    database = sqlite3.connect(path, isolation_level=None)
    database.execute(f"PRAGMA page_size = {PAGE_BYTES}")
    database.execute("PRAGMA journal_mode = WAL")
    database.execute("PRAGMA wal_autocheckpoint = 0")
    return database


def fill(database, mib):
    """One commit of a row a page."""
    database.execute("CREATE TABLE t (a INTEGER PRIMARY KEY, b BLOB)")
    rows = mib * 1024 * 1024 // PAGE_BYTES
    database.execute(
        "WITH RECURSIVE n(a) AS (SELECT 1 UNION ALL SELECT a + 1 FROM n WHERE a < ?)"
        " INSERT INTO t SELECT a, randomblob(?) FROM n",
        (rows, ROW_BYTES),
    )


def change_a_page(database, key):
    database.execute("UPDATE t SET b = randomblob(?) WHERE a = ?", (ROW_BYTES, key))


def timed(words):
    start = time.perf_counter()
    subprocess.run(words, check=True, stdout=subprocess.DEVNULL)
    return time.perf_counter() - start


def best(runs, prepare, words):
    """The best time of some runs, each behind a preparation."""
    times = []
    for _ in range(runs):
        prepare()
        times.append(timed(words))
    return min(times)


def peak_mib(words):
    """The most memory that a run held at once, looked at while it runs. What the system tells of it afterwards would
    be no less than what this script held when it started the run."""
    peak = 0
    with subprocess.Popen(words, stdout=subprocess.DEVNULL) as running:
        while running.poll() is None:
            try:
                with open(f"/proc/{running.pid}/status") as status:
                    for line in status:
                        if line.startswith("VmHWM:"):
                            peak = max(peak, int(line.split()[1]))
            except OSError:
                pass
            time.sleep(0.001)
    return peak / 1024


class Bench:
    def __init__(self, program, folder, runs):
        self.program, self.folder, self.runs = program, folder, runs
        self.replica = os.path.join(folder, "R")
        self.copy = os.path.join(folder, "copy")

    def clear(self):
        shutil.rmtree(self.replica, ignore_errors=True)
        for suffix in ["", "-journal", "-wal"]:
            if os.path.exists(self.copy + suffix):
                os.remove(self.copy + suffix)

    def first_sync(self, name, path, pages_in):
        """A first sync of the database at the path beside copies of the file that has its pages."""
        words = [self.program, "replicate", path, self.replica]
        peers = {"cp + sync": ["sh", "-c", f"cp --reflink=never {pages_in} {self.copy} && sync {self.copy}"]}
        if shutil.which("sqlite3"):
            peers[".backup"] = ["sqlite3", path, f".backup {self.copy}"]
        ours = best(self.runs, self.clear, words)
        self.clear()
        peak = peak_mib(words)
        wanted = {"cp + sync": WANTED[name], ".backup": WANTED_BACKUP if name == "file" else None}
        for peer, peer_words in peers.items():
            theirs = best(self.runs, self.clear, peer_words)
            goal = f" (goal {wanted[peer]})" if wanted[peer] else ""
            print(f"first sync, {name}: {ours:.3f} s, {peer} {theirs:.3f} s, ratio {ours / theirs:.2f}{goal}")
        frames = os.path.getsize(path + "-wal") // (24 + PAGE_BYTES) if os.path.exists(path + "-wal") else 0
        room = WANTED_PEAK_MIB + frames * 100 / 2**20
        print(f"first sync, {name}: peak memory {peak:.1f} MiB (goal {room:.1f})")

    def one_page(self, database, path):
        """The sync of one changed page behind a first sync."""
        words = [self.program, "replicate", path, self.replica]
        self.clear()
        timed(words)
        keys = iter(range(2, 2 + 10 * self.runs))
        ours = best(self.runs, lambda: change_a_page(database, next(keys)), words)
        same = best(self.runs, lambda: None, words)
        empty = os.path.join(self.folder, "empty")
        os.makedirs(empty, exist_ok=True)
        start = best(self.runs, lambda: None, [self.program, "ltx", empty])
        small = min(self.small_file() for _ in range(self.runs))
        over = (ours - start - small) * 1000
        print(
            f"one changed page: {ours * 1000:.1f} ms, nothing changed {same * 1000:.1f} ms, the program's start"
            f" {start * 1000:.1f} ms, a small file {small * 1000:.1f} ms: {over:.1f} ms more (goal {WANTED_PAGE_MS})"
        )

    def small_file(self):
        """A page that is written, brought to the disk, named, and its name brought to the disk."""
        start = time.perf_counter()
        draft = os.path.join(self.folder, "small.tmp")
        with open(draft, "wb") as file:
            file.write(bytes(PAGE_BYTES))
            file.flush()
            os.fsync(file.fileno())
        os.rename(draft, os.path.join(self.folder, "small"))
        folder = os.open(self.folder, os.O_RDONLY)
        os.fsync(folder)
        os.close(folder)
        return time.perf_counter() - start


def run(asked, folder):
    bench = Bench(built_program(), folder, asked.runs)
    print(f"load {os.getloadavg()[0]:.1f}, {asked.mib} MiB, best of {asked.runs}")

    in_log = os.path.join(folder, "log.db")
    writer = open_database(in_log)
    fill(writer, asked.mib)
    bench.first_sync("log", in_log, in_log + "-wal")
    writer.close()
    bench.first_sync("rest", in_log, in_log)

    writer = open_database(in_log)
    change_a_page(writer, 1)
    bench.first_sync("file", in_log, in_log)
    bench.one_page(writer, in_log)
    writer.close()


def main():
    words = argparse.ArgumentParser(description=__doc__.split("\n")[0])
    words.add_argument("--mib", type=int, default=256)
    words.add_argument("--runs", type=int, default=5)
    words.add_argument("--folder", help="where the files lie; on the disk that is to be measured")
    asked = words.parse_args()
    with tempfile.TemporaryDirectory(prefix="litestream-bench-", dir=asked.folder) as folder:
        run(asked, folder)


if __name__ == "__main__":
    main()
