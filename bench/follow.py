#!/usr/bin/env python3
"""Follows logs that SQLite wrote, beside reading and scanning them alone. Run by hand.

    bench/follow.py [--mib 256] [--frames 1000000] [--runs 5]

SQLite writes the logs, in some commits and two more of one page each; all files lie in a folder that goes away at the
end. The proved follower finds the state before those two, records it, and then finds the piece of each. The first log
has pages of 4096 bytes, and the first call is compared with reading the log through a buffer of 65536 bytes and the
scan alone, taken in the same run. The second log has so many frames with pages of 512 bytes, and a later call reads
what stands behind them alone. The pages of the last piece, put over SQLite's own database before it, have to give
SQLite's own database behind it. The times are medians. Where Python has no SQLite it does nothing.
"""

import argparse
import os
import shutil
import statistics
import subprocess
import sys
import tempfile

try:
    import sqlite3
except ImportError:
    print("skipped: this Python has no sqlite3")
    sys.exit(0)

ROOT = os.path.dirname(os.path.dirname(os.path.abspath(__file__)))
CRATE = os.path.join(ROOT, "crates", "follow_bench")
COMMITS = 8
WANTED_RATIO = 1.4
WANTED_LATER = 1e-3


def proved_program():
    """The proved program, built where need be."""
    subprocess.run(["rt", "run"], cwd=CRATE, stdout=subprocess.DEVNULL, stderr=subprocess.DEVNULL)
    path = os.path.join(CRATE, "out", "follow_bench")
    if not os.path.exists(path):
        sys.exit("the program isn't built: run rt check in crates/follow_bench to see why")
    return path


def connect(path, page_size):
    database = sqlite3.connect(path, isolation_level=None)
    database.execute(f"PRAGMA page_size = {page_size}")
    database.execute("PRAGMA journal_mode = WAL")
    database.execute("PRAGMA wal_autocheckpoint = 0")
    # pages that are pushed out early would be written to the log twice
    database.execute("PRAGMA cache_spill = 0")
    return database


def write_log(path, page_size, frames):
    """Makes a database whose log has about so many frames in some commits, and behind them two of one page each.
    Answers it, still open, and where the last commits but two and but one end."""
    database = connect(path, page_size)
    database.execute("CREATE TABLE t (a INTEGER PRIMARY KEY, b BLOB)")
    database.execute("CREATE TABLE u (a INTEGER PRIMARY KEY, b INTEGER)")
    database.execute("INSERT INTO u VALUES (1, 0)")
    database.execute("PRAGMA wal_checkpoint(TRUNCATE)")
    # a row takes a chain of pages of its own
    pages = max((1 << 20) // page_size, 1)
    rows = max(frames // pages // COMMITS, 1)
    for commit in range(COMMITS):
        database.execute("BEGIN")
        for row in range(commit * rows, (commit + 1) * rows):
            # each eighth row takes the place of one of the commit before
            place = row - rows if row % 8 == 7 and commit > 0 else row
            database.execute("REPLACE INTO t VALUES (?, ?)", (place, os.urandom(pages * (page_size - 4) - 64)))
        database.execute("COMMIT")
    first = os.path.getsize(path + "-wal")
    database.execute("UPDATE u SET b = 1")
    second = os.path.getsize(path + "-wal")
    database.execute("UPDATE u SET b = 2")
    return database, first, second


def state(path, log_bytes, page_size, folder):
    """The database that SQLite makes of the file and the first bytes of the log."""
    copy = os.path.join(folder, "state")
    shutil.copyfile(path, copy)
    shutil.copyfile(path + "-wal", copy + "-wal")
    os.truncate(copy + "-wal", log_bytes)
    database = sqlite3.connect(copy, isolation_level=None)
    busy, _, _ = database.execute("PRAGMA wal_checkpoint(TRUNCATE)").fetchone()
    database.close()
    if busy:
        sys.exit("SQLite didn't copy the log")
    with open(copy, "rb") as file:
        return file.read()


def apply(before, piece, page_size, commit):
    """The state before with the pages of the piece, cut to so many pages."""
    after = bytearray(before)
    after.extend(bytes(max(commit * page_size - len(after), 0)))
    for at in range(0, len(piece), 4 + page_size):
        number = int.from_bytes(piece[at : at + 4], "little")
        after[(number - 1) * page_size : number * page_size] = piece[at + 4 : at + 4 + page_size]
    return bytes(after[: commit * page_size]), len(piece) // (4 + page_size)


def measure(program, path, first, second, out):
    """The result and the time in seconds of each measure, and the peak memory in MiB."""
    words = [program, path, path + "-wal", str(first), str(second), out]
    run = subprocess.Popen(words, stdout=subprocess.PIPE, text=True)
    lines = run.stdout.read().splitlines()
    _, status, usage = os.wait4(run.pid, 0)
    measures = {name: (int(value), int(time) / 1e9) for name, value, time in (line.split() for line in lines)}
    if status != 0 or set(measures) != {"copy", "scan", "next", "second", "later"}:
        sys.exit(f"the follower was refused: {lines}")
    return measures, usage.ru_maxrss / 1024


def follow(program, page_size, frames, runs):
    """Median times over such a log, once its piece was compared with SQLite's states."""
    with tempfile.TemporaryDirectory() as folder:
        path = os.path.join(folder, "app.db")
        out = os.path.join(folder, "piece")
        database, first, second = write_log(path, page_size, frames)
        taken, peaks = zip(*(measure(program, path, first, second, out) for _ in range(runs)))
        with open(out, "rb") as file:
            piece = file.read()
        files = os.path.getsize(path) + os.path.getsize(path + "-wal")
        made, pages = apply(state(path, second, page_size, folder), piece, page_size, taken[0]["later"][0])
        if made != state(path, os.path.getsize(path + "-wal"), page_size, folder):
            sys.exit("the piece doesn't lead to SQLite's own state")
        database.close()
    times = {name: statistics.median(run[name][1] for run in taken) for name in taken[0]}
    print(f"log of {first} bytes, {(first - 32) // (24 + page_size)} frames, {runs} runs")
    print(f"  copy {times['copy']:.4f} s, scan {times['scan']:.4f} s, first next {times['next']:.4f} s")
    print(f"  second next {times['second'] * 1e3:.3f} ms, later next {times['later'] * 1e3:.3f} ms")
    print(f"  the last piece has {pages} pages, as SQLite has them")
    print(f"  peak memory {max(peaks):.0f} MiB, of which the two files {files / (1 << 20):.0f}")
    return times


def main():
    words = argparse.ArgumentParser(description=__doc__, formatter_class=argparse.RawDescriptionHelpFormatter)
    words.add_argument("--mib", type=int, default=256)
    words.add_argument("--frames", type=int, default=1_000_000)
    words.add_argument("--runs", type=int, default=5)
    asked = words.parse_args()
    program = proved_program()
    large = follow(program, 4096, (asked.mib << 20) // 4096, asked.runs)
    ratio = large["next"] / (large["copy"] + large["scan"])
    print(f"ratio      {ratio:.2f} (wanted: at most {WANTED_RATIO})")
    long = follow(program, 512, asked.frames, asked.runs)
    print(f"later      {long['later'] * 1e3:.3f} ms (wanted: below {WANTED_LATER * 1e3:.0f})")
    if ratio > WANTED_RATIO or long["later"] > WANTED_LATER:
        sys.exit(1)


if __name__ == "__main__":
    main()
