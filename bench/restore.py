#!/usr/bin/env python3
"""Times `restore` of a large database from one whole file and later ones beside plain copies of the same bytes.
Run by hand.

    bench/restore.py [--mib 256] [--files 20] [--changed 300] [--many 1000] [--runs 5] [--program PATH]

SQLite makes the database, of one row a page, and changes some rows for each later file. All files lie in a folder of
their own below --folder, which goes away at the end. A run of `cp` counts with the sync of its output, since a
restore syncs too. Where `sqlite3` is installed, its `.backup` of the same database is timed beside them. Where Python
has no SQLite it does nothing.

Then a plan of many files of 100 pages each is set beside the same pages in one file: each file grows the database by
its pages, so that both replicas have about the same bytes.
"""

import argparse
import os
import random
import resource
import shutil
import statistics
import subprocess
import sys
import tempfile
import time

try:
    import sqlite3
except ImportError:
    print("skipped: this Python has no sqlite3")
    sys.exit(0)

import make_replica

ROOT = os.path.dirname(os.path.dirname(os.path.abspath(__file__)))
PAGE_BYTES = 4096
SMALL_PAGES = 100  # of each of the many files
SMALL_PAGE_BYTES = 1024
ROW_BYTES = 4000  # a row of a leaf page of its own
BUILT = os.path.join(ROOT, "crates", "litestream_main", "out", "litestream_main")


def built_program():
    """The proved program, built where need be. The script in front of it isn't timed."""
    quiet = {"stdout": subprocess.DEVNULL, "stderr": subprocess.DEVNULL}
    subprocess.run([os.path.join(ROOT, "litestream")], **quiet)
    if not os.path.exists(BUILT):
        sys.exit("the program isn't built: run ./litestream to see why")
    return BUILT


def open_database(path):
    database = sqlite3.connect(path)
    database.execute(f"PRAGMA page_size = {PAGE_BYTES}")
    database.execute("PRAGMA journal_mode = WAL")
    return database


def close_database(database):
    database.commit()
    database.execute("PRAGMA wal_checkpoint(TRUNCATE)")
    database.close()


def make_database(path, mib, draw):
    """A SQLite database of about that size. Answers the count of its rows."""
    rows = mib * (1 << 20) // PAGE_BYTES
    database = open_database(path)
    database.execute("CREATE TABLE t (a INTEGER PRIMARY KEY, b BLOB)")
    database.executemany("INSERT INTO t VALUES (?, ?)", ((row, draw.randbytes(ROW_BYTES)) for row in range(rows)))
    close_database(database)
    return rows


def change_rows(path, rows, changed, draw):
    database = open_database(path)
    changes = ((draw.randbytes(ROW_BYTES), row) for row in draw.sample(range(rows), changed))
    database.executemany("UPDATE t SET b = ? WHERE a = ?", changes)
    close_database(database)


def make_files(replica, database, asked):
    """Makes the database, and its replica of one whole file and later ones. Answers the length of each file."""
    draw = random.Random(asked.seed)
    rows = make_database(database, asked.mib, draw)
    pages = make_replica.pages_of(database)
    content = make_replica.whole_database(pages)
    make_replica.put_file(replica, make_replica.WHOLE_LEVEL, (1, 1), content)
    lengths = [len(content)]
    for txid in range(2, asked.files + 2):
        change_rows(database, rows, min(asked.changed, rows), draw)
        before, pages = pages, make_replica.pages_of(database)
        content = make_replica.changed_pages(before, pages, txid, make_replica.MOMENT + txid)
        make_replica.put_file(replica, 0, (txid, txid), content)
        lengths.append(len(content))
    return lengths


def processor_seconds():
    """What all commands so far have taken of the processors."""
    used = resource.getrusage(resource.RUSAGE_CHILDREN)
    return used.ru_utime + used.ru_stime


def seconds(commands, output):
    """The time of the commands, one after the other, without the removal of an earlier output: by the clock, and of
    the processors, which a loaded machine changes less."""
    if os.path.exists(output):
        os.remove(output)
    before, began = processor_seconds(), time.perf_counter()
    for words in commands:
        subprocess.run(words, check=True, stdout=subprocess.DEVNULL)
    return time.perf_counter() - began, processor_seconds() - before


def medians(cases, runs):
    """The median times of each case. They take turns, so that a slow moment meets all of them."""
    times = {name: [] for name in cases}
    for turn in range(runs + 1):
        for name, (commands, output) in cases.items():
            took = seconds(commands, output)
            if turn > 0:  # the first turn warms the caches
                times[name].append(took)
    return {name: [statistics.median(each) for each in zip(*took)] for name, took in times.items()}


def peak_kib(words, output):
    """The most memory that a run held at once, looked at while it runs."""
    if os.path.exists(output):
        os.remove(output)
    running = subprocess.Popen(words, stdout=subprocess.DEVNULL)
    peak = 0
    while running.poll() is None:
        peak = max(peak, high_water_kib(running.pid))
        time.sleep(0.0005)
    return peak


def high_water_kib(pid):
    try:
        with open(f"/proc/{pid}/status") as file:
            return next((int(line.split()[1]) for line in file if line.startswith("VmHWM:")), 0)
    except OSError:
        return 0


def same_bytes(path, other):
    return subprocess.run(["cmp", "-s", path, other]).returncode == 0


def copies(database, folder):
    """The commands whose times a restore is set beside, each with its output."""
    copied, backup = os.path.join(folder, "copied.db"), os.path.join(folder, "backup.db")
    cases = {"cp + sync": ([["cp", database, copied], ["sync", copied]], copied)}
    if shutil.which("sqlite3"):
        cases["sqlite3 .backup"] = ([["sqlite3", database, f".backup '{backup}'"]], backup)
    return cases


def report(asked, program, bytes_out, lengths, times, peak):
    mib_out, mib_in = bytes_out / (1 << 20), sum(lengths) / (1 << 20)
    print(f"database of {mib_out:.1f} MiB in pages of {PAGE_BYTES}; {program}")
    print(f"replica of {mib_in:.1f} MiB: one whole file and {len(lengths) - 1} later ones")
    print(f"median of {asked.runs} runs, load {os.getloadavg()[0]:.1f} on {os.cpu_count()} processors")
    for name, (took, processors) in times.items():
        ratios = "".join(f"   {took / times[other][0]:5.2f} of {other}" for other in times if other != "restore")
        print(f"  {name:16} {took:7.3f} s, {processors:6.3f} s of processors {mib_out / took:6.0f} MiB/s{ratios}")
    peak_mib = peak / 1024
    print(f"  peak memory of restore: {peak_mib:.1f} MiB, {peak_mib / mib_in:.2f} of the replica's bytes")


def measure(asked, folder):
    program = os.path.abspath(asked.program) if asked.program else built_program()
    replica, database = os.path.join(folder, "R"), os.path.join(folder, "app.db")
    lengths = make_files(replica, database, asked)
    restored = os.path.join(folder, "restored.db")
    restore = [program, "restore", "-o", restored, replica]
    cases = {"restore": ([restore], restored), **copies(database, folder)}
    os.sync()

    seconds([restore], restored)
    if not same_bytes(restored, database):
        sys.exit("the restored database differs")
    times = medians(cases, asked.runs)
    peak = peak_kib(restore, restored)
    if not same_bytes(restored, database):
        sys.exit("the restored database differs")
    report(asked, program, os.path.getsize(database), lengths, times, peak)


def grown_pages(count, draw):
    """So many pages, the first of which is that of a database."""
    head = make_replica.SQLITE_MAGIC + SMALL_PAGE_BYTES.to_bytes(2, "big") + bytes.fromhex("0202")
    first = head.ljust(SMALL_PAGE_BYTES, b"\0")
    return [first, *(draw.randbytes(SMALL_PAGE_BYTES) for _ in range(count - 1))]


def make_many(asked, many, one):
    """The same pages in many files, each of which grows the database, and in one."""
    pages = grown_pages(asked.many * SMALL_PAGES, random.Random(asked.seed))
    make_replica.put_file(one, make_replica.WHOLE_LEVEL, (1, 1), make_replica.whole_database(pages))
    make_replica.put_file(many, make_replica.WHOLE_LEVEL, (1, 1), make_replica.whole_database(pages[:SMALL_PAGES]))
    for txid in range(2, asked.many + 1):
        before, after = (txid - 1) * SMALL_PAGES, txid * SMALL_PAGES
        numbered = enumerate(pages[before:after], before + 1)
        content = make_replica.transaction_file(
            numbered, SMALL_PAGE_BYTES, after, (txid, txid), make_replica.MOMENT + txid, make_replica.TOP_BIT
        )
        make_replica.put_file(many, 0, (txid, txid), content)


def measure_many(asked, folder):
    program = os.path.abspath(asked.program) if asked.program else BUILT
    many, one = os.path.join(folder, "many"), os.path.join(folder, "one")
    make_many(asked, many, one)
    outputs = {replica: os.path.join(folder, f"{os.path.basename(replica)}.db") for replica in (many, one)}
    words = {replica: [program, "restore", "-o", output, replica] for replica, output in outputs.items()}
    os.sync()
    times = medians({replica: ([words[replica]], outputs[replica]) for replica in outputs}, asked.runs)
    if not same_bytes(outputs[many], outputs[one]):
        sys.exit("the restored databases differ")
    peak = peak_kib(words[many], outputs[many])
    print(f"{asked.many} files of {SMALL_PAGES} pages of {SMALL_PAGE_BYTES}, and the same pages in one file")
    for name, replica in (("many files", many), ("one file", one)):
        took, processors = times[replica]
        print(f"  {name:16} {took:7.3f} s, {processors:6.3f} s of processors")
    print(f"  many files take {times[many][0] / times[one][0]:.2f} of one; peak memory {peak / 1024:.1f} MiB")


def main():
    words = argparse.ArgumentParser(description=__doc__.split("\n")[0])
    words.add_argument("--mib", type=int, default=256, help="size of the database")
    words.add_argument("--files", type=int, default=20, help="how many files come after the whole one")
    words.add_argument("--changed", type=int, default=300, help="how many rows each of them changes")
    words.add_argument("--many", type=int, default=1000, help="how many files the plan of small files has")
    words.add_argument("--runs", type=int, default=5)
    words.add_argument("--seed", type=int, default=1, help="of the rows' bytes")
    words.add_argument("--program", help="in place of the one that ./litestream builds")
    words.add_argument("--folder", help="where the files are made, if not in the temporary folder")
    asked = words.parse_args()
    with tempfile.TemporaryDirectory(prefix="litestream-bench-", dir=asked.folder) as folder:
        measure(asked, folder)
    with tempfile.TemporaryDirectory(prefix="litestream-bench-", dir=asked.folder) as folder:
        measure_many(asked, folder)


if __name__ == "__main__":
    main()
