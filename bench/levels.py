#!/usr/bin/env python3
"""Times which runs of files are due by many names, and merges on real files. Run by hand.

    bench/levels.py [--names 100000] [--files 1000] [--mib 128] [--runs 3] [--folder FOLDER]

Three measures: which runs are due at levels 1 and 9 by the names of a replica with merged files beside the single
ones; the merge of many files of ten pages each; and the merge of two files of as many MiB, the pages of which take
turns, beside `cat` of both and the `sync` of its output. Pages have 4096 bytes. The files are written by the code of
bench/make_replica.py, and the merged file is read here and set beside their pages. All lie in a folder that goes
away at the end. Each time is the best of some runs, and the machine's load is told with them.
"""

import argparse
import os
import random
import struct
import subprocess
import sys
import tempfile
import time

import make_replica

ROOT = os.path.dirname(os.path.dirname(os.path.abspath(__file__)))
CRATE = os.path.join(ROOT, "crates", "levels_bench")
PAGE_BYTES = 4096
BLOCK_BYTES = 6 + PAGE_BYTES
FILE_PAGES = 10  # of each of the many files
DATABASE_PAGES = 5000  # of the database that they change
WANTED_DUE_MS = 20
WANTED_MANY_S = 1
WANTED_RATIO = 1.5


def proved_program():
    """The proved program, built where need be."""
    subprocess.run(["rt", "run"], cwd=CRATE, stdout=subprocess.DEVNULL, stderr=subprocess.DEVNULL)
    path = os.path.join(CRATE, "out", "levels_bench")
    if not os.path.exists(path):
        sys.exit("the program isn't built: run rt check in crates/levels_bench to see why")
    return path


def run(program, measure, replica):
    """The last transaction and the best time in nanoseconds of each measure."""
    done = subprocess.run([program, measure, replica], capture_output=True, text=True, check=True)
    best = {}
    for line in done.stdout.splitlines():
        words = line.split()
        if len(words) != 3 or not words[2].isdigit():
            sys.exit(f"{measure}: {line}")
        end, spent = int(words[1]), int(words[2])
        best[words[0]] = (end, min(spent, best.get(words[0], (end, spent))[1]))
    return best


def peak_kib(program, measure, replica):
    """The most memory that a run held at once, looked at while it runs. What the system tells of it afterwards would
    be no less than what this script held when it started the run."""
    running = subprocess.Popen([program, measure, replica], stdout=subprocess.DEVNULL)
    peak = 0
    while running.poll() is None:
        peak = max(peak, high_water_kib(running.pid))
        time.sleep(0.0005)
    return peak


def high_water_kib(pid):
    try:
        with open(f"/proc/{pid}/status") as file:
            return next((int(line.split()[1]) for line in file if line.startswith("VmHWM:")), 0)
    except OSError:
        return 0


def put(replica, level, txids, numbered, commit):
    """Writes a file whose moment is as many seconds behind the first as its last transaction."""
    moment = make_replica.MOMENT + 1000 * txids[1]
    content = make_replica.transaction_file(numbered, PAGE_BYTES, commit, txids, moment, make_replica.TOP_BIT)
    return make_replica.put_file(replica, level, txids, content)


# ---- which runs are due


def realistic(count):
    """A file a transaction, and files of ten, a hundred and a thousand; the last two dozen aren't merged yet."""
    names = [(9, 1, 1)]
    t = 1
    while len(names) < count:
        t += 1
        names.append((0, t, t))
        for level, length in [(1, 10), (2, 100), (3, 1000)]:
            if t % length == 0 and t > length:
                names.append((level, t - length + 1, t))
    merged = [name for name in names if name[0] not in (1, 2, 3) or name[2] <= t - 24]
    return merged, t


def measure_due(asked, program, folder):
    replica = os.path.join(folder, "names")
    names, end = realistic(asked.names)
    for level, first, last in names:
        # the header is all that is read of them
        put(replica, level, (first, last), [], 1)
    times = run(program, "due", replica)
    print(f"{len(names)} names")
    ok = True
    for level in (1, 9):
        last, spent = times[f"due_{level}"]
        print(f"  due at level {level}  {spent / 1e6:8.2f} ms (wanted: below {WANTED_DUE_MS})")
        ok = ok and last == end and spent < WANTED_DUE_MS * 1e6
    return ok


# ---- merges


def pages_in(content, at):
    """The blocks from there to the 6 zero bytes behind them, and where those end."""
    pages = {}
    while content[at : at + 6] != bytes(6):
        (number,) = struct.unpack_from(">I", content, at)
        pages[number] = content[at + 6 : at + BLOCK_BYTES]
        at += BLOCK_BYTES
    return pages, at + 6


def check_merged(path, txids, pages, commit):
    """Stops where the merged file isn't that of these pages."""
    with open(path, "rb") as file:
        content = memoryview(file.read())
    flags, size, pages_after, first, last = struct.unpack_from(">IIIQQ", content, 4)
    (moment,) = struct.unpack_from(">Q", content, 32)
    found, at = pages_in(content, make_replica.HEADER_BYTES)
    index = struct.pack(f">{len(pages) + 1}I", *sorted(pages), len(pages))
    end = index + bytes(8)
    tests = {
        "magic": content[:4] == make_replica.MAGIC,
        "flags": flags == 6,  # with an index
        "page size": size == PAGE_BYTES,
        "size of the database": pages_after == commit,
        "transactions": (first, last) == txids,
        "moment": moment == make_replica.MOMENT + 1000 * txids[1],
        "pages": found == pages and list(found) == sorted(pages),
        "index": content[at:-8] == end,
        "sum": content[-8:] == struct.pack(">Q", make_replica.crc64(content[:-8]) | make_replica.TOP_BIT),
    }
    wrong = [name for name, right in tests.items() if not right]
    if wrong:
        sys.exit(f"{path}: wrong {', '.join(wrong)}")


def clear(path):
    """Takes away what an earlier run wrote, and lets the disk come to rest."""
    if os.path.exists(path):
        os.remove(path)
    os.sync()


def merges(asked, program, replica, txids):
    """The path of the merged file, the best time of some merges in seconds, and the peak memory of a further one."""
    path = make_replica.path_of(replica, 1, *txids)
    took = []
    for _ in range(asked.runs):
        clear(path)
        times = run(program, "merge", replica)
        if times["merge"][0] != txids[1]:
            sys.exit(f"the merge ended with {times['merge'][0]}")
        took.append(times["merge"][1] / 1e9)
    clear(path)
    return path, min(took), peak_kib(program, "merge", replica)


def measure_many(asked, program, folder):
    replica, draw = os.path.join(folder, "many"), random.Random(1)
    txids, pages = (2, asked.files + 1), {}
    for txid in range(2, asked.files + 2):
        # the last file cuts the database off
        commit = DATABASE_PAGES - (100 if txid == txids[1] else 0)
        changed = {number: draw.randbytes(PAGE_BYTES) for number in draw.sample(range(1, commit + 1), FILE_PAGES)}
        put(replica, 0, (txid, txid), sorted(changed.items()), commit)
        pages.update(changed)
    path, spent, peak = merges(asked, program, replica, txids)
    check_merged(path, txids, {number: page for number, page in pages.items() if number <= commit}, commit)
    print(f"{asked.files} files of {FILE_PAGES} pages, merged into {os.path.getsize(path) / (1 << 20):.1f} MiB")
    print(f"  merge           {spent:8.3f} s (wanted: below {WANTED_MANY_S}), peak memory {peak} KiB")
    return spent < WANTED_MANY_S


def plain_time(asked, paths, output):
    """The best time in seconds of `cat` of the files into the output, and its `sync`."""
    took = []
    for _ in range(asked.runs):
        clear(output)
        start = time.perf_counter()
        with open(output, "wb") as file:
            subprocess.run(["cat", *paths], stdout=file, check=True)
        subprocess.run(["sync", output], check=True)
        took.append(time.perf_counter() - start)
    return min(took)


def measure_large(asked, program, folder):
    replica, draw = os.path.join(folder, "large"), random.Random(2)
    commit = 2 * (asked.mib << 20) // PAGE_BYTES
    pages, paths = {}, []
    for txid in (2, 3):
        changed = {number: draw.randbytes(PAGE_BYTES) for number in range(txid - 1, commit + 1, 2)}
        paths.append(put(replica, 0, (txid, txid), changed.items(), commit))
        pages.update(changed)
    path, spent, peak = merges(asked, program, replica, (2, 3))
    check_merged(path, (2, 3), pages, commit)
    plain = plain_time(asked, paths, os.path.join(folder, "plain"))
    ratio = spent / plain
    print(f"two files of {asked.mib} MiB, merged into {os.path.getsize(path) / (1 << 20):.1f} MiB")
    print(f"  merge           {spent:8.3f} s, peak memory {peak} KiB")
    print(f"  cat + sync      {plain:8.3f} s")
    print(f"  ratio           {ratio:8.2f} (wanted: at most {WANTED_RATIO})")
    return ratio <= WANTED_RATIO


def main():
    words = argparse.ArgumentParser(description=__doc__, formatter_class=argparse.RawDescriptionHelpFormatter)
    words.add_argument("--names", type=int, default=100_000)
    words.add_argument("--files", type=int, default=1000)
    words.add_argument("--mib", type=int, default=128)
    words.add_argument("--runs", type=int, default=3)
    words.add_argument("--folder", help="where the files are made, if not in the temporary folder")
    asked = words.parse_args()
    program = proved_program()
    good = []
    for measure in (measure_due, measure_many, measure_large):
        with tempfile.TemporaryDirectory(prefix="litestream-bench-", dir=asked.folder) as folder:
            good.append(measure(asked, program, folder))
        print(f"  load {os.getloadavg()[0]:.1f} on {os.cpu_count()} processors")
    if not all(good):
        sys.exit(1)


if __name__ == "__main__":
    main()
