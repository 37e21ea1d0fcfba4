#!/usr/bin/env python3
"""What happens in trouble, on real files: folders that can't be written, a full disk, a folder in the place of a file,
links, permissions that go away, and kills at any moment.

    trouble.py [--program PATH] [--kills N] [FOLDER]

Each case prints the status, the text and what stands then, and ends the script where that isn't what it has to be.
Cases that this machine can't show (permissions for root, a small disk that can't be mounted) are said to be skipped.
"""

import argparse
import os
import random
import shutil
import signal
import subprocess
import sys
import tempfile
import time

try:
    import sqlite3
except ImportError:
    print("skipped: this Python has no sqlite3")
    sys.exit(0)

ROOT = os.path.dirname(os.path.dirname(os.path.abspath(__file__)))


class Trouble:
    def __init__(self, program, folder):
        self.program, self.folder = program, folder
        self.path = os.path.join(folder, "app.db")
        self.connection = sqlite3.connect(self.path, isolation_level=None)
        self.connection.execute("PRAGMA journal_mode = WAL")
        self.connection.execute("PRAGMA wal_autocheckpoint = 0")
        self.connection.execute("CREATE TABLE t (a INTEGER PRIMARY KEY, b BLOB)")
        self.count = 0

    def commit(self, rows=1):
        self.count += 1
        self.connection.execute("BEGIN")
        for row in range(rows):
            self.connection.execute("INSERT OR REPLACE INTO t VALUES (?, ?)", (row, bytes([self.count % 256]) * 3000))
        self.connection.execute("COMMIT")

    def call(self, *words):
        ran = subprocess.run([self.program, *words], capture_output=True, text=True)
        return ran.returncode, (ran.stdout + ran.stderr).strip()

    def replicate(self, replica):
        return self.call("replicate", self.path, replica)

    def restore(self, replica, output):
        return self.call("restore", "-o", output, replica)

    def show(self, case, answer, wanted):
        print(f"{case}: status {answer[0]}: {answer[1]}")
        if answer[0] not in wanted:
            sys.exit(f"{case}: status {answer[0]} and not {wanted}")


def value_in(path):
    connection = sqlite3.connect(f"file:{path}?immutable=1", uri=True)
    try:
        if connection.execute("PRAGMA integrity_check").fetchall() != [("ok",)]:
            sys.exit(f"{path}: SQLite finds it damaged")
        return connection.execute("SELECT b FROM t WHERE a = 0").fetchone()[0][0]
    finally:
        connection.close()


def folders(trouble):
    folder = trouble.folder
    replica = os.path.join(folder, "R")
    trouble.commit()
    trouble.show("a first run", trouble.replicate(replica), [0])
    # a file where the replica's folder is to be
    blocked = os.path.join(folder, "file")
    open(blocked, "w").close()
    trouble.show("a file in the place of the replica", trouble.replicate(blocked), [3])
    # a folder where a transaction file is to be
    taken = os.path.join(folder, "taken")
    shutil.copytree(replica, taken)
    trouble.commit()
    os.makedirs(os.path.join(taken, "ltx/0/0000000000000002-0000000000000002.ltx/in"))
    trouble.show("a folder in the place of a transaction file", trouble.replicate(taken), [1, 3])
    # a folder where the database is to be, or the output
    trouble.show("a folder in the place of the database", trouble.call("replicate", folder, replica), [1, 3])
    output = os.path.join(folder, "out")
    os.makedirs(output)
    trouble.show("a folder in the place of the output", trouble.restore(replica, output), [1, 3])
    # a link to the replica, and one to nothing in the place of the output
    link = os.path.join(folder, "link")
    os.symlink(replica, link)
    trouble.show("a link to the replica", trouble.replicate(link), [0])
    dangling = os.path.join(folder, "dangling.db")
    os.symlink(os.path.join(folder, "nothing"), dangling)
    trouble.show("a link to nothing in the place of the output", trouble.restore(replica, dangling), [0, 1, 3])
    return replica


def permissions(trouble, replica):
    if os.geteuid() == 0:
        print("permissions: skipped, root may write anywhere")
        return
    trouble.commit()
    for part in ["ltx/0", "ltx", ""]:
        at = os.path.join(replica, part)
        os.chmod(at, 0o500)
        trouble.show(f"replica/{part} can't be written", trouble.replicate(replica), [3])
        os.chmod(at, 0o700)
    trouble.show("permissions are back", trouble.replicate(replica), [0])


def full_disk(trouble):
    at = os.path.join(trouble.folder, "small")
    os.makedirs(at)
    mounted = subprocess.run(["mount", "-t", "tmpfs", "-o", "size=1m", "tmpfs", at], capture_output=True)
    if mounted.returncode != 0:
        print("a full disk: skipped, no small disk can be mounted")
        return
    try:
        trouble.commit(rows=1000)
        replica = os.path.join(at, "R")
        trouble.show("a full disk under the replica", trouble.replicate(replica), [3])
        left = [name for _, _, names in os.walk(replica) for name in names if not name.endswith(".tmp")]
        if left:
            sys.exit(f"a full disk left {left}")
    finally:
        subprocess.run(["umount", at], check=True)


def killed(words, program, seconds):
    """Whether the program was killed before it ended."""
    running = subprocess.Popen([program, *words], stdout=subprocess.DEVNULL, stderr=subprocess.DEVNULL)
    time.sleep(seconds)
    running.send_signal(signal.SIGKILL)
    return running.wait() != 0


def kills(trouble, count):
    """Kills runs and restores at random moments. Each next run has to go on, and a restored database to be whole."""
    replica, output = os.path.join(trouble.folder, "K"), os.path.join(trouble.folder, "killed.db")
    trouble.commit(rows=300)
    began = time.time()
    trouble.show("a run that isn't killed", trouble.replicate(replica), [0])
    longest, rest, stopped = time.time() - began, random.Random(7), [0, 0]
    for turn in range(count):
        trouble.commit(rows=1 + turn % 300)
        if turn % 2 == 0:
            stopped[0] += killed(["replicate", trouble.path, replica], trouble.program, rest.random() * longest)
            answer = trouble.replicate(replica)
            if answer[0] != 0:
                sys.exit(f"behind kill {turn}: {answer}")
        else:
            stopped[1] += killed(["restore", "-o", output, replica], trouble.program, rest.random() * longest)
            if os.path.exists(output):
                value_in(output)
                os.remove(output)
        answer = trouble.restore(replica, output)
        if answer[0] != 0 or value_in(output) != (trouble.count - turn % 2) % 256:
            sys.exit(f"behind kill {turn}: {answer}")
        os.remove(output)
    print(f"{count} kills: {stopped[0]} in a run, {stopped[1]} in a restore; each next run went on")


def main():
    words = argparse.ArgumentParser()
    words.add_argument("--program", default=os.path.join(ROOT, "litestream"))
    words.add_argument("--kills", type=int, default=200)
    words.add_argument("folder", nargs="?")
    asked = words.parse_args()
    subprocess.run([asked.program, "ltx", "none"], capture_output=True)
    with tempfile.TemporaryDirectory() as temporary:
        folder = asked.folder or temporary
        os.makedirs(folder, exist_ok=True)
        trouble = Trouble(asked.program, folder)
        replica = folders(trouble)
        permissions(trouble, replica)
        full_disk(trouble)
        kills(trouble, asked.kills)
    print("no surprise")


main()
