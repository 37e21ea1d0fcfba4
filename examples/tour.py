#!/usr/bin/env python3
"""A tour on a real SQLite database: an application changes it, each change is replicated, the database is lost, and
each transaction is restored by its number, by its moment and as the newest. SQLite checks every result.

    tour.py [--program PATH] [FOLDER]

FOLDER, which is made, keeps the database, the replica and what was restored; without it they go away. In place of
`./litestream` a program can be named. What the database had at each transaction is told by code of this script that
reads the database file and the log by itself. Where Python has no SQLite the tour is skipped.
"""

import argparse
import datetime
import os
import re
import struct
import subprocess
import sys
import tempfile
import time

try:
    import sqlite3
except ImportError:
    print("skipped: this Python has no sqlite3")
    sys.exit(0)

ROOT = os.path.dirname(os.path.dirname(os.path.abspath(__file__)))
LINE = re.compile(r"round 1 (same|piece|whole) (\S+) passed 0 merged \d+ dropped 0 lost 0\n")

# What the application does before each transaction. The database grows at the third and shrinks at the last.
TRANSACTIONS = [
    ["CREATE TABLE t (a INTEGER PRIMARY KEY, b TEXT)", "INSERT INTO t VALUES (1, 'one'), (2, 'two')"],
    ["UPDATE t SET b = 'deux' WHERE a = 2"],
    [
        "WITH RECURSIVE n(a) AS (SELECT 3 UNION ALL SELECT a + 1 FROM n WHERE a < 2000)"
        " INSERT INTO t SELECT a, printf('%0100d', a) FROM n"
    ],
    ["CREATE INDEX i ON t (b)", "DELETE FROM t WHERE a % 7 = 0"],
    ["UPDATE t SET b = 'last' WHERE a = 1999"],
    ["DELETE FROM t WHERE a > 100", "VACUUM"],
]
# Before the fourth the application is started anew, which brings the log into the database file: the fourth is stored
# whole, and two chains lead to the later ones.
STARTED_ANEW = 4


class Application:
    """The program that owns the database. It makes no checkpoint while its connection is open."""

    def __init__(self, path):
        self.path = path
        self.open()

    def open(self):
        self.connection = sqlite3.connect(self.path, isolation_level=None)
        self.connection.execute("PRAGMA journal_mode = WAL")
        self.connection.execute("PRAGMA wal_autocheckpoint = 0")

    def start_anew(self):
        self.connection.close()
        self.open()

    def run(self, statements):
        for statement in statements:
            self.connection.execute(statement)

    def lose(self):
        """The disk with the database is gone."""
        self.connection.close()
        for suffix in ["", "-wal", "-shm"]:
            if os.path.exists(self.path + suffix):
                os.remove(self.path + suffix)


def bytes_at_last_commit(path):
    """What the database has at its last commit, by the database file and its log (SQLite database file format,
    sections 1.3.2 and 4). The log of this tour ends with a commit, so only salts are looked at."""
    file = read(path)
    log = read(path + "-wal") if os.path.exists(path + "-wal") else b""
    size = struct.unpack(">H", file[16:18])[0]
    size = 65536 if size == 1 else size
    changed, commit, waiting = {}, len(file) // size, {}
    for at in range(32, len(log), 24 + size):
        number, pages = struct.unpack(">II", log[at : at + 8])
        if log[at + 8 : at + 16] != log[16:24]:
            break
        waiting[number] = log[at + 24 : at + 24 + size]
        if pages:
            commit = pages
            changed.update(waiting)
            waiting = {}
    page = lambda n: changed.get(n) or file[(n - 1) * size : n * size]
    return b"".join(page(number) for number in range(1, commit + 1)), size


def dump_of(path):
    """The text of all tables, and what SQLite's own check says of the file."""
    database = sqlite3.connect(f"file:{path}?immutable=1", uri=True)
    check = [row[0] for row in database.execute("PRAGMA integrity_check")]
    dump = list(database.iterdump())
    database.close()
    return dump, check


def read(path):
    with open(path, "rb") as file:
        return file.read()


def expect(holds, what):
    if not holds:
        sys.exit(f"not so: {what}")


class Tour:
    def __init__(self, program, folder):
        self.program, self.folder = program, folder
        self.replica = os.path.join(folder, "R")
        self.path = os.path.join(folder, "app.db")
        self.working = os.path.join(folder, "working")
        os.makedirs(self.working)
        # The bytes, pages, tables and moment of each transaction.
        self.bytes, self.pages, self.dumps, self.moments = {}, {}, {}, {}
        self.count = 0

    def call(self, words):
        return subprocess.run([self.program, *words], cwd=self.working, stdout=subprocess.PIPE, text=True)

    # ---- replicating

    def replicate(self, what):
        ended = self.call(["replicate", self.path, self.replica])
        print(f"replicate: status {ended.returncode} {ended.stdout.strip()}")
        expect(ended.returncode == 0, "it is done")
        line = LINE.fullmatch(ended.stdout)
        expect(line and line.group(1) == what, f"its line says {what}")
        expect(not os.path.exists(self.path + "-litestream-gate"), "the gate is given up")
        return line.group(2)

    def listing(self):
        ended = self.call(["ltx", self.replica])
        expect(ended.returncode == 0, "the files are listed")
        return [line.split() for line in ended.stdout.splitlines()[1:]]

    def make_history(self):
        application = Application(self.path)
        for txid, statements in enumerate(TRANSACTIONS, 1):
            if txid == STARTED_ANEW:
                application.start_anew()
            application.run(statements)
            whole = txid in (1, STARTED_ANEW)
            name = self.replicate("whole" if whole else "piece")
            wanted = f"ltx/9/{1:016x}-{txid:016x}.ltx" if whole else f"ltx/0/{txid:016x}-{txid:016x}.ltx"
            expect(name == wanted, f"the file is {wanted}")
            self.bytes[txid], size = bytes_at_last_commit(self.path)
            self.pages[txid] = len(self.bytes[txid]) // size
            self.dumps[txid] = list(application.connection.iterdump())
            self.moments[txid] = max(row[4] for row in self.listing())
            self.replicate("same")
            time.sleep(0.01)
        application.lose()

    # ---- restoring

    def restore(self, flags, output):
        ended = self.call(["restore", "-o", output, *flags, self.replica])
        print(f"restore {' '.join(flags) or 'the newest'}: status {ended.returncode} {ended.stdout.strip()}")
        return ended

    def gives(self, flags, txid, output=None):
        """The restore writes the database as it was after the transaction."""
        self.count += 1
        output = output or os.path.join(self.folder, f"back.{self.count}.db")
        ended = self.restore(flags, output)
        expect(ended.returncode == 0, "it is done")
        expect(ended.stdout == f"restored {txid:016x} pages {self.pages[txid]}\n", "its line is right")
        expect(read(output) == self.bytes[txid], "the bytes are those that the database had")
        dump, check = dump_of(output)
        expect(check == ["ok"], "SQLite's integrity check passes")
        expect(dump == self.dumps[txid], "the tables are those that the database had")
        return output

    def refuses(self, flags, status, output=None):
        """The restore ends with the status, prints nothing, and changes no output."""
        path = output or os.path.join(self.folder, "refused.db")
        before = read(path) if output else None
        ended = self.restore(flags, path)
        expect(ended.returncode == status and not ended.stdout, f"the status is {status}")
        expect(os.path.exists(path) == bool(output), "no output is made")
        expect(not output or read(path) == before, "the output is as it was")

    def restore_all(self):
        last = len(TRANSACTIONS)
        for txid in range(1, last + 1):
            self.gives(["-txid", f"{txid:x}"], txid)
            self.gives(["-timestamp", self.moments[txid]], txid)
            if txid < last:
                self.gives(["-timestamp", one_ms_before(self.moments[txid + 1])], txid)
        back = self.gives([], last)

        self.refuses(["-txid", f"{last + 1:x}"], 1)
        self.refuses(["-timestamp", one_ms_before(self.moments[1])], 1)
        self.refuses([], 1, back)
        self.refuses(["-if-db-not-exists"], 0, back)

    def among_namesakes(self):
        """Files of the output's name, and of its draft's, in the replica's folder and in the working folder stay."""
        names = ["namesake.db", "namesake.db.litestream-tmp"]
        namesakes = [os.path.join(folder, name) for folder in (self.replica, self.working) for name in names]
        for path in namesakes:
            with open(path, "wb") as file:
                file.write(path.encode())
        outputs = os.path.join(self.folder, "outputs")
        os.mkdir(outputs)
        self.gives([], len(TRANSACTIONS), os.path.join(outputs, names[0]))
        expect(os.listdir(outputs) == [names[0]], "nothing else is in the output's folder")
        for path in namesakes:
            expect(read(path) == path.encode(), f"{os.path.relpath(path, self.folder)} is as it was")
            os.remove(path)

    def without_a_file(self):
        """Of the later transactions none can be reached where a file of the chain is missing or damaged."""
        change = os.path.join(self.replica, f"ltx/0/{5:016x}-{5:016x}.ltx")
        content = read(change)
        middle = len(content) // 2
        with open(change, "wb") as file:
            file.write(content[:middle] + bytes([content[middle] ^ 1]) + content[middle + 1 :])
        self.refuses(["-txid", "6"], 1)
        self.gives(["-txid", "4"], 4)
        os.remove(change)
        self.refuses(["-txid", "6"], 1)

        self.replica = os.path.join(self.folder, "empty")
        os.mkdir(self.replica)
        self.refuses([], 1)
        self.refuses(["-if-replica-exists"], 0)


def one_ms_before(text):
    moment = datetime.datetime.strptime(text, "%Y-%m-%dT%H:%M:%S.%fZ") - datetime.timedelta(milliseconds=1)
    return f"{moment:%Y-%m-%dT%H:%M:%S}.{moment.microsecond // 1000:03}Z"


def run(program, folder):
    tour = Tour(program, folder)
    tour.make_history()
    tour.restore_all()
    tour.among_namesakes()
    tour.without_a_file()
    print("each restored database has the bytes and tables that were replicated, and passes SQLite's integrity check")


def main():
    words = argparse.ArgumentParser(description=__doc__.split("\n")[0])
    words.add_argument("folder", nargs="?", help="a new folder that keeps what is made")
    words.add_argument("--program", default=os.path.join(ROOT, "litestream"))
    asked = words.parse_args()
    program = os.path.abspath(asked.program)
    if asked.folder:
        os.makedirs(asked.folder)
        run(program, os.path.abspath(asked.folder))
        return
    with tempfile.TemporaryDirectory(prefix="litestream-tour-") as folder:
        run(program, folder)


if __name__ == "__main__":
    main()
