#!/usr/bin/env python3
"""Adds a database to a replica as its next transaction, as an LTX file.

    make_replica.py REPLICA                  a database of two pages of 512 bytes
    make_replica.py --from app.db REPLICA    the pages of a SQLite database file at rest

The first transaction is written whole, as a file of level 9. Each later one is a file of level 0, which
holds the pages that changed since the one before. With `--whole` a file of level 9 is written in any case.
`restore` can be tried on the replica. The files are written from the tables of the format alone, by code
that shares nothing with the program.
"""

import argparse
import os
import struct
import sys

MAGIC = b"LTX1"
NO_ROLLING_CHECKSUMS = 2
TOP_BIT = 1 << 63
HEADER_BYTES = 100
END_BYTES = 22  # 6 zero bytes, post-apply checksum 0, the file's own sum
WHOLE_LEVEL = 9
SQLITE_MAGIC = b"SQLite format 3\0"
MOMENT = 1700000000000  # 2023-11-14T22:13:20.000Z

# CRC-64 of ISO 3309, bits reflected: x^64 + x^4 + x^3 + x + 1, the register's bits turned at the
# start and the end.
ALL_ONES = (1 << 64) - 1
REFLECTED_POLYNOMIAL = 0xD800000000000000


def table_entry(byte):
    register = byte
    for _ in range(8):
        register = register >> 1 ^ (REFLECTED_POLYNOMIAL if register & 1 else 0)
    return register


TABLE = [table_entry(byte) for byte in range(256)]

# Messages shorter than this are read byte by byte.
SHORT_BITS = 8 * 256


def crc64(message):
    """The CRC-64 of the bytes.

    A byte loop is slow in Python, so a long message is folded first. By squaring, x^(64 n) is
    x^(4 n) + x^(3 n) + x^n + 1 for n a power of two. So a bit of the message may go to the four
    places 64 n, 63 n, 61 n and 60 n bits behind it, and the register at the end stays the same.
    The message is one integer whose lowest bit comes first.
    """
    if len(message) < 8:
        return table_crc(message, ALL_ONES) ^ ALL_ONES
    bits = 8 * len(message)
    rest = int.from_bytes(message, "little") ^ ALL_ONES
    while bits >= SHORT_BITS:
        n = 1 << ((bits // 64).bit_length() - 1)
        if 64 * n == bits:
            n //= 2
        moved = min(60 * n, bits - 64 * n)
        front = rest & ((1 << moved) - 1)
        rest >>= moved
        for places in (64 * n, 63 * n, 61 * n, 60 * n):
            rest ^= front << (places - moved)
        bits -= moved
    return table_crc(rest.to_bytes(bits // 8, "little"), 0) ^ ALL_ONES


def table_crc(message, register):
    for byte in message:
        register = register >> 8 ^ TABLE[(register ^ byte) & 0xFF]
    return register


def page_sum(number, page):
    return crc64(struct.pack(">I", number) + page) | TOP_BIT


def rest_sum(pages):
    """The sum that stands for a database file whose log has no commit."""
    total = 0
    for number, page in enumerate(pages, 1):
        total ^= page_sum(number, page)
    return total | TOP_BIT


def transaction_file(numbered, size, commit, txids, moment, place_sum):
    """The bytes of an LTX file: pages by rising number, the database's size in pages, and its transactions."""
    header = struct.pack(
        ">4sIIIQQQQQQIIQQ12x",
        MAGIC,
        NO_ROLLING_CHECKSUMS,
        size,
        commit,
        *txids,
        moment,
        0,  # pre-apply checksum
        0,  # WAL offset
        0,  # WAL size
        0,  # salt-1
        0,  # salt-2
        0,  # node id
        place_sum,
    )
    blocks = [struct.pack(">IH", number, 0) + page for number, page in numbered]
    body = b"".join([header, *blocks, bytes(6), bytes(8)])
    return body + struct.pack(">Q", crc64(body) | TOP_BIT)


def whole_database(pages, txid=1, moment=MOMENT, place_sum=TOP_BIT):
    """A file with all pages of a database, from transaction 1 to the given one."""
    numbered = enumerate(pages, 1)
    return transaction_file(numbered, len(pages[0]), len(pages), (1, txid), moment, place_sum)


def changed_pages(before, pages, txid, moment, place_sum=TOP_BIT):
    """A file of one transaction, with the pages that aren't as they were before."""
    numbered = [
        (number, page)
        for number, page in enumerate(pages, 1)
        if number > len(before) or before[number - 1] != page
    ]
    size = len(pages[0])
    return transaction_file(numbered, size, len(pages), (txid, txid), moment, place_sum)


def tiny_pages():
    first = SQLITE_MAGIC + bytes.fromhex("02000202")
    return [first.ljust(100, b"\0") + b"\x11" * 412, b"\x22" * 512]


def pages_of(path):
    """The pages of a SQLite database file. Its log must hold no commit, since it isn't read."""
    with open(path, "rb") as file:
        content = file.read()
    if not content.startswith(SQLITE_MAGIC):
        sys.exit(f"{path}: not a SQLite database")
    log = f"{path}-wal"
    if os.path.exists(log) and os.path.getsize(log):
        sys.exit(f"{log}: commits may stand there; end the programs that use the database first")
    field = int.from_bytes(content[16:18], "big")
    size = 65536 if field == 1 else field
    if size < 512 or len(content) % size:
        sys.exit(f"{path}: {len(content)} bytes aren't whole pages of {size}")
    return [content[at : at + size] for at in range(0, len(content), size)]


def path_of(replica, level, first, last):
    return os.path.join(replica, "ltx", str(level), f"{first:016x}-{last:016x}.ltx")


def put_file(replica, level, txids, content):
    path = path_of(replica, level, *txids)
    os.makedirs(os.path.dirname(path), exist_ok=True)
    with open(path, "xb") as file:
        file.write(content)
    return path


def pages_after(pages, path):
    """The pages that a file leaves of a database that had these, and the file's moment."""
    with open(path, "rb") as file:
        content = file.read()
    size, commit = struct.unpack_from(">II", content, 8)
    (moment,) = struct.unpack_from(">Q", content, 32)
    after = [*pages[:commit], *[None] * (commit - len(pages))]
    for at in range(HEADER_BYTES, len(content) - END_BYTES, 6 + size):
        (number,) = struct.unpack_from(">I", content, at)
        after[number - 1] = content[at + 6 : at + 6 + size]
    return after, moment


def last_of(replica):
    """The replica's last transaction, its pages and its moment. Knows the files that this script writes."""
    txid, pages, moment = 0, [], None
    while True:
        whole, change = path_of(replica, WHOLE_LEVEL, 1, txid + 1), path_of(replica, 0, txid + 1, txid + 1)
        if os.path.exists(whole):
            pages, moment = pages_after([], whole)
        elif os.path.exists(change):
            pages, moment = pages_after(pages, change)
        else:
            return txid, pages, moment
        txid += 1


def add_transaction(replica, pages, moment=None, whole=False, place_sum=TOP_BIT):
    """Writes the next transaction, a second after the one before where no moment is given."""
    before_txid, before, before_moment = last_of(replica)
    txid = before_txid + 1
    if moment is None:
        moment = MOMENT if before_moment is None else before_moment + 1000
    if before_moment is not None and moment < before_moment:
        sys.exit(f"the moment {moment} is before that of the last transaction, {before_moment}")
    if txid == 1 or whole or len(before[0]) != len(pages[0]):
        content = whole_database(pages, txid, moment, place_sum)
        path = put_file(replica, WHOLE_LEVEL, (1, txid), content)
    else:
        content = changed_pages(before, pages, txid, moment, place_sum)
        path = put_file(replica, 0, (txid, txid), content)
    return path, len(content)


def main():
    words = argparse.ArgumentParser(description=__doc__.split("\n")[0])
    words.add_argument("replica", help="the replica's folder, made where it is missing")
    words.add_argument("--from", dest="database", help="a SQLite database file")
    words.add_argument("--moment", type=int, help="in milliseconds since 1970")
    words.add_argument("--whole", action="store_true", help="write all pages")
    asked = words.parse_args()
    if crc64(b"123456789") != 0xB90956C775A41001:
        sys.exit("the CRC-64 is wrong")
    pages = pages_of(asked.database) if asked.database else tiny_pages()
    place_sum = rest_sum(pages) if asked.database else TOP_BIT
    path, length = add_transaction(asked.replica, pages, asked.moment, asked.whole, place_sum)
    print(f"{path}: {length} bytes")


if __name__ == "__main__":
    main()
