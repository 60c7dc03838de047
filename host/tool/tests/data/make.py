#!/usr/bin/env python3
"""Makes extremes.binlog: every byte in a text, floats of all sizes, dates,
times of every fraction and integers at their ends, for the rendering of
values. The same log each time. extremes.txt.gz is what `mysqlbinlog -v` of
MySQL 9.7.4 prints of it (its lines that start with ###)."""
import random
import struct
import sys
import zlib

POST_HEADERS = bytes.fromhex(
    "380d0008001200040404041200005f00041a0800000008080802000000"
    "0a0a0a2a2a001234000a280000")


def event(kind, body, place):
    size = 19 + len(body) + 4
    head = struct.pack("<IBIIIH", 1700000000, kind, 7, size, place + size, 0)
    return head + body + struct.pack("<I", zlib.crc32(head + body))


class Log:
    def __init__(self):
        self.bytes = bytearray(b"\xfebin")
        version = b"9.7.4".ljust(50, b"\0")
        self.add(15, struct.pack("<H", 4) + version + bytes(4) + b"\x13" + POST_HEADERS + b"\x01")

    def add(self, kind, body):
        self.bytes += event(kind, body, len(self.bytes))

    def map(self, table, database, name, types, metadata):
        names = b"".join(bytes([len(n)]) + n + b"\0" for n in (database, name))
        columns = bytes([len(types)]) + bytes(types) + bytes([len(metadata)]) + metadata
        nullable = b"\xff" * ((len(types) + 7) // 8)
        self.add(19, struct.pack("<Q", table)[:6] + b"\1\0" + names + columns + nullable)

    def rows(self, kind, table, columns, rows, used=b"\xff", end=True):
        sets = used * (2 if kind == 31 and len(used) == 1 else 1)
        head = struct.pack("<Q", table)[:6] + struct.pack("<HH", int(end), 2)
        self.add(kind, head + bytes([columns]) + sets + b"".join(rows))


def texts(log):
    log.map(1, b"d`b", b"t``x", [15, 15, 252, 252], struct.pack("<HH", 300, 100) + b"\1\4")
    rows = []
    for n in range(256):
        x = bytes([n])
        rows.append(b"\0\3\0a" + x + b"b\1" + x + b"\2" + x + x + b"\1\0\0\0" + x)
    long = bytes(range(32, 127)) * 3
    rows.append(b"\0" + struct.pack("<H", 285) + long + b"\0\0" + struct.pack("<I", 285) + long)
    log.rows(30, 1, 4, rows)


def floats(log):
    log.map(2, b"db", b"f", [4, 5], b"\4\10")
    bits = [(0, 0), (1, 1), (2, 1 << 63), (1 << 31, 0x7ff << 52), (0x7f800000, 0xfff << 52),
            (0xff800000, 0x7ff8 << 48), (0x7fc00000, 0xfff8 << 48), (0xffc00000, 0x7ff << 52 | 1),
            (0x7f800001, 0xfff << 52 | 1), (0xff800001, 1)]
    bits += [(random.getrandbits(32), random.getrandbits(64)) for _ in range(150)]
    rows = [b"\0" + struct.pack("<IQ", *pair) for pair in bits]
    for _ in range(150):
        short = random.choice([1, -1]) * round(random.random() * 10 ** random.randint(-6, 20), 4)
        whole = float(random.randint(-10 ** random.randint(1, 18), 10 ** random.randint(1, 18)))
        rows.append(b"\0" + struct.pack("<fd", short, short))
        rows.append(b"\0" + struct.pack("<fd", whole, whole))
    for power in range(-24, 25):
        for factor in (1, 9.999995, 9.999994, 5):
            n = factor * 10.0 ** power
            rows.append(b"\0" + struct.pack("<fd", n, n))
    # halfway between two numbers of six digits, of twenty digits
    short = [1000005, 1000015, 1234565, 1234575, 9999995, 100000.5, 100001.5, 12345.25, 999999.5]
    long = [n % 9 + 1 + (2 * n + 1) / 2 ** 20 for n in range(0, 2 ** 19, 60000)]
    rows += [b"\0" + struct.pack("<fd", *pair) for pair in zip(short, long)]
    log.rows(30, 2, 2, rows)


def dates(log):
    log.map(3, b"db", b"d", [10, 13], b"")
    rows = []
    for year in [0, 1, 99, 1000, 9999, 10000, 32767]:
        for month, day in [(0, 0), (1, 31), (12, 1)]:
            rows.append(b"\0" + struct.pack("<I", year << 9 | month << 5 | day)[:3] + b"\0")
    rows += [b"\0\0\0\0" + bytes([year]) for year in range(256)]
    log.rows(30, 3, 2, rows)


def times(log):
    for digits in range(7):
        log.map(4, b"db", b"x", [17, 18, 19], bytes([digits] * 3))
        size = (digits + 1) // 2
        unit = 100 ** size
        rows = []
        for _ in range(60):
            part = random.choice([0, 1, unit - 1, random.randrange(unit)]) % unit
            fraction = part.to_bytes(size, "big")
            seconds = random.choice([0, 1, 0xffffffff, 0x7fffffff, 0x80000000])
            year = random.choice([0, 1, 999, 1000, 9999, random.randrange(10000)])
            month, day = random.randrange(13), random.randrange(32)
            hour, minute, second = (random.randrange(n) for n in (24, 60, 60))
            clock = hour << 12 | minute << 6 | second
            moment = 0x8000000000 + ((year * 13 + month) << 22 | day << 17 | clock)
            hours = random.choice([0, 1, 99, 100, 838, random.randrange(839)])
            span = (hours << 12 | minute << 6 | second) << 8 * size | part
            span = random.choice([span, -span]) + (0x800000 << 8 * size)
            rows.append(b"\0" + seconds.to_bytes(4, "big") + fraction + moment.to_bytes(5, "big")
                        + fraction + span.to_bytes(3 + size, "big"))
        log.rows(30, 4, 3, rows)


def integers(log):
    log.map(5, b"db", b"i", [1, 2, 9, 3, 8], b"")
    rows = []
    for _ in range(40):
        image = b"\0"
        for width in (1, 2, 3, 4, 8):
            image += random.choice([
                bytes(width), b"\xff" * width, bytes(width - 1) + b"\x80",
                b"\xff" * (width - 1) + b"\x7f", random.randbytes(width)])
        rows.append(image)
    log.rows(31, 5, 5, rows, end=False)
    log.rows(32, 5, 5, rows[:7], end=False)
    # an update whose images have columns 1, 3 and 2, 3
    rows = [b"\2\1", b"\0\1\2\3\4\xff", b"\0\5\6\0\0", b"\3"]
    log.rows(31, 5, 5, rows, used=b"\5\6")


random.seed(5)
log = Log()
for part in (texts, floats, dates, times, integers):
    part(log)
with open(sys.argv[1], "wb") as file:
    file.write(log.bytes)
