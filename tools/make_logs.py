#!/usr/bin/env python3
"""Makes the test logs of crates/evidence from the layouts of the papers.

    make_logs.py DIR            writes every log into DIR
    make_logs.py --check DIR    says which files in DIR are not as made here

A printer of its own: it shares nothing with the library or with account.py.
Each log is made beside what the rules say of it, `accepted E C` or `refused N
at P`, written down here by whoever made the log; tools/expect.py holds
account.py to it, so that two accounts stand behind each expected line.
"""

import os
import struct
import sys
import zlib

MAGIC = b"\xfebin"

# post-header lengths, by event type from 1: 000's 35 entries (server 5.6.34),
# then those of servers 5.7 for 36 to 38 (003's event has 38)
ENTRIES = bytes.fromhex(
    "380d000800120004040404120000" "5c00041a0800000008080802"
    "0000000a0a0a191900" "120000")
assert len(ENTRIES) == 38

LOGS = {}        # name: (bytes, first line of the answer)


def little(number, count):
    return number.to_bytes(count, "little")


def packed(number, form=None):
    """A packed number, in its shortest form or after a given first byte."""
    if form is None:
        form = (0 if number < 251 else 252 if number < 1 << 16
                else 253 if number < 1 << 24 else 254)
    count = {252: 2, 253: 3, 254: 8}.get(form)
    return bytes([form]) + little(number, count) if count else bytes([number])


def bits(some):
    """Bits from each byte's lowest: a list of 0 and 1."""
    out = bytearray((len(some) + 7) // 8)
    for i, bit in enumerate(some):
        out[i // 8] |= bit << i % 8
    return bytes(out)


class Log:
    """A log under construction."""

    def __init__(self, version=b"5.7.13-log", header=19, entries=ENTRIES,
                 kind=1, binlog=4, time=0, server=1, flags=0, created=0,
                 length=None, following=None, damage=0):
        self.header = header
        self.entries = entries
        self.sum = 4 if kind == 1 else 0
        size = 81 + len(entries)
        head = self.head(time, 15, server, size if length is None else length,
                         4 + size if following is None else following, flags)
        event = (head + little(binlog, 2) + version.ljust(50, b"\0")[:50]
                 + little(created, 4) + bytes([header]) + entries
                 + bytes([kind]))
        self.bytes = MAGIC + event + little(zlib.crc32(event) ^ damage, 4)
        self.events = 1

    @staticmethod
    def head(time, kind, server, length, following, flags):
        return struct.pack("<IBIIIH", time, kind, server, length, following,
                           flags)

    @property
    def at(self):
        """The place of the next event."""
        return len(self.bytes)

    def post(self, kind, fixed):
        """A post-header as long as the description says."""
        return fixed.ljust(self.entries[kind - 1], b"\xaa")

    def add(self, kind, body, flags=0, time=0, server=1, ext=None,
            length=None, following=None, damage=0):
        """Adds an event, and answers its place."""
        at = self.at
        if ext is None:
            ext = b"\xee" * ((19 if kind == 4 else self.header) - 19)
        size = 19 + len(ext) + len(body) + self.sum
        event = self.head(time, kind, server,
                          size if length is None else length,
                          at + size if following is None else following,
                          flags) + ext + body
        if self.sum:
            event += little(zlib.crc32(event) ^ damage, 4)
        self.bytes += event
        self.events += 1
        return at

    def map_body(self, table, columns, database=b"test", name=b"t",
                 nullable=None, after=b"", types=None, block=None,
                 count_form=None, length_form=None, count=None):
        """columns: pairs of a type and its metadata bytes."""
        n = len(columns)
        if types is None:
            types = bytes(t for t, _ in columns)
        if block is None:
            block = b"".join(m for _, m in columns)
        if nullable is None:
            nullable = bits([1] * n)
        return (self.post(19, little(table, 6) + b"\1\0")
                + bytes([len(database)]) + database + b"\0"
                + bytes([len(name)]) + name + b"\0"
                + packed(n if count is None else count, count_form) + types
                + packed(len(block), length_form) + block + nullable + after)

    def map(self, table, columns, flags=0, time=0, server=1, **more):
        return self.add(19, self.map_body(table, columns, **more), flags,
                        time, server)

    def rows_body(self, kind, table, count, used, images, end=True, extra=b"",
                  extra_length=None, flags=None, count_form=None):
        """used: the bytes of the used sets; images: of all images."""
        if flags is None:
            flags = 1 if end else 0
        if extra_length is None:
            extra_length = 2 + len(extra)
        return (self.post(kind, little(table, 6) + little(flags, 2)
                          + little(extra_length, 2))
                + extra + packed(count, count_form) + used + images)

    def rows(self, kind, table, count, used, images, **more):
        return self.add(kind, self.rows_body(kind, table, count, used, images,
                                             **more))

    def first_row(self, at, kind, count, extra=0):
        """Where the first image of the rows event at `at` starts."""
        sets = 2 if kind == 31 else 1
        return (at + self.header + self.entries[kind - 1] + extra
                + len(packed(count)) + sets * ((count + 7) // 8))


def keep(name, log, answer):
    data = log.bytes if isinstance(log, Log) else log
    assert name not in LOGS, name
    LOGS[name] = (data, answer)


def accept(name, log, changes):
    keep(name, log, "accepted %d %d" % (log.events, changes))


def refuse(name, log, number, place):
    keep(name, log, "refused %d at %d" % (number, place))


# column types with their metadata
TINY, SHORT, MEDIUM, INT, BIG = [(t, b"") for t in (1, 2, 9, 3, 8)]
FLOAT, DOUBLE = (4, b"\4"), (5, b"\10")
DATE, YEAR = (10, b""), (13, b"")


def varchar(longest):
    return (15, little(longest, 2))


def stamp(f):
    return (17, bytes([f]))


def datetime(f):
    return (18, bytes([f]))


def time(f):
    return (19, bytes([f]))


def blob(k):
    return (252, bytes([k]))


WRITE, UPDATE, DELETE = 30, 31, 32


def one_write(columns, values, **more):
    """A log with one table map and one write of one full row."""
    log = Log(**more)
    n = len(columns)
    log.map(7, columns)
    at = log.rows(WRITE, 7, n, bits([1] * n), bits([0] * n) + values)
    return log, at, log.first_row(at, WRITE, n) + (n + 7) // 8


# -- the sources' bytes ---------------------------------------------------

def source_004():
    """The log of 004, events at their real places. The update at 389 and the
    delete at 667 are the printed bytes, checksums and all; the table maps'
    58 bytes follow from names and types; the others have the printed places,
    lengths and types."""
    first, second, server = 0x58a10e24, 0x58a10e2a, 93157
    log = Log(time=first, server=server)
    log.add(35, bytes(8), time=first, server=server, flags=0x80)
    fill = 194 - log.at
    log.add(3, bytes(fill - 23), time=first, server=server)
    update = bytes.fromhex(
        "240ea1581fe56b010034000000b90100000000"
        "d2000000000001000200" "03ffff" "fd0474657374" "fa020000000474657374"
        "1d59c021")
    delete = bytes.fromhex(
        "2a0ea15820e56b01002d000000c80200000000"
        "d2000000000001000200" "03ff" "fa020000000474657374" "c1415705")
    for when, gno, event in ((first, 1000450, update),
                             (second, 1000451, delete)):
        log.add(33, b"\1" + bytes.fromhex("4a6f2a675d8711e6a6bd000c29a879a3")
                + little(gno, 8) + b"\2" + little(gno - 1, 8) + little(gno, 8),
                time=when, server=server)
        log.add(2, little(2, 4) + little(0, 4) + b"\4" + little(0, 2)
                + little(26, 2) + b"\0" + bytes(4)
                + bytes.fromhex("010000204000000000") + b"\6\3std"
                + bytes.fromhex("04210021000800") + b"test\0BEGIN",
                flags=8, time=when, server=server)
        log.map(210, [INT, varchar(60), varchar(60)], name=b"testnull2",
                time=when, server=server)
        log.bytes += event
        log.events += 1
        log.add(16, little(gno - 999000, 8), time=when, server=server)
    assert len(log.bytes) == 743
    accept("source-004.log", log, 2)


INTS = [TINY, SHORT, MEDIUM, INT, BIG, TINY]


def source_000():
    """Rows of 000. The write at 340, the delete at 320, the GTID at 191, the
    rows query at 201, the query at 244 and the Xid at 1691 stand at their
    places under their printed checksums (clock UTC-5, server 330619)."""
    entries, version, server = ENTRIES[:35], b"5.6.34-log", 330619

    def begin():
        return Log(version=version, entries=entries, server=server)

    def fill(log, place, kind=3):
        log.add(kind, bytes(place - log.at - 23), server=server)

    def printed(log, kind, when, body, checksum, flags=0):
        at = log.add(kind, bytes.fromhex(body), flags, when, server)
        assert log.bytes[-4:] == bytes.fromhex(checksum), (at, checksum)
        return at

    def day(month_day, hour, minute, second):
        return (1514764800 + (month_day - 1) * 86400 + (hour + 5) * 3600
                + minute * 60 + second)

    row = "010b006f000057040000672b00000000000001"
    new = "011600de000057040000672b00000000000001"
    head = "640000000000" "0100" "0200" "06"

    log = begin()
    width = 19 + 8 + 10 + 11 + 1 + 6 + 1 + 1 + 4
    fill(log, 340 - width)
    log.map(100, INTS, database=b"gangshen", name=b"int_table", server=server)
    assert log.at == 340
    printed(log, WRITE, day(3, 10, 21, 20), head + "ffc0" + row, "107e1750")
    accept("source-000-write.log", log, 1)

    log = begin()
    fill(log, 320 - width)
    log.map(100, INTS, database=b"gangshen", name=b"int_table", server=server)
    assert log.at == 320
    printed(log, DELETE, day(3, 14, 24, 54), head + "ffc0" + new, "b21848ce")
    accept("source-000-delete.log", log, 1)

    log = begin()
    fill(log, 320 - width)
    log.map(100, INTS, database=b"gangshen", name=b"int_table", server=server)
    at = log.rows(DELETE, 100, 6, b"\xff", b"\xc0" + bytes.fromhex(new))
    log.bytes = log.bytes[:-4] + bytes.fromhex("107e1750")
    refuse("source-000-delete-as-printed.log", log, 8, at)

    log = begin()
    log.map(100, INTS, database=b"gangshen", name=b"int_table", server=server)
    log.add(UPDATE, bytes.fromhex(head + "ffff" + "c0" + row + "c0" + new),
            server=server)
    accept("source-000-update.log", log, 1)

    log = begin()
    fill(log, 191)
    printed(log, 33, day(9, 18, 31, 8),
            "01" "89fbcea2da6511e7a851fa163e618bac" "0500000000000000",
            "e83003d2")
    accept("source-000-gtid.log", log, 0)

    log = begin()
    fill(log, 201)
    printed(log, 29, day(8, 9, 12, 6), "2e" + (
        b"insert into test1(`name`) values('rows_query')").hex(),
        "8aaf68dc", flags=0x80)
    accept("source-000-rows-query.log", log, 0)

    log = begin()
    fill(log, 244)
    printed(log, 2, day(5, 15, 20, 29),
            "a49f0100" "00000000" "08" "0000" "2a00" "0000000000"
            "010000204000000000" "0603737464" "0302000200" "04210021005300"
            "0c0167616e677368656e00" "67616e677368656e00"
            + b"insert into test1(`name`) values('beijing')".hex(),
            "21923798")
    accept("source-000-query.log", log, 0)

    log = begin()
    fill(log, 1691)
    printed(log, 16, day(3, 15, 30, 45), "8a0a000000000000", "1c181688")
    accept("source-000-xid.log", log, 0)

    # the table of dates and times, P1 to P7
    log = begin()
    log.map(78, [DATE, datetime(0), datetime(3), stamp(0), stamp(4), time(0),
                 time(5), YEAR, YEAR], database=b"gangshen",
            name=b"time_table", nullable=b"\xff\1")
    log.add(WRITE, bytes.fromhex(
        "4e0000000000" "0100" "0200" "09" "ffff" "00fe" "8ec30f"
        "999e5c9d80" "999e5c9d800460" "5a31d9b8" "5a31d9b80459" "809d80"
        "809d80000000" "75" "75"))
    accept("source-000-times.log", log, 1)

    # its table of numbers has a DECIMAL and a BIT column
    log = begin()
    at = log.map(93, INTS[:5] + [(246, b"\x19\x0a"), FLOAT, DOUBLE,
                                 (16, b"\5\0")],
                 database=b"gangshen", name=b"number_table")
    refuse("source-000-numbers.log", log, 13, at)

    # without those two
    log = begin()
    log.map(93, INTS[:5] + [FLOAT, DOUBLE], database=b"gangshen",
            name=b"number_table")
    log.rows(WRITE, 93, 7, b"\xff", b"\x80" + bytes.fromhex(
        "02" "eaff" "de0000" "52f7ffff" "ce56000000000000"
        "3333f642" "cdcccccccccc5e40"))
    accept("source-000-numbers-read.log", log, 1)


# -- opening bytes and description ----------------------------------------

def opening():
    refuse("empty.log", b"", 2, 0)
    refuse("three-bytes.log", MAGIC[:3], 2, 0)
    refuse("length-4.log", MAGIC, 3, 4)
    refuse("wrong-opening.log", b"\xfebim" + Log().bytes[4:], 2, 0)
    refuse("wrong-opening-4.log", b"\xfebi!", 2, 0)
    whole = Log().bytes
    refuse("five-bytes.log", whole[:5], 4, 4)
    refuse("eighteen-after.log", whole[:22], 4, 4)
    refuse("nineteen-after.log", whole[:23], 4, 4)
    other = bytearray(whole)
    other[8] = 2
    refuse("first-other-type.log", bytes(other), 3, 4)
    refuse("first-other-type-18.log", bytes(other)[:22], 4, 4)
    accept("description.log", Log(), 0)
    accept("description-no-checksums.log", Log(kind=0), 0)
    refuse("description-cut.log", whole[:-1], 4, 4)
    refuse("description-and-one.log", whole + b"\0", 4, len(whole))
    refuse("description-and-18.log", whole + bytes(18), 4, len(whole))
    refuse("description-checksum.log", Log(damage=1), 8, 4)
    refuse("description-checksum-none.log", Log(kind=0, damage=1 << 31), 8, 4)
    refuse("description-kind-2.log", Log(kind=2), 6, 4)
    refuse("description-kind-255.log", Log(kind=255), 6, 4)
    accept("description-113.log", Log(entries=ENTRIES[:32]), 0)
    refuse("description-112.log", Log(entries=ENTRIES[:31]), 6, 4)
    more = ENTRIES + bytes(255 - len(ENTRIES))
    accept("description-336.log", Log(entries=more), 0)
    refuse("description-337.log", Log(entries=more + b"\0"), 6, 4)
    # 6 for the length comes before 4 for what is missing
    refuse("description-long-cut.log", Log(length=337).bytes[:60], 6, 4)
    refuse("description-short-cut.log", Log(length=112).bytes[:30], 6, 4)
    # 4 before 9, 9 before 6, 6 before 7, 7 before 8
    refuse("description-length-and-position.log",
           Log(length=200, following=9), 4, 4)
    refuse("description-position.log", Log(following=122), 9, 4)
    refuse("description-position-and-fields.log",
           Log(following=0, binlog=3), 9, 4)
    refuse("description-binlog-3.log", Log(binlog=3), 6, 4)
    refuse("description-binlog-260.log", Log(binlog=260), 6, 4)
    refuse("description-fields-and-version.log",
           Log(kind=3, version=b"4.0.0"), 6, 4)
    refuse("description-version-and-checksum.log",
           Log(version=b"5.6.0", damage=1), 7, 4)
    refuse("header-18.log", Log(header=18), 6, 4)
    accept("header-19.log", Log(header=19), 0)
    accept("header-255.log", Log(header=255), 0)
    for kind, least in ((19, 8), (30, 10), (31, 10), (32, 10)):
        for size in (least - 1, least):
            entries = bytearray(ENTRIES)
            entries[kind - 1] = size
            log = Log(entries=bytes(entries))
            name = "entry-%d-is-%d.log" % (kind, size)
            if size < least:
                refuse(name, log, 6, 4)
            else:
                accept(name, log, 0)


def versions():
    for version, good in (
            (b"5.6.0", False), (b"5.6.1", True), (b"5.6.10", True),
            (b"5.5.255", False), (b"5.7.0", True), (b"4.99.99", False),
            (b"10.0.0", True), (b"255.255.255", True), (b"256.6.1", False),
            (b"5.256.1", False), (b"5.6.256", False), (b"5.6.1234", False),
            (b"5.6.1.2", True), (b"5.6.1x", True), (b"005.006.001", True),
            (b"0005.6.1", False), (b"5.6", False), (b"5.6.", False),
            (b"5..1", False), (b".6.1", False), (b"", False),
            (b" 5.6.1", False), (b"5.6.-1", False), (b"5,6,1", False),
            (b"8.0.36-0ubuntu0.22.04.1 with a long name filled out", True)):
        name = "version-%s.log" % (
            version.decode().replace(" ", "_").replace(",", "c")[:14]
            or "empty")
        log = Log(version=version)
        if good:
            accept(name, log, 0)
        else:
            refuse(name, log, 7, 4)
    # the digits of the third run reach the field's end
    log = Log(version=b"5.6.1" + b"9" * 45)
    refuse("version-digits-to-the-end.log", log, 7, 4)


# -- later events ---------------------------------------------------------

def framing():
    log = Log()
    at = log.add(3, b"")
    refuse("event-cut.log", log.bytes[:-1], 4, at)
    log = Log()
    at = log.add(3, bytes(4), length=22)
    refuse("event-22.log", log, 5, at)
    log = Log()
    log.add(3, b"")
    accept("event-23.log", log, 0)
    log = Log(kind=0)
    at = log.add(3, b"", length=18)
    refuse("event-18-no-checksums.log", log, 5, at)
    log = Log(kind=0)
    log.add(3, b"")
    accept("event-19-no-checksums.log", log, 0)
    # 5 before 4: too short a length, and nothing after
    log = Log()
    at = log.add(3, b"", length=0)
    refuse("event-length-0.log", log, 5, at)
    log = Log()
    at = log.add(3, b"", length=0xffffffff)
    refuse("event-length-most.log", log, 4, at)
    # 4 before 9
    log = Log()
    at = log.add(3, b"", length=24, following=7)
    refuse("event-length-and-position.log", log, 4, at)
    log = Log()
    at = log.add(3, b"", following=0)
    refuse("event-position-0.log", log, 9, at)
    # 9 before 8
    log = Log()
    at = log.add(3, b"", following=5, damage=1)
    refuse("event-position-and-checksum.log", log, 9, at)
    # 8 before 11
    log = Log()
    at = log.add(0, b"", damage=1)
    refuse("event-checksum-and-type.log", log, 8, at)
    log = Log()
    log.add(3, b"")
    at = log.add(3, b"abc", damage=0x80)
    refuse("event-checksum.log", log, 8, at)
    # the first fault wins
    log = Log()
    at = log.add(20, b"")
    log.add(3, b"", damage=1)
    refuse("first-fault.log", log, 11, at)
    # a second description is 10 whatever its length says
    for length in (None, 0, 0xffffffff):
        log = Log()
        at = log.add(15, bytes(100), length=length, damage=1, following=3)
        refuse("second-description-%s.log" % (
            "sound" if length is None else length), log, 10, at)
    log = Log()
    at = log.add(15, bytes(100))
    refuse("second-description-18.log", log.bytes[:at + 18], 4, at)
    # H 30: type 4 keeps 19, also in the shortest length
    log = Log(header=30)
    log.add(3, b"x")
    log.add(4, bytes(8) + b"mysql-bin.000002")
    log.add(4, b"")
    log.add(16, bytes(8))
    accept("header-30.log", log, 0)
    for kind in (0, 3, 16, 19, 30, 20, 39, 200):
        log = Log(header=30)
        at = log.add(kind, b"", flags=0x80, ext=bytes(10))
        refuse("header-30-short-type-%d.log" % kind, log, 5, at)
    log = Log(header=30)
    log.map(7, [INT])
    at = log.rows(WRITE, 7, 1, b"\1", b"\0" + little(5, 4))
    accept("header-30-rows.log", log, 1)


def types():
    stepped = {2, 3, 4, 16, 28, 29, 33, 34, 35}
    always = {20, 21, 22, 23, 24, 25, 39, 40}
    for kind in (0, 1, 2, 3, 4, 5, 14, 16, 17, 18, 20, 22, 23, 25, 26, 27,
                 28, 29, 33, 34, 35, 36, 38, 39, 40, 41, 171, 255):
        for flags in (0x0000, 0x0080):
            log = Log()
            at = log.add(kind, b"some bytes", flags=flags)
            name = "type-%d-flags-%d.log" % (kind, flags)
            if kind in stepped or (kind not in always and flags):
                accept(name, log, 0)
            else:
                refuse(name, log, 11, at)
    log = Log()
    at = log.add(200, b"", flags=0xff7f)
    refuse("type-200-all-but-ignorable.log", log, 11, at)
    log = Log()
    log.add(200, b"", flags=0xffff)
    accept("type-200-all-flags.log", log, 0)
    # an unknown type is 11 whatever follows it
    log = Log()
    at = log.add(38, b"")
    refuse("type-38-and-rubbish.log", log.bytes + b"\xff" * 40, 11, at)
    # stepped-over events aren't judged against their entry
    log = Log()
    log.add(2, b"")
    log.add(33, b"")
    accept("stepped-without-post-header.log", log, 0)


# -- table maps -----------------------------------------------------------

def maps():
    good = Log().map_body(7, [INT, varchar(20)], name=b"names")
    for cut in range(len(good)):
        log = Log()
        at = log.add(19, good[:cut])
        refuse("map-cut-%02d.log" % cut, log, 12, at)
    for name, more in (
            ("plain", {}), ("empty-names", {"database": b"", "name": b""}),
            ("zero-in-names", {"database": b"a\0b", "name": b"\0"}),
            ("longest-names", {"database": b"d" * 255, "name": b"n" * 255}),
            ("after", {"after": b"\1\1\0\2\3\xfc\xff\0"}),
            ("count-252", {"count_form": 252}),
            ("count-253", {"count_form": 253}),
            ("count-254", {"count_form": 254}),
            ("length-254", {"length_form": 254})):
        log = Log()
        log.map(7, [INT, varchar(20)], **more)
        log.rows(WRITE, 7, 2, b"\3", b"\0" + little(9, 4) + b"\2hi")
        accept("map-%s.log" % name, log, 1)

    def bad(name, number, columns=(INT,), **more):
        log = Log()
        at = log.map(7, list(columns), **more)
        refuse("map-%s.log" % name, log, number, at)

    for place, name in ((8 + 1 + 4, "database"), (8 + 6 + 1 + 5, "table")):
        body = bytearray(good)
        assert body[place] == 0
        body[place] = 1
        log = Log()
        at = log.add(19, bytes(body))
        refuse("map-%s-without-zero.log" % name, log, 12, at)
    bad("no-columns", 12, columns=(), nullable=b"")
    bad("count-251", 12, types=b"\3", count=251, count_form=0)
    bad("count-255", 12, types=b"\3", count=255, count_form=0)
    bad("count-huge", 12, count=(1 << 64) - 1, count_form=254)
    bad("count-more-than-types", 12, count=200)
    # a type that isn't read: 13, once all type bytes are there
    for t in (0, 6, 7, 11, 12, 14, 16, 20, 245, 246, 247, 248, 249, 250, 251,
              253, 254, 255):
        bad("type-%d" % t, 13, columns=((t, b"\0"),))
    bad("type-and-length", 13, types=b"\7", block=b"\0\0\0")
    log = Log()
    body = log.map_body(7, [(7, b""), INT])
    at = log.add(19, body[:8 + 6 + 3 + 1 + 1])
    refuse("map-type-and-types-cut.log", log, 12, at)
    bad("length-too-long", 12, columns=(varchar(9),), block=b"\11\0\0")
    bad("length-too-short", 12, columns=(varchar(9),), block=b"\11")
    # 12 for the length comes before 13 for the contents
    bad("length-and-contents", 12, columns=(FLOAT,), block=b"\5\5")
    body = Log().map_body(7, [FLOAT, (5, b"\4")])
    log = Log()
    at = log.add(19, body[:-2])
    refuse("map-contents-and-block-cut.log", log, 12, at)
    # contents before the nullable bits
    log = Log()
    at = log.add(19, body[:-1])
    refuse("map-contents-and-nullable-cut.log", log, 13, at)
    for t, good_ones, bad_ones in (
            (4, (4,), (0, 3, 5, 8)), (5, (8,), (0, 4, 7, 9)),
            (17, range(7), (7, 255)), (18, range(7), (7, 255)),
            (19, range(7), (7, 128)), (252, range(1, 5), (0, 5, 255))):
        for m in bad_ones:
            bad("metadata-%d-%d" % (t, m), 13, columns=((t, bytes([m])),))
        log = Log()
        log.map(7, [(t, bytes([m])) for m in good_ones])
        accept("metadata-%d.log" % t, log, 0)
    log = Log()
    log.map(7, [varchar(0), varchar(65535)])
    accept("metadata-15.log", log, 0)
    # 13 before 14
    log = Log()
    for table in range(16):
        log.map(table, [INT])
    at = log.map(99, [(7, b"")])
    refuse("map-13-before-14.log", log, 13, at)


def wide():
    for n in (512, 513):
        log = Log()
        at = log.map(7, [TINY] * n)
        if n == 512:
            used = bits([i % 3 == 0 for i in range(n)])
            u = len(range(0, n, 3))
            log.rows(WRITE, 7, n, used,
                     bits([i % 5 == 0 for i in range(u)])
                     + bytes(i % 256 for i in range(u) if i % 5))
            accept("columns-512.log", log, 1)
        else:
            refuse("columns-513.log", log, 12, at)


def live():
    for n in (16, 17):
        log = Log()
        for table in range(n):
            at = log.map(table * 0x10000000001 % (1 << 48), [INT])
        if n == 16:
            for table in (0, 15):
                log.rows(WRITE, table * 0x10000000001 % (1 << 48), 1, b"\1",
                         b"\0" + little(table, 4), end=table == 15)
            accept("live-16.log", log, 2)
        else:
            refuse("live-17.log", log, 14, at)
    # mapping a live id again with 16 live is no 14, and the new map counts
    log = Log()
    for table in range(16):
        log.map(table, [INT])
    log.map(3, [TINY, SHORT], name=b"again")
    log.rows(WRITE, 3, 2, b"\3", b"\0" + b"\xff" + little(259, 2), end=False)
    log.rows(WRITE, 4, 1, b"\1", b"\0" + little(70000, 4))
    accept("live-16-again.log", log, 2)
    # a statement end drops them all
    log = Log()
    for table in range(16):
        log.map(table, [INT])
    log.rows(WRITE, 5, 1, b"\1", b"")
    for table in range(16, 32):
        log.map(table, [INT])
    accept("live-after-end.log", log, 0)
    log = Log()
    log.map(1, [INT])
    log.map(2, [INT])
    log.rows(WRITE, 1, 1, b"\1", b"\0" + little(1, 4))
    at = log.rows(WRITE, 2, 1, b"\1", b"\0" + little(1, 4))
    refuse("rows-after-end.log", log, 15, at)
    # an end without rows drops them too
    log = Log()
    log.map(1, [INT])
    log.rows(DELETE, 1, 1, b"\1", b"")
    at = log.rows(WRITE, 1, 1, b"\1", b"\0" + little(1, 4))
    refuse("rows-after-empty-end.log", log, 15, at)
    # of the flags only 0x0001 ends a statement
    for flags in (0xfffe, 0x0010, 0x0011, 0xffff):
        log = Log()
        log.map(1, [INT])
        log.rows(WRITE, 1, 1, b"\1", b"\0" + little(1, 4), flags=flags)
        at = log.rows(WRITE, 1, 1, b"\1", b"\0" + little(2, 4))
        if flags & 1:
            refuse("rows-flags-%04x.log" % flags, log, 15, at)
        else:
            accept("rows-flags-%04x.log" % flags, log, 2)
    # a map's own flags end nothing
    log = Log()
    body = log.map_body(1, [INT])
    log.add(19, body[:6] + b"\xff\xff" + body[8:])
    log.rows(WRITE, 1, 1, b"\1", b"\0" + little(1, 4))
    accept("map-flags.log", log, 1)
    log = Log()
    at = log.rows(WRITE, 1, 1, b"\1", b"")
    refuse("rows-without-map.log", log, 15, at)
    # ids differ in their sixth byte
    log = Log()
    log.map(1 << 40, [INT])
    at = log.rows(WRITE, 2 << 40, 1, b"\1", b"")
    refuse("rows-other-id.log", log, 15, at)


# -- rows events ----------------------------------------------------------

def heads():
    def bad(name, number, body=None, columns=(INT,), kind=WRITE):
        log = Log()
        log.map(7, list(columns))
        at = log.add(kind, body)
        refuse("rows-%s.log" % name, log, number, at)

    plain = Log()
    good = plain.rows_body(WRITE, 7, 1, b"\1", b"")
    for cut in range(len(good)):
        bad("cut-%02d" % cut, 16, good[:cut])
    good = plain.rows_body(UPDATE, 7, 1, b"\1\1", b"")
    bad("update-second-set-cut", 16, good[:-1], kind=UPDATE)
    # the post-header is judged before the live map, the rest after it
    bad("post-header-before-map", 16,
        plain.rows_body(WRITE, 8, 1, b"\1", b"")[:9])
    bad("map-before-extra", 15,
        plain.rows_body(WRITE, 8, 1, b"\1", b"", extra_length=0))
    for extra in (0, 1):
        bad("extra-length-%d" % extra, 16,
            plain.rows_body(WRITE, 7, 1, b"\1", b"", extra_length=extra))
    bad("extra-length-most", 16,
        plain.rows_body(WRITE, 7, 1, b"\1", b"", extra_length=65535))
    bad("count-2", 16, plain.rows_body(WRITE, 7, 2, b"\1", b""))
    bad("count-251", 16,
        plain.rows_body(WRITE, 7, 251, b"\1", b"", count_form=0))
    bad("used-none", 16, plain.rows_body(WRITE, 7, 1, b"\xfe", b""))
    bad("used-none-of-3", 16, plain.rows_body(WRITE, 7, 3, b"\xf8", b""),
        columns=(TINY, TINY, TINY))
    bad("update-before-none", 16,
        plain.rows_body(UPDATE, 7, 1, b"\0\1", b""), kind=UPDATE)
    bad("update-after-none", 16,
        plain.rows_body(UPDATE, 7, 1, b"\1\0", b""), kind=UPDATE)
    # read: a longer form of the count, an extra block, a longer post-header
    for form in (252, 253, 254):
        log = Log()
        log.map(7, [INT])
        log.rows(WRITE, 7, 1, b"\1", b"\0" + little(6, 4), count_form=form)
        accept("rows-count-%d.log" % form, log, 1)
    log = Log()
    log.map(7, [INT])
    log.rows(WRITE, 7, 1, b"\1", b"\0" + little(6, 4), extra=b"\7\6\5\4\3")
    accept("rows-extra.log", log, 1)
    entries = bytearray(ENTRIES)
    for kind, more in ((19, 3), (30, 1), (31, 2), (32, 5)):
        entries[kind - 1] += more
    log = Log(entries=bytes(entries))
    log.map(7, [INT])
    log.rows(WRITE, 7, 1, b"\1", b"\0" + little(6, 4), end=False)
    log.rows(UPDATE, 7, 1, b"\1\1",
             b"\0" + little(6, 4) + b"\0" + little(7, 4), end=False)
    log.rows(DELETE, 7, 1, b"\1", b"\0" + little(7, 4))
    accept("rows-longer-post-headers.log", log, 3)
    for kind in (19, 30):
        log = Log(entries=bytes(entries))
        if kind == 19:
            at = log.add(19, bytes(10))
            refuse("map-longer-post-header-cut.log", log, 12, at)
        else:
            log.map(7, [INT])
            at = log.add(30, little(7, 6) + b"\1\0\2\0")
            refuse("rows-longer-post-header-cut.log", log, 16, at)
    # rows area empty
    for kind, used in ((WRITE, b"\1"), (UPDATE, b"\1\1"), (DELETE, b"\1")):
        log = Log()
        log.map(7, [INT])
        log.rows(kind, 7, 1, used, b"")
        accept("rows-empty-%d.log" % kind, log, 0)


def images():
    three = [TINY, SHORT, TINY]
    # ff over 3 columns means 3
    log = Log()
    log.map(7, three)
    log.rows(WRITE, 7, 3, b"\xff", b"\xf8\1\2\0\3" b"\xfa\4\5")
    accept("used-ff-over-3.log", log, 2)
    # used 1 0 1, nulls numbered by used column
    log = Log()
    log.map(7, three)
    log.rows(WRITE, 7, 3, b"\5", b"\0\1\3" b"\1\3" b"\2\1" b"\3" b"\xfc\7\x80")
    accept("used-101.log", log, 5)
    # the two sides of an update use different columns
    log = Log()
    log.map(7, three)
    log.rows(UPDATE, 7, 3, b"\1\6", b"\0\5\1\6" b"\1\0\7\0\x81" b"\0\xff\3")
    accept("update-sets-differ.log", log, 3)
    # nine used of seventeen: two bytes of null bits
    log = Log()
    log.map(7, [TINY] * 17)
    log.rows(DELETE, 7, 17, bits([1, 0] * 8 + [1]),
             bits([0, 1, 0, 0, 0, 0, 0, 0, 1]) + bytes(range(7))
             + b"\xff\xff" + bits([0] * 9) + bytes(range(10, 19)))
    accept("used-9-of-17.log", log, 3)
    # a null in a column that isn't marked nullable is read as null
    log = Log()
    log.map(7, three, nullable=b"\0")
    log.rows(WRITE, 7, 3, b"\7", b"\7" b"\0\1\2\0\3")
    accept("null-not-nullable.log", log, 2)
    # several rows, several events of one map
    log = Log()
    log.map(7, [INT, varchar(300)])
    log.rows(WRITE, 7, 2, b"\3", b"".join(
        b"\0" + little(i, 4) + little(i, 2) + b"z" * i for i in range(12)),
        end=False)
    log.rows(UPDATE, 7, 2, b"\1\2", b"".join(
        b"\0" + little(i, 4) + b"\0" + little(2, 2) + b"ab"
        for i in range(3)), end=False)
    log.rows(DELETE, 7, 2, b"\3", b"\3" * 3)
    accept("rows-many.log", log, 18)

    def cut(name, columns, used, some, kind=WRITE):
        log = Log()
        log.map(7, list(columns))
        at = log.rows(kind, 7, len(columns), used, some)
        refuse("cut-%s.log" % name, log, 17, at)

    cut("null-bits", [TINY] * 9, b"\xff\1", b"\0")
    cut("value", (INT,), b"\1", b"\0\1\2\3")
    cut("second-row", (INT,), b"\1", b"\0\1\2\3\4\0\1")
    cut("second-row-empty", (INT,), b"\1", b"\0\1\2\3\4\0")
    cut("between-images", (INT,), b"\1\1", b"\0\1\2\3\4", UPDATE)
    cut("after-image", (INT,), b"\1\1", b"\0\1\2\3\4\0\1\2\3", UPDATE)
    for t, size in ((1, 1), (2, 2), (9, 3), (8, 8), (10, 3), (13, 1)):
        cut("type-%d" % t, ((t, b""),), b"\1", bytes(size))
    cut("float", (FLOAT,), b"\1", bytes(4))
    cut("double", (DOUBLE,), b"\1", bytes(8))
    cut("varchar-length", (varchar(256),), b"\1", b"\0\1")
    cut("varchar-text", (varchar(9),), b"\1", b"\0\3ab")
    cut("blob-length", (blob(4),), b"\1", b"\0\1\0\0")
    cut("blob-text", (blob(2),), b"\1", b"\0\3\0ab")
    cut("blob-most", (blob(4),), b"\1", b"\0\xff\xff\xff\xff")
    for f in range(7):
        for kind, size in ((stamp, 4), (datetime, 5), (time, 3)):
            cut("%s-%d" % (kind.__name__, f), (kind(f),), b"\1",
                bytes(size + (f + 1) // 2))
    # a value cut short is 17 before its content is judged
    cut("datetime-below", (datetime(6),), b"\1", b"\0" + bytes(7))
    cut("date-month-13", (DATE,), b"\1", b"\0\xff\xff")


# -- values ---------------------------------------------------------------

def values():
    every = [TINY, SHORT, MEDIUM, INT, BIG, FLOAT, DOUBLE, DATE, YEAR,
             varchar(255), varchar(256), stamp(0), stamp(2), datetime(0),
             datetime(6), time(0), time(2), time(6), blob(1), blob(2),
             blob(3), blob(4)]
    n = len(every)
    log = Log()
    log.map(0xfffffffffff, every, database=b"db", name=b"every")
    one = bytes.fromhex(
        "ff" "feff" "fdffff" "fcffffff" "fbffffffffffffff" "0000c07f"
        "000000000000f87f" "8ec30f" "75" "03616263" "0300646566" "5a31d9b8"
        "ffffffff63" "999e5c9d80" "999e5c9d800f423f" "809d80" "7ffffef6"
        "7fffffffffff" "00" "0000" "010000fe" "0200000000ff")
    two = bytes.fromhex(
        "80" "0080" "000080" "00000080" "0000000000000080" "010080ff"
        "010000000000f0ff" "000000" "00" "00" "0000" "00000000" "0000000000"
        "8000000000" "8000000000000000" "800000" "80000000" "800000000000"
        "0161" "010062" "01000063" "0100000064")
    log.rows(WRITE, 0xfffffffffff, n, bits([1] * n),
             bits([0] * n) + one + bits([0] * n) + two, end=False)
    log.rows(DELETE, 0xfffffffffff, n, bits([1] * n), bits([1] * n))
    accept("every-type.log", log, 3)

    log = Log()
    big_values = [varchar(255), varchar(256), varchar(65535), blob(1), blob(2)]
    log.map(7, big_values)
    log.rows(WRITE, 7, 5, b"\x1f",
             b"\0" + b"\xff" + b"A" * 255 + b"\0\1" + b"B" * 256
             + little(300, 2) + b"C" * 300 + b"\xff" + b"D" * 255
             + little(256, 2) + b"E" * 256)
    accept("texts-long.log", log, 1)

    # VARCHAR M 255 and 256, both read, and one byte too long
    for m in (0, 1, 255, 256, 65535):
        size = 1 if m < 256 else 2
        n = min(m, 300)
        log, at, first = one_write([varchar(m)], little(n, size) + b"v" * n)
        accept("varchar-%d.log" % m, log, 1)
        if m + 1 < 256 ** size:
            log, at, first = one_write(
                [varchar(m)], little(m + 1, size) + b"v" * (m + 1))
            refuse("varchar-%d-too-long.log" % m, log, 18, first)
    # its length is judged before what is missing
    log, at, first = one_write([varchar(3)], b"\4")
    refuse("varchar-too-long-and-cut.log", log, 18, first)

    def bad(name, column, stored):
        log, at, first = one_write([TINY, column], b"\1" + stored)
        refuse("value-%s.log" % name, log, 18, first + 1)

    def fine(name, columns, stored):
        log, at, first = one_write(columns, stored)
        accept("value-%s.log" % name, log, 1)

    def date(y, m, d):
        return little(y << 9 | m << 5 | d, 3)

    def stored_datetime(y, m, d, h, mi, s, fraction=b"", months=None):
        months = y * 13 + m if months is None else months
        return (0x8000000000 + (months << 22 | d << 17 | h << 12 | mi << 6 | s)
                ).to_bytes(5, "big") + fraction

    def stored_time(negative, h, mi, s, part=0, extra=0):
        n = (h << 12 | mi << 6 | s) << 8 * extra | part
        zero = 0x80 << 8 * (2 + extra)
        return (zero - n if negative else zero + n).to_bytes(3 + extra, "big")

    bad("date-month-13", DATE, date(2017, 13, 1))
    bad("date-month-15", DATE, date(0, 15, 0))
    fine("dates", [DATE] * 6, date(0, 0, 0) + date(32767, 12, 31)
         + date(2020, 0, 5) + date(2020, 12, 0) + date(1, 1, 1)
         + date(2021, 2, 31))
    fine("years", [YEAR] * 3, b"\0\1\xff")
    bad("datetime-below", datetime(0), b"\x7f\xff\xff\xff\xff")
    bad("datetime-zero", datetime(0), bytes(5))
    bad("datetime-hour-24", datetime(0), stored_datetime(1, 1, 1, 24, 0, 0))
    bad("datetime-minute-60", datetime(0), stored_datetime(1, 1, 1, 0, 60, 0))
    bad("datetime-second-60", datetime(0), stored_datetime(1, 1, 1, 0, 0, 60))
    for f, top in ((1, 100), (2, 100), (3, 10000), (4, 10000),
                   (5, 1000000), (6, 1000000)):
        size = (f + 1) // 2
        over = top.to_bytes(size, "big")
        most = (top - 1).to_bytes(size, "big")
        bad("stamp-fraction-%d" % f, stamp(f), little(1, 4) + over)
        bad("datetime-fraction-%d" % f, datetime(f),
            stored_datetime(2017, 12, 14, 9, 54, 0, over))
        bad("time-fraction-%d" % f, time(f),
            stored_time(False, 1, 2, 3, top, size))
        bad("time-minus-fraction-%d" % f, time(f),
            stored_time(True, 1, 2, 3, top, size))
        fine("fractions-%d" % f, [stamp(f), datetime(f), time(f), time(f)],
             little(1, 4) + most
             + stored_datetime(2017, 12, 14, 9, 54, 0, most)
             + stored_time(False, 838, 59, 59, top - 1, size)
             + stored_time(True, 838, 59, 59, top - 1, size))
    # the year may pass 9999, the month is a remainder by 13, day 0 is fine
    fine("datetimes", [datetime(0)] * 5,
         stored_datetime(0, 0, 0, 0, 0, 0)
         + stored_datetime(0, 0, 31, 23, 59, 59, months=(1 << 17) - 1)
         + stored_datetime(9999, 12, 31, 23, 59, 59)
         + stored_datetime(10000, 1, 1, 0, 0, 0)
         + stored_datetime(2017, 12, 14, 9, 54, 0))
    bad("time-hour-839", time(0), stored_time(False, 839, 0, 0))
    bad("time-minus-hour-839", time(0), stored_time(True, 839, 0, 0))
    bad("time-minute-60", time(0), stored_time(False, 0, 60, 0))
    bad("time-minus-second-60", time(0), stored_time(True, 0, 0, 60))
    bad("time-zero-bytes", time(0), bytes(3))
    bad("time-zero-bytes-6", time(6), bytes(6))
    fine("times", [time(0)] * 5 + [time(2)] * 4 + [time(6)] * 2,
         stored_time(False, 838, 59, 59) + stored_time(True, 838, 59, 59)
         + stored_time(False, 0, 0, 0) + stored_time(True, 0, 0, 1)
         + bytes.fromhex("809d80")
         + bytes.fromhex("7ffffef6") + stored_time(True, 0, 0, 0, 1, 1)
         + stored_time(True, 0, 0, 59, 99, 1) + bytes.fromhex("80000000")
         + stored_time(True, 0, 0, 0, 1, 3)
         + stored_time(True, 1, 0, 0, 999999, 3))
    # 18 in a second row, and in an after image
    log = Log()
    log.map(7, [TINY, DATE])
    at = log.rows(WRITE, 7, 2, b"\3", b"\0\1" + date(2017, 12, 14)
                  + b"\0\2" + date(2017, 13, 14))
    refuse("value-second-row.log", log, 18,
           log.first_row(at, WRITE, 2) + 5 + 2)
    log = Log()
    log.map(7, [DATE, TINY])
    at = log.rows(UPDATE, 7, 2, b"\1\1", b"\0" + date(1, 1, 1)
                  + b"\0" + date(1, 14, 1))
    refuse("value-after-image.log", log, 18,
           log.first_row(at, UPDATE, 2) + 4 + 1)
    # in reading order: 18 at a date, though a later value is cut
    log = Log()
    log.map(7, [DATE, INT])
    at = log.rows(WRITE, 7, 2, b"\3", b"\0" + date(1, 13, 1) + b"\1")
    refuse("value-then-cut.log", log, 18, log.first_row(at, WRITE, 2) + 1)
    log = Log()
    log.map(7, [DATE, INT])
    at = log.rows(WRITE, 7, 2, b"\3", b"\0" + date(1, 12, 1) + b"\1")
    refuse("value-sound-then-cut.log", log, 17, at)


# -- demand 3's longer logs -----------------------------------------------

def longer():
    """A log beside its longer forms: the same changes and values, at the
    places where the same things now stand."""
    def build(header=19, entries=ENTRIES, grow=None, after=b"", extra=b"",
              between=(), ends=b"", kind=1):
        grow = grow or {}
        grown = bytearray(entries)
        for t, more in grow.items():
            grown[t - 1] += more
        log = Log(header=header, entries=bytes(grown) + ends, kind=kind)

        def stepped(t, body):
            # bytes of a longer post-header stand anywhere in the body
            more = b"\xbb" * grow.get(t, 0)
            half = len(body) // 2
            log.add(t, body[:half] + more + body[half:])
            strange()

        def strange():
            for t, body, flags in between:
                log.add(t, body, flags=flags)

        strange()
        stepped(33, bytes(42))
        stepped(2, bytes(13) + b"test\0BEGIN")
        log.map(210, [INT, varchar(60), FLOAT, time(2), blob(2)],
                name=b"testnull2", after=after)
        strange()
        log.map(211, [TINY], name=b"other", after=after)
        strange()
        log.rows(WRITE, 210, 5, b"\x1f",
                 b"\0" + little(5, 4) + b"\2ab" + b"\0\0\xc0\x7f"
                 + bytes.fromhex("7ffffef6") + b"\3\0xyz"
                 + b"\x1e" + little(6, 4), end=False, extra=extra)
        strange()
        log.rows(UPDATE, 211, 1, b"\1\1", b"\0\1\0\2", end=False, extra=extra)
        strange()
        log.rows(DELETE, 210, 5, b"\5", b"\0" + little(5, 4) + bytes(4)
                 + b"\3", extra=extra)
        strange()
        stepped(16, bytes(8))
        stepped(4, bytes(8) + b"mysql-bin.000002")
        return log

    strange = [(5, b"", 0x80), (171, b"unknown", 0xff), (0, b"\0" * 9, 0x80)]
    forms = {
        "none": {},
        "header": {"header": 27},
        "header-most": {"header": 255},
        "post-headers": {"grow": {19: 4, 30: 1, 31: 3, 32: 245}},
        "post-headers-stepped": {"grow": {33: 2, 2: 9, 16: 1, 4: 3, 15: 2}},
        "map-bytes": {"after": b"\1\2\3\4\5"},
        "extra": {"extra": b"\x00\x01\x02"},
        "entries": {"ends": b"\1\2\3"},
        "entries-most": {"ends": bytes(range(217))},
        "events": {"between": strange},
        "mix": {"header": 21, "after": b"\xff" * 9, "extra": b"extra",
                "grow": {19: 1, 30: 2, 31: 3, 32: 4, 33: 5, 4: 1},
                "between": strange, "ends": b"\xff\0"},
    }
    for name, more in forms.items():
        for kind in (1, 0):
            accept("longer-%s%s.log" % (name, "" if kind else "-plain"),
                   build(kind=kind, **more), 5)
    # an added event without the ignorable mark
    log = build(between=[(5, b"", 0)])
    refuse("longer-not-ignorable.log", log, 11, 4 + 81 + len(ENTRIES))


def sizes():
    """At the program's limit of 65,536 bytes, and one byte more."""
    for size, name in ((65536, "size-65536"), (65537, "size-65537")):
        log = Log()
        log.add(3, bytes(size - log.at - 23))
        keep(name + ".log", log,
             "accepted 2 0" if size == 65536 else "too long")


def make():
    for part in (source_004, source_000, opening, versions, framing, types,
                 maps, wide, live, heads, images, values, longer, sizes):
        part()


def main(arguments):
    check = arguments[:1] == ["--check"]
    folder = arguments[-1]
    make()
    wrong = []
    for name, (data, _) in sorted(LOGS.items()):
        path = os.path.join(folder, name)
        if not check:
            with open(path, "wb") as f:
                f.write(data)
            continue
        try:
            with open(path, "rb") as f:
                if f.read() != data:
                    wrong.append(name)
        except OSError:
            wrong.append(name)
    if wrong:
        sys.exit("not as made: " + " ".join(wrong))
    print("%d logs, %d bytes" % (len(LOGS),
                                 sum(len(d) for d, _ in LOGS.values())))


if __name__ == "__main__":
    main(sys.argv[1:])
