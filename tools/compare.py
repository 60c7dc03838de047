#!/usr/bin/env python3
"""Compares account.py with what the server's own tool printed.

    compare.py LOG TEXT [LOG TEXT ..]

TEXT is the output of `mysqlbinlog -vv` (or the same, gzipped) of LOG. For a
log that account.py accepts, these must agree: the places of all events, the
table ids and names of all rows events, and of every change its kind, its
table, which columns each image has, and each column's type, metadata and
value. The tool's quirks are allowed for: FLOAT has six digits, YEAR 0 prints
as 1900, and of a fraction only F digits are printed.
"""

import gzip
import re
import struct
import sys

import account

NAMES = {1: b"TINYINT", 2: b"SHORTINT", 9: b"MEDIUMINT", 3: b"INT",
         8: b"LONGINT", 4: b"FLOAT", 5: b"DOUBLE", 10: b"DATE", 13: b"YEAR",
         15: b"VARSTRING", 17: b"TIMESTAMP", 18: b"DATETIME", 19: b"TIME"}
BLOBS = {1: b"TINYBLOB/TINYTEXT", 2: b"BLOB/TEXT",
         3: b"MEDIUMBLOB/MEDIUMTEXT", 4: b"LONGBLOB/LONGTEXT"}
VERBS = {b"INSERT INTO": 30, b"UPDATE": 31, b"DELETE FROM": 32}
ESCAPES = {b"n": b"\n", b"t": b"\t", b"r": b"\r", b"0": b"\0",
           b"b": b"\b", b"Z": b"\x1a"}


def unquoted(text):
    def plain(m):
        some = m.group(1)
        if some[:1] == b"x":
            return bytes([int(some[1:], 16)])
        return ESCAPES.get(some, some)
    return re.sub(rb"\\(x[0-9a-f]{2}|.)", plain, text[1:-1], flags=re.S)


def shown(log, t, m, value):
    """How the tool shows a value that is no text."""
    def fraction(micro):
        return (".%06d" % micro)[:m + 1] if m else ""
    if t in account.INTEGERS:
        if value < 0:
            top = 1 << 8 * account.INTEGERS[t]
            return "%d (%d)" % (value, value + top)
        return str(value)
    if t == 4:
        return "%g" % struct.unpack("<f", struct.pack("<I", value))
    if t == 5:
        return "%.20g" % struct.unpack("<d", struct.pack("<Q", value))
    if t == 10:
        return "'%04d:%02d:%02d'" % value
    if t == 13:
        return str(value or 1900)
    if t == 17:
        return str(value[0]) + fraction(value[1])
    if t == 18:
        return "'%04d-%02d-%02d %02d:%02d:%02d%s'" % (
            value[:6] + (fraction(value[6]),))
    if t == 19:
        return "'%s%02d:%02d:%02d%s'" % (
            ("-" if value[0] else "",) + value[1:4] + (fraction(value[4]),))
    raise AssertionError(t)


def tool_changes(text):
    """The changes of the tool's text: (kind, table, [image]), where an image
    maps a column number to (value text, type text)."""
    changes = []
    line = re.compile(rb"###   @(\d+)=(.*?)\s+/\* (.*) \*/$", re.S)
    for one in text.split(b"\n"):
        if not one.startswith(b"### ") or one.startswith(b"### Extra"):
            continue
        verb = re.match(rb"### (INSERT INTO|UPDATE|DELETE FROM) (`.*`)$", one)
        if verb:
            changes.append((VERBS[verb.group(1)], verb.group(2), []))
        elif one in (b"### SET", b"### WHERE"):
            changes[-1][2].append({})
        else:
            m = line.match(one)
            changes[-1][2][-1][int(m.group(1)) - 1] = (m.group(2), m.group(3))
    return changes


def compare(log, text):
    """The number of values that agree; an AssertionError where one does not."""
    reading = account.Log(log)
    places = [int(n) for n in re.findall(rb"^# at (\d+)$", text, re.M)]
    assert places == reading.places, "event places"
    assert len(places) == reading.events, "event count"

    def name(part):
        return log[part[0]:part[0] + part[1]]

    heads = re.findall(
        rb"^# at (\d+)\n#.*\t(Write|Update|Delete)_rows: table id (\d+)",
        text, re.M)
    ids = {int(p): (kind, int(n)) for p, kind, n in heads}
    told = tool_changes(text)
    assert len(told) == len(reading.changes), "change count"
    count = 0
    for k, (kind, table, images) in enumerate(told):
        five, own = reading.five(k), reading.changes[k]
        assert five[0] == kind, (k, "kind")
        verb = {30: b"Write", 31: b"Update", 32: b"Delete"}[kind]
        assert ids[five[1]] == (verb, reading.change(k)[5]), (k, "table id")
        assert table == b"`%s`.`%s`" % tuple(map(name, own.map.names)), k
        sides = [s for s in (0, 1) if (own.before, own.after)[s]]
        assert len(sides) == len(images), (k, "images")
        for side, image in zip(sides, images):
            for c in range(len(own.map.types)):
                answer = reading.value(k, side, c)
                assert (answer is None) == (c not in image), (k, side, c)
                if answer is None:
                    continue
                t, value = answer
                m = own.map.metadata[c]
                text_value, note = image[c]
                where = (k, side, c, text_value, answer)
                assert (b"is_null=1" in note) == (value is None), where
                if value is None:
                    assert text_value == b"NULL", where
                    count += 1
                    continue
                kind_name = BLOBS[m] if t == 252 else NAMES[t]
                assert note.startswith(kind_name), where
                if t not in (10, 13) and t not in account.INTEGERS:
                    assert b"meta=%d " % m in note, where
                if t in (15, 252):
                    assert unquoted(text_value) == name(value), where
                else:
                    shows = shown(log, t, m, value).encode()
                    assert text_value == shows, where + (shows,)
                count += 1
    return reading.events, len(told), count


def main(arguments):
    for log_name, text_name in zip(arguments[::2], arguments[1::2]):
        with open(log_name, "rb") as f:
            log = f.read()
        opener = gzip.open if text_name.endswith(".gz") else open
        with opener(text_name, "rb") as f:
            text = f.read()
        name = log_name.rsplit("/", 1)[-1]
        try:
            print("%s: %d events, %d changes, %d values agree"
                  % ((name,) + compare(log, text)))
        except account.Refused as r:
            print("%s: refused %d at %d" % (name, r.number, r.place))


if __name__ == "__main__":
    main(sys.argv[1:])
