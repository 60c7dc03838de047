#!/usr/bin/env python3
"""Holds the proved program to account.py on changed logs.

    fuzz.py SEED COUNT

Makes COUNT logs by changing stored ones: bytes set, put in and taken out,
events copied, their types and flags changed, the end cut off; nine in ten
then get right positions and checksums again, so that what lies behind the
framing is reached. The program evidence must print of each what account.py
says. Not part of the gate: in crates/evidence `rt run` first, which proves and
builds it (or `rt ci`).
"""

import collections
import os
import random
import struct
import subprocess
import sys
import tempfile
import zlib

import expect

PROGRAM = os.path.join(expect.ROOT, "crates", "evidence", "out", "evidence")
BYTES = [0, 1, 2, 3, 4, 7, 8, 15, 16, 30, 31, 32, 127, 128, 250, 251, 252,
         253, 254, 255]
TYPES = [2, 3, 4, 15, 16, 19, 19, 30, 31, 32, 33, 38, 20, 25, 39, 200]
BATCH = 400


def events(log):
    """Place and length of each event, as far as the lengths go."""
    at, found = 4, []
    while at + 19 <= len(log):
        length = struct.unpack_from("<I", log, at + 9)[0]
        if length < 19 or at + length > len(log):
            break
        found.append((at, length))
        at += length
    return found


def mend(log):
    """Positions and checksums made right."""
    found = events(log)
    if not found:
        return
    at, length = found[0]
    checksums = log[at + length - 5] == 1
    for at, length in found:
        struct.pack_into("<I", log, at + 13, at + length)
        if at == 4 or checksums:
            struct.pack_into("<I", log, at + length - 4,
                             zlib.crc32(bytes(log[at:at + length - 4])))


def change(log, rng):
    log = bytearray(log)
    for _ in range(rng.choice([1, 1, 1, 2, 3])):
        found = events(log)
        if not found:
            break
        at, length = rng.choice(found[1:] or found)
        if rng.random() < .1:
            at, length = found[0]
        inside = at + 19 + rng.randrange(max(1, length - 19))
        what = rng.random()
        if what < .45:
            i = at + rng.randrange(length)
            log[i] = rng.choice(BYTES + [rng.randrange(256),
                                         log[i] ^ 1 << rng.randrange(8)])
        elif what < .6:
            count = rng.choice([1, 2, 3, 8])
            log[inside:inside] = bytes(rng.randrange(256)
                                       for _ in range(count))
            struct.pack_into("<I", log, at + 9, length + count)
        elif what < .75:
            count = min(rng.choice([1, 1, 2, 4]), at + length - inside)
            del log[inside:inside + count]
            struct.pack_into("<I", log, at + 9, length - count)
        elif what < .85:
            place = rng.choice(found)[0]
            if place > 4:
                log[place:place] = log[at:at + length]
        elif what < .92:
            log[at + 4] = rng.choice(TYPES)
        elif what < .96:
            log[at + 17] ^= 0x80
        else:
            del log[rng.randrange(len(log)):]
    if rng.random() < .9:
        mend(log)
    return bytes(log)


def main(arguments):
    seed, count = map(int, arguments)
    rng = random.Random(seed)
    stored = [expect.read(expect.DATA, name) for name in expect.stored_logs()]
    stored = [log for log in stored if 85 < len(log) < 4096]
    tally, different = collections.Counter(), 0
    with tempfile.TemporaryDirectory() as folder:
        for _ in range(0, count, BATCH):
            logs = [change(rng.choice(stored), rng) for _ in range(BATCH)]
            wanted = b""
            for i, log in enumerate(logs):
                with open(os.path.join(folder, str(i)), "wb") as f:
                    f.write(log)
                lines = expect.lines(log)
                tally[" ".join(lines[0].split()[:2 if "ref" in lines[0]
                                                else 1])] += 1
                wanted += "\n".join(["== %d" % i] + lines + [""]).encode()
            names = list(map(str, range(BATCH)))
            wrote = subprocess.run([PROGRAM] + names, cwd=folder,
                                   stdout=subprocess.PIPE).stdout
            if wrote != wanted:
                for i, (a, b) in enumerate(zip(wrote.split(b"== "),
                                               wanted.split(b"== "))):
                    if a != b:
                        different += 1
                        name = "different-%d-%d.log" % (seed, different)
                        with open(name, "wb") as f:
                            f.write(logs[i - 1])
                        print("%s: %r, not %r" % (name, a[:80], b[:80]))
    print(", ".join("%d %s" % (n, name) for name, n in tally.most_common()))
    print("%d logs, %d different" % (sum(tally.values()), different))
    sys.exit(1 if different else 0)


if __name__ == "__main__":
    sys.dont_write_bytecode = True
    main(sys.argv[1:])
