#!/usr/bin/env python3
"""What the programs must write of the stored logs, by account.py.

    expect.py            writes crates/evidence/args and stdout, and
                         crates/readlog/stdout
    expect.py --check    says what of them is not as account.py has it

The check also makes the logs of data/made anew (make_logs.py) and compares
them, holds account.py to the answer that each was made with, to alike answers
of each longer log, and to what the server's own tool printed of the logs of
data/real that are accepted.
"""

import gzip
import os
import sys

import account
import compare
import make_logs

# of a log longer than this only what readlog prints
ASKED = 32768

ROOT = os.path.dirname(os.path.dirname(os.path.abspath(__file__)))
EVIDENCE = os.path.join(ROOT, "crates", "evidence")
DATA = os.path.join(EVIDENCE, "data")


def read(*names):
    with open(os.path.join(*names), "rb") as f:
        return f.read()


def stored_logs():
    """Their names below data/, in order."""
    return ["%s/%s" % (folder, name) for folder in ("made", "real")
            for name in sorted(os.listdir(os.path.join(DATA, folder)))]


def lines(log):
    """What readlog prints, Listing with other buffers, and every answer."""
    some = account.printed(log)
    if len(log) <= ASKED:
        some += account.listing_lines(log) + account.question_lines(log)
    return some


def expected():
    """The files that follow from the stored logs."""
    names = stored_logs()
    out = []
    for name in names:
        out += ["== " + name] + lines(read(DATA, name))
    program = account.printed(read(ROOT, "crates", "readlog", "stdin"))
    text = {"crates/evidence/args": names, "crates/evidence/stdout": out,
            "crates/readlog/stdout": program}
    return {name: "".join(line + "\n" for line in some).encode()
            for name, some in text.items()}


def told(log):
    """What a log's changes are, places left out."""
    reading = account.Log(log)

    def plain(part):
        return log[part[0]:part[0] + part[1]]

    def cell(k, side, column):
        try:
            answer = reading.value(k, side, column)
        except account.Refused as r:
            return (r.number, r.place)
        if answer and answer[1] and answer[0] in (15, 252):
            return (answer[0], plain(answer[1]))
        return answer

    changes = []
    for k in range(len(reading.changes)):
        answer = reading.change(k)
        changes.append([answer[0], [n > 0 for n in answer[1:5]], answer[5:7],
                        list(map(plain, answer[7:])),
                        [cell(k, side, c) for side in range(3)
                         for c in range(answer[6] + 1)]])
    return changes


def faults():
    make_logs.make()
    made = make_logs.LOGS
    if sorted(made) != sorted(os.listdir(os.path.join(DATA, "made"))):
        yield "data/made has other files than make_logs.py makes"
    for name, (log, answer) in made.items():
        try:
            if read(DATA, "made", name) != log:
                yield "data/made/%s is not as make_logs.py makes it" % name
        except OSError:
            yield "data/made/%s is missing" % name
        if account.printed(log)[0] != answer:
            yield "account.py on %s: %s, made as %s" % (
                name, account.printed(log)[0], answer)
    for name, (log, answer) in made.items():
        if name.startswith("longer-") and answer.startswith("accepted"):
            if told(log) != told(made["longer-none.log"][0]):
                yield "%s is not answered like longer-none.log" % name
    if read(ROOT, "crates", "readlog", "stdin") != made["source-004.log"][0]:
        yield "crates/readlog/stdin is not 004's log"
    for name, text in expected().items():
        if read(ROOT, name) != text:
            yield "%s is not as account.py has it" % name
    for name in sorted(os.listdir(os.path.join(DATA, "real"))):
        log = read(DATA, "real", name)
        if account.printed(log)[0].startswith("accepted"):
            text = read(EVIDENCE, "mysqlbinlog", name + ".txt.gz")
            try:
                compare.compare(log, gzip.decompress(text))
            except AssertionError as difference:
                yield "account.py and mysqlbinlog on %s: %s" % (
                    name, difference)


def main(arguments):
    if arguments == ["--check"]:
        found = list(faults())
        for fault in found:
            print("expect.py: " + fault)
        if found:
            sys.exit(1)
        print("expect.py: %d logs, as accounted for" % len(stored_logs()))
    else:
        for name, text in expected().items():
            with open(os.path.join(ROOT, name), "wb") as f:
                f.write(text)


if __name__ == "__main__":
    sys.dont_write_bytecode = True
    main(sys.argv[1:])
