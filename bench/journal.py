#!/usr/bin/env python3
"""Times a role that keeps a journal, beside SQLite, which keeps the same lines in a table.

    bench/journal.py [FOLDER]

The files are in a new folder of FOLDER (here), so that a disk is measured and no memory. Each line of the seller of
Purchase is a fresh receipt under a key of its own. Of each line of the table the least time of RUNS (3) runs counts:

- ALONE (3000) lines, each asked when the one before has its reply: lines a second with a journal, with one that is not
  synced, and without one; and commits a second of SQLite in WAL mode with synchronous FULL, by Python's sqlite3. The
  first over the last should be at least 3.
- PIPED (400000) lines at once: lines a second with a journal and without one, and the ratio, which should be at least
  0.7; and rows a second of SQLite in transactions of 400 rows.
- a start over a journal of EVENTS (1000000) events, four under a key: seconds and megabytes, which should be at most 4
  and 300.
- ALONE questions `enabled` of that role, each asked when the one before has its reply: the median and the slowest
  hundredth, in microseconds. The median should be at most 100.

BSPL_ROLE names the program (crates/bspl_role/out/bspl_role).
"""
import json
import os
import sqlite3
import statistics
import subprocess
import sys
import tempfile
import time
from pathlib import Path

from measure import RUNS, TOP, missing, once, program

ROLE = program("bspl_role")
ALONE = int(os.environ.get("ALONE", "3000"))
PIPED = int(os.environ.get("PIPED", "400000"))
EVENTS = int(os.environ.get("EVENTS", "1000000"))
ROWS = 400
OPENING = (TOP / "examples/Purchase.bspl").read_bytes() + b"\n%% wire\n"


def rfq(n):
    """The line by which the seller receives the request of the number."""
    values = {"ID": str(n), "item": '"fig"'}
    asked = {"receive": {"message": "rfq", "number": n, "stamp": n, "values": values}}
    return json.dumps(asked, separators=(",", ":")).encode() + b"\n"


def four(n):
    """The lines of four events under the key of the number."""
    values = {"ID": str(n), "item": '"fig"', "price": "40", "address": '"Hill"', "response": '"yes"'}
    accept = {"receive": {"message": "accept", "number": n, "stamp": n, "values": values}}
    quote, ship = ({"emit": {"key": [str(n)], "message": name, "outs": outs}} for name, outs in (("quote", ["40"]), ("ship", [])))
    return rfq(n) + b"".join(json.dumps(asked, separators=(",", ":")).encode() + b"\n" for asked in (quote, accept, ship))


def enabled(n):
    return b'{"enabled":{"key":["%d"]}}\n' % n


class Alone:
    """A role that is asked a line at a time."""

    def __init__(self, options):
        command = [ROLE, "Purchase", "S", *options]
        self.process = subprocess.Popen(command, stdin=subprocess.PIPE, stdout=subprocess.PIPE, bufsize=0)
        self.asks, self.replies = self.process.stdin.fileno(), self.process.stdout.fileno()
        os.write(self.asks, OPENING)

    def seconds(self, line):
        begun = time.perf_counter()
        os.write(self.asks, line)
        reply = os.read(self.replies, 65536)
        while not reply.endswith(b"\n"):
            reply += os.read(self.replies, 65536)
        return time.perf_counter() - begun

    def end(self):
        self.process.stdin.close()
        self.process.stdout.close()
        self.process.wait()


def alone(options):
    """Lines a second, each asked alone. The first one, which waits for the opening, does not count."""
    role = Alone(options)
    role.seconds(rfq(0))
    took = sum(role.seconds(rfq(n)) for n in range(1, ALONE + 1))
    role.end()
    return ALONE / took


def piped(options, given, without):
    """Lines a second of those at once, without the seconds of an input that has none."""
    run = once([ROLE, "Purchase", "S", *options], given)
    return PIPED / max(run.seconds - without, 1e-6)


def table(path):
    path.unlink(missing_ok=True)
    base = sqlite3.connect(path, isolation_level=None)
    base.execute("PRAGMA journal_mode=WAL")
    base.execute("PRAGMA synchronous=FULL")
    base.execute("CREATE TABLE lines (number INTEGER PRIMARY KEY, line BLOB)")
    return base


def rows(path, count, each):
    """Rows a second, in transactions of so many."""
    base = table(path)
    made = [(n, rfq(n)) for n in range(count)]
    begun = time.perf_counter()
    for first in range(0, count, each):
        base.execute("BEGIN")
        base.executemany("INSERT INTO lines VALUES (?, ?)", made[first:first + each])
        base.execute("COMMIT")
    took = time.perf_counter() - begun
    base.close()
    return count / took


def best(measured):
    return max(measured() for _ in range(RUNS))


def fresh(path):
    path.unlink(missing_ok=True)
    return ["--journal", str(path)]


def alone_table(folder):
    kept = best(lambda: alone(fresh(folder / "alone")))
    unsynced = best(lambda: alone([*fresh(folder / "unsynced"), "--no-sync"]))
    bare = best(lambda: alone([]))
    commits = best(lambda: rows(folder / "base", ALONE, 1))
    print(f"a line alone: {kept:.0f} a second, {unsynced:.0f} not synced, {bare:.0f} without a journal; SQLite {commits:.0f}; "
          f"ratio {kept / commits:.2f} (at least 3)", flush=True)


def piped_table(folder):
    given = folder / "piped.lines"
    given.write_bytes(OPENING + b"".join(map(rfq, range(PIPED))))
    start = min(once([ROLE, "Purchase", "S"], OPENING).seconds for _ in range(RUNS))
    kept = best(lambda: piped(fresh(folder / "piped"), given, start))
    bare = best(lambda: piped([], given, start))
    commits = best(lambda: rows(folder / "base", PIPED, ROWS))
    print(f"piped: {kept:.0f} a second (at least 250000), {bare:.0f} without a journal, ratio {kept / bare:.2f} (at least 0.7); "
          f"SQLite, {ROWS} rows a transaction: {commits:.0f}", flush=True)


def start_table(folder):
    """Makes a journal of all events, starts a role over it, and asks it."""
    journal, given = folder / "events", folder / "events.lines"
    with given.open("wb") as lines:
        lines.write(OPENING)
        for n in range(EVENTS // 4):
            lines.write(four(n))
    once([ROLE, "Purchase", "S", "--journal", str(journal), "--no-sync"], given)
    run = min((once([ROLE, "Purchase", "S", "--journal", str(journal)], OPENING) for _ in range(RUNS)), key=lambda it: it.seconds)
    print(f"a start with {EVENTS} events: {run.seconds:.2f} s (at most 4), {run.megabytes:.0f} MB (at most 300); "
          f"{journal.stat().st_size / EVENTS:.0f} bytes of journal an event", flush=True)
    role = Alone(["--journal", str(journal)])
    role.seconds(enabled(0))
    took = sorted(1e6 * role.seconds(enabled(7 * n % (EVENTS // 4))) for n in range(ALONE))
    role.end()
    print(f"enabled, alone: median {statistics.median(took):.0f} us (at most 100), slowest hundredth {took[-ALONE // 100]:.0f} us")


def main():
    if missing(ROLE):
        sys.exit(f"first build {ROLE}")
    with tempfile.TemporaryDirectory(dir=sys.argv[1] if len(sys.argv) > 1 else ".") as scratch:
        folder = Path(scratch)
        alone_table(folder)
        piped_table(folder)
        start_table(folder)


if __name__ == "__main__":
    main()
