#!/usr/bin/env python3
"""Times a durable store on a disk in memory beside a store alone, and beside SQLite.

    bench/durable.py [EVENTS ..]

A program in Rattle (durable.rattle), which is proved and built in a copy of the repository (BUILT, or a folder among the
temporary files), lets the middle role of Relay take EVENTS (20000 and 100000) events, half of them receipts and half emissions, each
half under keys of their own: in a store alone, and in a durable store over a MemDisk; and it starts a store from the
disk that then holds them. Before each call the program asks the store whether it may be made, in both. A program in C
(sqlite.c) puts as many rows into a table, each in a transaction of its own, with the rollback journal in memory and
`synchronous` full, in a file in memory (/dev/shm) and in a database without a file. A line a size: the nanoseconds of
an event, the events a second, and the ratios to the store alone; at last the ratios of the sizes, which say whether an
event costs more where more is held. The run of RUNS (3) that takes least counts. Without gcc or SQLite's header
(libsqlite3-dev) SQLite is left out.
"""
import os
import subprocess
import sys
import tempfile
from pathlib import Path

from measure import RUNS, TOP
from rattle_build import built

USES = """bspl_parser bspl_types durable_store list_base local_store program_frame protocol_expand
role_journal stamped_history""".split()
WHAT = ["store", "durable", "start", "SQLite", "no file"]


def least(command):
    """The least of each number that the runs print."""
    runs = [list(map(int, subprocess.run(command(), capture_output=True, check=True).stdout.split())) for _ in range(RUNS)]
    return list(map(min, zip(*runs)))


def compiled(folder):
    """The program with SQLite, if it can be compiled."""
    program = folder / "sqlite"
    tried = subprocess.run(["gcc", "-O2", "-o", str(program), str(TOP / "bench/sqlite.c"), "-lsqlite3"], capture_output=True)
    if tried.returncode:
        print("SQLite cannot be compiled with, and is left out")
        return None
    return program


def fresh(program, file, events):
    """The command that puts rows into a new file."""
    file.unlink(missing_ok=True)
    return [str(program), str(file), str(events)]


def measured(speed, sqlite, events, folder):
    """The nanoseconds of an event in each way."""
    taken = least(lambda: [str(speed), str(events // 2)])
    if sqlite:
        shared = Path("/dev/shm" if Path("/dev/shm").is_dir() else folder) / f"bspl-bench-{os.getpid()}"
        taken += least(lambda: fresh(sqlite, shared, events)) + least(lambda: [str(sqlite), ":memory:", str(events)])
        shared.unlink()
    return [nanoseconds / events for nanoseconds in taken]


def main():
    sizes = [int(n) for n in sys.argv[1:]] or [20000, 100000]
    speed = built("journal_speed", TOP / "bench/durable.rattle", USES)
    with tempfile.TemporaryDirectory() as scratch:
        folder = Path(scratch)
        sqlite = compiled(folder)
        taken = {events: measured(speed, sqlite, events, folder) for events in sizes}
    print(f"{'events':>8} {'':12}{'ns/event':>10}{'events/s':>12}{'/store':>8}")
    for events, times in taken.items():
        for what, each in zip(WHAT, times):
            print(f"{events:8} {what:12}{each:10.0f}{1e9 / each:12.0f}{each / times[0]:8.2f}")
        print(f"{events:8} a start of all takes {times[2] * events / 1e9:.3f} s")
    few, many = taken[sizes[0]], taken[sizes[-1]]
    print("from", sizes[0], "to", sizes[-1], "events:", ", ".join(f"{what} {b / a:.2f}" for what, a, b in zip(WHAT, few, many)))
    return 0


if __name__ == "__main__":
    sys.exit(main())
