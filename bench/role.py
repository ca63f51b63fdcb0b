#!/usr/bin/env python3
"""Times programs that keep a role behind lines of JSON: one in Python (examples/agents/role.py), one in Rust (role.rs).

    bench/role.py [LINES ..]

The seller of Purchase is asked LINES (10000 and 100000) lines over a tenth as many keys: of ten lines under a key two
are fresh receipts and two emissions; the others are repeats, values that differ, and emissions that are blocked. A line
a program and size: the seconds of the clock and of processor time, each less those of a run without lines; lines a
second; megabytes of memory; and the ratios of the lines a second to those of the other two programs. All have to give
the same replies. Then ALONE (5000) of the lines are asked one by one over pipes: the median and the slowest hundredth
of the time from a line's end to its reply, in microseconds; Python, which asks, has its share in it. The run of RUNS
(3) that takes least counts. Without rustc the program in Rust is left out. The third is bspl_role if it is built, or
the program that BSPL_ROLE names.
"""
import json
import os
import random
import shutil
import statistics
import subprocess
import sys
import tempfile
import time
from pathlib import Path

from measure import RUNS, TOP, missing, once, program

BSPL_ROLE = program("bspl_role")
ALONE = int(os.environ.get("ALONE", "5000"))
HEAD = (TOP / "examples/Purchase.bspl").read_bytes() + b"%% wire\n"


def receive(message, number, **values):
    return {"receive": {"message": message, "number": number, "stamp": 2 * number + 1, "values": values}}


def emit(message, key, *outs):
    return {"emit": {"key": [key], "message": message, "outs": outs}}


def ten(n):
    """The lines under the key of the number, in order."""
    key, item, price = str(n), f'"fig\\20{n % 7}"', str(40 + n % 50)
    rfq = receive("rfq", 2 * n, ID=key, item=item)
    bought = {"ID": key, "item": item, "address": f'"{n}\\20Hill\\20Road"', "response": '"yes"'}
    accept = receive("accept", 2 * n + 1, price=price, **bought)
    other = receive("accept", 2 * n + 1, price="99", **bought)
    reject = receive("reject", 2 * n + 2, ID=key, item=item, price=price, outcome='"none"', response='"no"')
    quote, ship = emit("quote", key, price), emit("ship", key)
    return [rfq, rfq, ship, quote, quote, accept, other, ship, accept, reject]


def lines(count):
    """So many lines: step by step, each step under all keys, in an order of its own."""
    chance, keys = random.Random(count), list(range(1, count // 10 + 1))
    asked = {n: ten(n) for n in keys}
    made = []
    for step in range(10):
        chance.shuffle(keys)
        made += [json.dumps(asked[n][step], separators=(",", ":")).encode() + b"\n" for n in keys]
    return made


def measured(command, folder, count):
    """The run that takes least, without the seconds of a run without lines."""
    least = lambda given: min((once([*command, "Purchase", "S"], folder / given) for _ in range(RUNS)), key=lambda run: run.seconds)
    start, run = least("0"), least(str(count))
    return run._replace(seconds=max(run.seconds - start.seconds, 1e-6), processor=max(run.processor - start.processor, 1e-6))


def waits(command):
    """The microseconds from each line's end to its reply."""
    child = subprocess.Popen([*command, "Purchase", "S"], stdin=subprocess.PIPE, stdout=subprocess.PIPE)
    asks, replies = child.stdin.fileno(), child.stdout.fileno()
    os.write(asks, HEAD)
    took = []
    for line in lines(10 * ALONE)[:ALONE]:
        begun = time.perf_counter_ns()
        os.write(asks, line)
        reply = os.read(replies, 65536)
        while not reply.endswith(b"\n"):
            reply = os.read(replies, 65536)
        took.append((time.perf_counter_ns() - begun) / 1000)
    child.stdin.close()
    child.wait()
    return took[100:]


def programs(folder):
    """The command of each program that there is."""
    found = {"Python": [sys.executable, str(TOP / "examples/agents/role.py")]}
    if shutil.which("rustc"):
        subprocess.run(["rustc", "-O", "-o", str(folder / "role"), str(TOP / "bench/role.rs")], check=True)
        found["Rust"] = [str(folder / "role")]
    else:
        print("rustc is missing, so the program in Rust is left out")
    if not missing(BSPL_ROLE):
        found = {Path(BSPL_ROLE).name: [BSPL_ROLE], **found}
    return found


def write_inputs(folder, counts):
    # Another process makes the inputs: the memory of this one would be counted as that of the programs.
    if not os.fork():
        for count in counts:
            (folder / str(count)).write_bytes(HEAD + b"".join(lines(count)))
        os._exit(0)
    os.wait()


def sizes(found, folder, counts):
    """Whether all programs gave the same replies."""
    print(f"{'program':12}{'lines':>8}{'clock':>8}{'proc':>8}{'lines/s':>10}{'MB':>6}{'/Python':>9}{'/Rust':>8}")
    same = True
    for count in counts:
        runs = {name: measured(command, folder, count) for name, command in found.items()}
        for name, run in runs.items():
            shown = f"{name:12}{count:8}{run.seconds:8.3f}{run.processor:8.3f}{count / run.seconds:10.0f}{run.megabytes:6.0f}"
            for other, width in (("Python", 9), ("Rust", 8)):
                shown += f"{runs[other].seconds / run.seconds:{width}.2f}" if other in runs else " " * width
            print(shown, flush=True)
        same = same and len({run.out for run in runs.values()}) == 1 and run.out.count(b"\n") == count
    return same


def main():
    counts = [int(count) for count in sys.argv[1:]] or [10000, 100000]
    with tempfile.TemporaryDirectory() as scratch:
        folder = Path(scratch)
        write_inputs(folder, [0, *counts])
        found = programs(folder)
        same = sizes(found, folder, counts)
        for name, command in found.items():
            took = sorted(waits(command))
            print(f"{name:12}a line alone: median {statistics.median(took):.1f} us, slowest hundredth {took[-len(took) // 100]:.1f} us")
    if not same:
        print("the replies differ")
    return 0 if same else 1


if __name__ == "__main__":
    sys.exit(main())
