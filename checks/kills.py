#!/usr/bin/env python3
"""Kills roles that keep a journal, tears what they wrote last, and gives them files that are none of theirs.

    checks/kills.py [KILLS]

- The seller of `Purchase` is killed KILLS (1000) times under load, and at each of its first CALLS (300) system calls:
  no line that was answered may be lost or kept twice, the order has to stay, and the role has to start again.
- Of the last commit of a journal each subset of the sectors that it wrote is left, for commits of up to SECTORS (10)
  sectors: the role has to start with the first lines.
- A journal of another protocol or role, one in use, a folder, a link to nothing, a line that was changed, a file that
  may not be written or grow: each has its refusal or its status, and the file is as it was.
- The three roles of `Purchase` play PURCHASES (1000) while two of them are killed every 0.3 s: `bspl audit` of their
  journals has to say that one legal run explains them.

BSPL_ROLE and BSPL name the programs (crates/bspl_role/out/bspl_role, crates/bspl/out/bspl). What is wrong is a line
each, and then the status is 1.
"""
import itertools
import os
import sys
import tempfile
from pathlib import Path

from kills import moments, purchases, refusals, torn
from kills.role import BSPL, ROLE
from measure import missing


def number(name, otherwise):
    return int(os.environ.get(name, otherwise))


def trials(folder, kills):
    numbers = itertools.count(1)
    yield from refusals.each(folder, numbers)
    yield from torn.each_subset(folder, numbers, number("SECTORS", 10))
    yield from moments.at_random(folder, kills, numbers)
    yield from moments.at_calls(folder, number("CALLS", 300), numbers)
    yield from purchases.played(folder, number("PURCHASES", 1000))


def main():
    if missing(ROLE, BSPL):
        sys.exit(f"first build {ROLE} and {BSPL}")
    kills = int(sys.argv[1]) if len(sys.argv) > 1 else 1000
    wrong = 0
    with tempfile.TemporaryDirectory() as scratch:
        folder = Path(scratch)
        folder.chmod(0o755)
        for fault in trials(folder, kills):
            print("WRONG:", fault, flush=True)
            wrong += 1
    print(f"{wrong} wrong")
    return 1 if wrong else 0


if __name__ == "__main__":
    sys.exit(main())
