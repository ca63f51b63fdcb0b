#!/usr/bin/env python3
"""Stops durable stores at each call of their disks, tears what they write, and looks at what a start then finds.

    checks/stops.py [PROTOCOL ..]

Of Relay, of Purchase and of a protocol with sixteen messages (Relay Purchase Sixteen), under two keys, each role plays
its events over a StopDisk that stops at call 1, 2, .. until no call is left, and leaves 0, 1 or 255 where nothing was
synced. After each stop the store is spent; a store that starts again has the acknowledged events, or these and the one
whose call was cut short, and goes on to the end. Then each entry is torn: with its gate closed it has any of its
bytes, in each subset if at most ten are not 0, else a thousand times at random; with its body written the gate has
each of the 256 bytes. A start has to find the entries before it, and this one too exactly if its gate is 1. The lines
count what was found; `WRONG` is an error.

The program (stops.rattle) is tried and not proved, in a copy of the repository (BUILT, or a folder among the temporary
files), and takes minutes for each protocol. SECONDS_EACH (600) is the most that the checked program may take.
"""
import os
import sys
from pathlib import Path

HERE = Path(__file__).resolve().parent
sys.path.insert(0, str(HERE.parent / "bench"))
from rattle_build import add_crate, copy_crates, run  # noqa: E402

SECONDS = os.environ.get("SECONDS_EACH", "600")
USES = """bspl_parser bspl_types durable_store list_base local_store program_frame protocol_expand
role_journal stamped_history""".split()


def main():
    copy_crates()
    folder = add_crate("journal_stops", HERE / "stops.rattle", USES)
    wrong = False
    for name in sys.argv[1:] or ["Relay", "Purchase", "Sixteen"]:
        status, out, err = run(folder, "try", "--seconds", SECONDS, "--", name)
        print(out or err, end="", flush=True)
        wrong = wrong or status != 0 or "WRONG" in out or not out
    return 1 if wrong else 0


if __name__ == "__main__":
    sys.exit(main())
