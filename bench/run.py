#!/usr/bin/env python3
"""Times bspl run beside the same agents written plainly in Rust.

    bench/run.py [KEYS ..]

Relay, and a protocol of sixteen messages between two roles, are run with each number of workload keys (1000 and 10000),
without losses and with a tenth lost and one repeat: on one thread, and with 1, 2, 4 and 8 threads a role. A line a run:
the seconds of the clock and of processor time and the megabytes of memory of `bspl run NAME --brief --threads N` and of
bench/agents.rs with as many threads, each less the seconds of a run with one key, so that neither the verdict nor the
start counts; messages a second; and the ratios of the seconds. Both have to print the same world. The run of RUNS (3)
that takes least counts. Without rustc the peer is left out. BSPL names the program (crates/bspl/out/bspl).
"""
import shutil
import subprocess
import sys
import tempfile
from pathlib import Path

from measure import TOP, least, program

BSPL = program("bspl")
RELAY = (TOP / "examples/Relay.bspl").read_text()
PLANS = {"plain": "", "lossy": "loss 100\nrepeat 1\n"}
THREADS = [0, 1, 2, 4, 8]


def sixteen():
    """Two roles that answer each other sixteen times."""
    params = ["out ID key"] + [f"out p{n}" for n in range(1, 17)]
    lines = [f"  {'A -> B' if n % 2 else 'B -> A'}: m{n}[{'out' if n == 1 else 'in'} ID, "
             + (f"in p{n - 1}, " if n > 1 else "") + f"out p{n}]" for n in range(1, 17)]
    return "Sixteen {\n  roles A, B\n  parameters " + ", ".join(params) + "\n" + "\n".join(lines) + "\n}\n"


def world_of(out):
    """The lines from `world` on."""
    return out[out.index(b"world "):] if b"world " in out else out


def measure(command, text, keys, plan):
    """The run, with its world and with the seconds beyond those of one key."""
    part = lambda n: (text + f"%% agents\nkeys {n}\n{plan}").encode()
    start, run = (least(command, part(n), by="seconds") for n in (1, keys))
    beyond = lambda what: max(getattr(run, what) - getattr(start, what), 1e-6)
    return run._replace(out=world_of(run.out), seconds=beyond("seconds"), processor=beyond("processor"))


def sent(world):
    return sum(int(line.split()[3]) for line in world.splitlines() if line.startswith(b"message "))


def line(name, text, plan, keys, threads, peer):
    """The line of the protocol and the plan with these numbers."""
    run = measure([BSPL, "run", name, "--brief", "--threads", str(threads)], text, keys, PLANS[plan])
    shown = f"{name:8}{plan:6}{keys:6}{threads:4}{run.seconds:8.3f}{run.processor:8.3f}{run.megabytes:5.0f}"
    shown += f"{sent(run.out) / run.seconds:10.0f}"
    if peer:
        other = measure([str(peer), str(threads)], text, keys, PLANS[plan])
        shown += f"{other.seconds:8.3f}{other.processor:8.3f}{other.megabytes:5.0f}"
        shown += f"{run.seconds / other.seconds:7.2f}{run.processor / other.processor:7.2f}"
        shown += "" if other.out == run.out else "  the worlds differ"
    return shown


def built(folder):
    """The peer, if there is a compiler."""
    peer = Path(folder) / "agents"
    if not shutil.which("rustc"):
        print("rustc is missing, so the peer is left out")
        return None
    subprocess.run(["rustc", "-O", "-o", str(peer), str(TOP / "bench/agents.rs")], check=True)
    return peer


def main():
    numbers = [int(n) for n in sys.argv[1:]] or [1000, 10000]
    with tempfile.TemporaryDirectory() as folder:
        peer = built(folder)
        print(f"{'protocol':8}{'plan':>5}{'keys':>7}{'thr':>4}{'clock':>8}{'proc':>8}{'MB':>5}{'msg/s':>10}"
              f"{'clock':>8}{'proc':>8}{'MB':>5}{'ratio':>7}{'ratio':>7}")
        for name, text in [("Relay", RELAY), ("Sixteen", sixteen())]:
            for plan in PLANS:
                for keys in numbers:
                    for threads in THREADS:
                        print(line(name, text, plan, keys, threads, peer), flush=True)
    return 0


if __name__ == "__main__":
    sys.exit(main())
