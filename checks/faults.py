#!/usr/bin/env python3
"""Whether bspl ends as it has to when one of its requests for memory is refused.

    checks/faults.py [COMMAND ..]

For each command below each request of the program's own code is refused in turn, from the first one until a run makes
fewer. The run has to end with status 7 after a prefix of the output of the ample run. Where a thread cannot be started
the caller does its work, so with threads the whole answer of the ample run is right too. A line a command: how many
runs were refused a request, how many of them ended with 7 and how many with the answer, how many had written nothing
and how many something, and how many ended otherwise. Each of these is told with its request.

COMMAND is a word that begins the commands that are tried, as `verify`; else all are. BSPL names the program
(crates/bspl/out/bspl), and CC the C compiler (cc) of `refused.c`, the library that refuses. Without one nothing is
tried.
"""
import os
import shutil
import subprocess
import sys
import tempfile
from pathlib import Path
from typing import NamedTuple

sys.path.insert(0, str(Path(__file__).resolve().parent.parent / "bench"))
from measure import TOP, program  # noqa: E402

BSPL = program("bspl")
CC = os.environ.get("CC", "cc")
NO_MEMORY = 7
SHOWN = 5


class Run(NamedTuple):
    status: int
    out: bytes
    requests: int


class Tried(NamedTuple):
    command: str
    given: str
    has_threads: bool = False


def example(name, part=""):
    text = (TOP / f"examples/{name}.bspl").read_text()
    return text.rstrip("\n") + "\n" + part


def purchases(count):
    """A run of this many purchases, of ten events each."""
    lines = ["%% run", "run 1"]
    for key in range(1, count + 1):
        asked, known = f"ID={key} item=7", f"ID={key} item=7 address=9"
        for sent in (f"rfq {asked}", f"quote {asked} price=8", f"accept {asked} price=8 address=9 response=1",
                     f"ship {known}", f"deliver {known} outcome=2"):
            lines += [f"send {sent}", f"receive {sent}"]
    return "\n".join([*lines, "end", ""])


COMMANDS = [
    Tried("verify Purchase --brief", example("Purchase")),
    Tried("check Ping", example("Ping", "%% log\nlog 1 liveness\nstep 5 1 6 -3 7\nend\n")),
    Tried("replay Purchase", example("Purchase", purchases(10))),
    Tried("expand Top", example("Top")),
    Tried("run Relay --threads 2", example("Relay", "%% agents\nkeys 3\n"), has_threads=True),
    Tried("generate 2", "", has_threads=True),
]


def run(library, tried, refused):
    """A run in which the request of this number is refused, or none at 0."""
    reader, writer = os.pipe()
    env = dict(os.environ, LD_PRELOAD=library, REFUSE=str(refused), REPORT=str(writer))
    ran = subprocess.run([BSPL, *tried.command.split()], input=tried.given.encode(), capture_output=True, env=env,
                         pass_fds=[writer])
    os.close(writer)
    with os.fdopen(reader, "rb") as report:
        requests = report.read()
    return Run(ran.returncode, ran.stdout, int(requests) if requests else -1)


def is_right(tried, ample, found):
    """Whether a run that was refused a request ended as it has to."""
    if found.requests < 0:
        return False
    if found.status == NO_MEMORY:
        return ample.out.startswith(found.out)
    return tried.has_threads and found[:2] == ample[:2]


def refused_runs(library, tried, most):
    """The runs that were refused a request, from the first request on; at most this many."""
    runs = []
    for refused in range(1, most + 1):
        found = run(library, tried, refused)
        if 0 <= found.requests < refused:
            break
        runs.append(found)
    return runs


def try_command(library, tried):
    """How many runs of the command ended otherwise."""
    ample = run(library, tried, 0)
    if ample.out in (b"refused N1\n", b"") or ample.status == 3:
        print(f"{tried.command:26} is not supported")
        return 0
    if ample.requests < 0:
        print(f"{tried.command:26} did not tell how many requests it made")
        return 1
    runs = refused_runs(library, tried, 2 * ample.requests)
    wrong = [(n, found) for n, found in enumerate(runs, 1) if not is_right(tried, ample, found)]
    ended = [found for found in runs if found.status == NO_MEMORY]
    written = sum(1 for found in ended if found.out)
    print(f"{tried.command:26}{len(runs):8}{len(ended):8}{sum(1 for found in runs if found[:2] == ample[:2]):8}"
          f"{len(ended) - written:9}{written:10}{len(wrong):11}", flush=True)
    for n, found in wrong[:SHOWN]:
        print(f"  request {n}: status {found.status}, {len(found.out)} bytes of output")
    return len(wrong)


def main():
    missing = [what for what in (BSPL, CC) if not shutil.which(what)]
    for what in missing:
        print(f"{what} is missing, so nothing is tried")
    if missing:
        return 0
    asked = sys.argv[1:]
    with tempfile.TemporaryDirectory() as folder:
        library = str(Path(folder) / "refused.so")
        subprocess.run([CC, "-O1", "-shared", "-fPIC", "-o", library, str(TOP / "bench/refused.c")], check=True)
        print(f"{'command':26}{'refused':>8}{'with 7':>8}{'answer':>8}{'nothing':>9}{'a prefix':>10}{'otherwise':>11}")
        commands = [tried for tried in COMMANDS if not asked or tried.command.split()[0] in asked]
        wrong = sum(try_command(library, tried) for tried in commands)
    print(f"{wrong} ended otherwise")
    return 1 if wrong else 0


if __name__ == "__main__":
    sys.exit(main())
