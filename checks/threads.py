#!/usr/bin/env python3
"""Whether agents in threads answer as they have to, over many runs.

    checks/threads.py [RUNS]

Each protocol below is run RUNS times (100) with 8 threads a role, by other seeds, with losses and repeats.

- Of Relay, and of a protocol of eight roles, the table does not depend on the order in which messages arrive. Each run
  with KEYS (10000) keys has to print the text of `--threads 0`, to the byte.
- Of Race the table depends on it: one role answers what comes first. Each row has to be one that some order gives, and
  over all runs more than one has to occur. This one has a tenth of the keys, and nothing is lost.

Then all is run in three other ways.

- Where no thread can be had the caller does the work of all: under a limit of one process for a user without rights,
  each run has to print the text of `--threads 0`. This takes root.
- Under helgrind, and under drd, with HELD (20) keys and 2 threads a role: what they report is counted. The program takes
  its locks by system calls of its own, which these tools do not know as locks. Without valgrind this is left out.

BSPL names the program (crates/bspl/out/bspl). The last line says how many runs were wrong.
"""
import os
import re
import resource
import shutil
import subprocess
import sys
import tempfile
from pathlib import Path

sys.path.insert(0, str(Path(__file__).resolve().parent.parent / "bench"))
from fair import fair  # noqa: E402
from measure import TOP, program  # noqa: E402

BSPL = program("bspl")
KEYS = int(os.environ.get("KEYS", "10000"))
HELD = int(os.environ.get("HELD", "20"))
SEEDS = 10
NOBODY = 65534
RELAY = (TOP / "examples/Relay.bspl").read_text()
RACE = """Race {
  roles B, C, A
  parameters out ID key, out k, out u, out v, out w
  A -> C: s[out ID, out k]
  A -> B: a[in ID, in k, out u]
  C -> B: c[in ID, in k, out v]
  B -> A: fromu[in ID, in u, out w]
  B -> A: fromv[in ID, in v, out w]
}
"""
# What ends the rows of Race: B answers A's message, or C's.
ANSWERS = {b"04": "A's message first", b"05": "C's message first"}


def run(name, text, threads, before=(), **how):
    """The status, the output and the errors of one run."""
    command = [*before, BSPL, "run", name, "--brief", "--threads", str(threads)]
    ran = subprocess.run(command, input=text.encode(), capture_output=True, **how)
    return ran.returncode, ran.stdout, ran.stderr


def agents(keys, seed, lossy=True):
    return f"%% agents\nkeys {keys}\nseed {seed}\n" + ("loss 100\nrepeat 1\n" if lossy else "")


def plain(name, text, keys, seeds, lossy=True):
    """For each seed the input, and what it gives on one thread."""
    inputs = [text + agents(keys, seed, lossy) for seed in range(seeds)]
    return [(given, run(name, given, 0)[:2]) for given in inputs]


def same(name, text, runs):
    """How many runs did not print the text of one thread."""
    wanted = plain(name, text, KEYS, SEEDS)
    wrong = 0
    for n in range(runs):
        given, answer = wanted[n % SEEDS]
        wrong += run(name, given, 8)[:2] != answer
    print(f"{name}: {runs} runs with 8 threads a role, {wrong} unlike one thread", flush=True)
    return wrong


def race_rows(out):
    """For each row of Race what its order was, or None."""
    rows = [line.split(b" ") for line in out.splitlines() if line.startswith(b"row ")]
    for n, row in enumerate(rows, 1):
        known = [b"row", b"%d" % n, b"ID=%d" % n, b"k=%d01" % n, b"u=%d02" % n, b"v=%d03" % n]
        yield ANSWERS.get(row[6].removeprefix(b"w=%d" % n)) if row[:6] == known and len(row) == 7 else None


def races(runs):
    """How many runs of Race had a wrong row, or all of one kind; and how often each order occurred."""
    keys, counts, wrong = KEYS // 10, dict.fromkeys(ANSWERS.values(), 0), 0
    for seed in range(runs):
        status, out, _ = run("Race", RACE + agents(keys, seed, lossy=False), 8)
        rows = list(race_rows(out))
        for row in filter(None, rows):
            counts[row] += 1
        wrong += status != 0 or None in rows or len(rows) != keys
    told = ", ".join(f"{what} {count} times" for what, count in counts.items())
    print(f"Race: {runs} runs with 8 threads a role, {wrong} with a row that no order gives; {told}", flush=True)
    return wrong + (0 in counts.values())


def drop_rights():
    """The process becomes one of a user that may have no other."""
    resource.setrlimit(resource.RLIMIT_NPROC, (1, 1))
    os.setgid(NOBODY)
    os.setuid(NOBODY)


def without_threads(folder):
    """How many runs without any thread did not print the text of one thread."""
    global BSPL
    if os.getuid() != 0:
        print("this is not run as root, so no limit of threads is tried")
        return 0
    copy = Path(folder) / "bspl"
    shutil.copy(BSPL, copy)
    Path(folder).chmod(0o755)
    copy.chmod(0o755)
    own, BSPL, wrong = BSPL, str(copy), 0
    for name, text in [("Relay", RELAY), ("Fair", fair())]:
        for given, answer in plain(name, text, KEYS // 10, 1):
            for threads in (1, 2, 8):
                wrong += run(name, given, threads, preexec_fn=drop_rights)[:2] != answer
    BSPL = own
    print(f"no thread can be had: 6 runs, {wrong} unlike one thread", flush=True)
    return wrong


def under(tool):
    """How many runs under a tool that looks for races did not print the text of one thread; and what it reported."""
    wrong = 0
    for name, text in [("Relay", RELAY), ("Fair", fair())]:
        for given, answer in plain(name, text, HELD, 1):
            *found, errors = run(name, given, 2, ("valgrind", f"--tool={tool}"))
            wrong += tuple(found) != answer
            summary = re.findall(rb"ERROR SUMMARY: (\d+) errors from (\d+) contexts", errors)
            told = [f"{a.decode()} reports in {b.decode()} places" for a, b in summary] or ["no summary"]
            print(f"{name} under {tool}: {told[0]}", flush=True)
    return wrong


def main():
    runs = int(sys.argv[1]) if len(sys.argv) > 1 else 100
    wrong = same("Relay", RELAY, runs) + same("Fair", fair(), runs) + races(runs)
    with tempfile.TemporaryDirectory() as folder:
        wrong += without_threads(folder)
    if shutil.which("valgrind"):
        wrong += under("helgrind") + under("drd")
    else:
        print("valgrind is missing, so nothing looks for races")
    print(f"{wrong} wrong")
    return 1 if wrong else 0


if __name__ == "__main__":
    sys.exit(main())
