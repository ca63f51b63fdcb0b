#!/usr/bin/env python3
"""Times bspl verify beside minisat on the same formulas, and beside another build of the program.

    bench/verify.py [FOLDER ..]

Each .bspl file of the folders (examples/) is taken with the protocol of the file's name, and then four protocols of 63
or 64 messages that are made here: a chain of two-way choices, eight purchases in a row, a random one, and one whose
messages all wait for one another. A line a protocol: its messages, the clauses of its safety formula, seconds of
processor time of `minisat -no-pre` on both printed formulas from files, seconds and megabytes of `bspl verify NAME
--brief`, which decides both, and the ratio of the seconds. If OLD names another build of the program, its seconds and
the ratio to them follow; then each log that one of the two builds prints has to be accepted by the other one, and each
run that refutes has to be found legal and in conflict, or at rest, by the other one. What differs is said, and the
status is 1. The least of RUNS (5) runs counts. BSPL and BSPL_MORE name the programs (crates/bspl/out/bspl,
crates/bspl_more/out/bspl_more).
"""
import os
import random
import subprocess
import sys
import tempfile
from pathlib import Path

from measure import given_protocols, lacks, least, program, status_after

BSPL, MORE = program("bspl"), program("bspl_more")
OLD = os.environ.get("OLD")
RUNS = int(os.environ.get("RUNS", "5"))


def protocol(name, roles, params, messages):
    """The text of a protocol whose first parameter is its key, and all of whose parameters are public."""
    declared = ", ".join(f"out {p}" + ("" if i else " key") for i, p in enumerate(params))
    return "\n".join([f"{name} {{", "  roles " + ", ".join(roles), "  parameters " + declared, *messages, "}", ""])


def choices(stages=32):
    """A chain of two-way choices."""
    lines = []
    for i in range(1, stages + 1):
        way = "A -> B" if i % 2 else "B -> A"
        carried = "out ID, out x1" if i == 1 else f"in ID, in x{i - 1}, out x{i}"
        lines += [f"  {way}: {answer}{i}[{carried}]" for answer in ("yes", "no")]
    return protocol("Choices", ["A", "B"], ["ID"] + [f"x{i}" for i in range(1, stages + 1)], lines)


def deals(count=8):
    """Purchases, each of which begins when the one before it is closed."""
    params, lines = ["ID"], []
    for i in range(1, count + 1):
        begin = "out ID" if i == 1 else f"in ID, in closed{i - 1}"
        params += [f"{p}{i}" for p in ("item", "price", "address", "response", "outcome", "thanks", "closed")]
        lines += [
            f"  B -> S: rfq{i}[{begin}, out item{i}]",
            f"  S -> B: quote{i}[in ID, in item{i}, out price{i}]",
            f"  B -> S: accept{i}[in ID, in item{i}, in price{i}, out address{i}, out response{i}]",
            f"  B -> S: reject{i}[in ID, in item{i}, in price{i}, out address{i}, out outcome{i}, out response{i}]",
            f"  S -> Shipper: ship{i}[in ID, in item{i}, in address{i}]",
            f"  Shipper -> B: deliver{i}[in ID, in item{i}, in address{i}, out outcome{i}]",
            f"  B -> S: thank{i}[in ID, in outcome{i}, out thanks{i}]",
            f"  S -> B: close{i}[in ID, in thanks{i}, out closed{i}]",
        ]
    return protocol("Deals", ["B", "S", "Shipper"], params, lines)


def randomly(messages=64, params=32, seed=1):
    """Messages with two or three parameters beside the key, each mostly one that an earlier message has."""
    rng = random.Random(seed)
    roles = [f"R{i}" for i in range(8)]
    names, lines, seen = [f"p{i}" for i in range(params)], [], []
    for i in range(messages):
        sender, receiver = rng.sample(roles, 2)
        fresh = names[len(seen)] if len(seen) < params and (not seen or rng.random() < 0.6) else None
        carried = [f"in {p}" for p in rng.sample(seen, min(len(seen), rng.randint(1, 2)))]
        carried.append(f"out {fresh or rng.choice(seen)}")
        carried = list({c.split()[1]: c for c in carried}.values())
        seen += [fresh] if fresh else []
        lines.append(f"  {sender} -> {receiver}: m{i}[{'in' if i else 'out'} ID, {', '.join(carried)}]")
    return protocol("Random", roles, ["ID", *names], lines)


def waiting(messages=63):
    """A circle of messages, each of which needs what the one before it produces."""
    lines = [f"  {'AB'[i % 2]} -> {'BA'[i % 2]}: m{i}[{'out' if i == 0 else 'in'} ID, in q{i - 1 if i else messages - 1},"
             f" out q{i}]" for i in range(messages)]
    return protocol("Waiting", ["A", "B"], ["ID", *(f"q{i}" for i in range(messages))], lines)


def long_protocols():
    """The names and the texts of the four protocols of 63 or 64 messages."""
    return [("Choices", choices()), ("Deals", deals()), ("Random", randomly()), ("Waiting", waiting())]


def solved(name, text, folder):
    """The messages and clauses of the safety formula, and the seconds of minisat on both formulas."""
    seconds, shown = 0, None
    for kind in ("safety", "liveness"):
        path = Path(folder) / "formula.cnf"
        with open(path, "wb") as sink:
            subprocess.run([MORE, "formula", name, kind], input=text, stdout=sink)
        with open(path, "rb") as formula:
            first = formula.readline()
            if first.startswith(b"refused"):
                return first.decode().strip(), None, None
            # formulas are long, and what this script holds would count as memory of what it starts
            words = first.split()
            messages = 0
            while words[:1] == [b"c"]:
                messages += words[2:3] == [b"received"] and len(words) == 4
                words = formula.readline().split()
        seconds += least(["minisat", "-no-pre", "-verb=0", str(path), "/dev/null"], runs=RUNS).processor
        shown = shown or (messages, int(words[3]))
    return *shown, seconds


def blocks(out, first):
    """The blocks of the output that begin with this word and end with the line `end`."""
    found, lines = [], out.splitlines(keepends=True)
    while lines:
        if lines[0].startswith(first):
            last = lines.index(b"end\n")
            found.append(b"".join(lines[: last + 1]))
        lines = lines[1:]
    return found


def accepted(name, text, maker, judge):
    """What the judge says against the logs and the runs that the maker prints."""
    out = subprocess.run([maker, "verify", name], input=text, capture_output=True).stdout
    faults = []
    if b"undecided" not in out:
        for log in blocks(out, b"log "):
            said = subprocess.run([judge, "check", name], input=text + b"%% log\n" + log, capture_output=True).stdout
            faults += [] if said.startswith(b"accepted") else [f"{name}: {judge} says {said.decode().strip()}"]
    for run in blocks(out, b"run "):
        said = subprocess.run([judge, "replay", name], input=text + b"%% run\n" + run, capture_output=True).stdout
        if not (said.startswith(b"legal") and (b"conflict" in said or b"quiet" in said)):
            faults.append(f"{name}: {judge} says {said.decode().splitlines()[:1]}")
    return faults


def row(name, text, folder):
    """Prints the line of a protocol, and gives what differs."""
    messages, clauses, seconds = solved(name, text, folder)
    if clauses is None:
        print(f"{name:24}{messages}")
        return []
    run = least([BSPL, "verify", name, "--brief"], text, runs=RUNS)
    took = run.processor
    line = f"{name:24}{messages:>9}{clauses:>9}{seconds:9.3f}{took:9.3f}{run.megabytes:6.0f}{took / max(seconds, 1e-4):8.2f}"
    if OLD is None:
        print(line, flush=True)
        return []
    before = least([OLD, "verify", name, "--brief"], text, runs=RUNS).processor
    print(f"{line}{before:9.3f}{took / max(before, 1e-4):8.2f}", flush=True)
    return accepted(name, text, BSPL, OLD) + accepted(name, text, OLD, BSPL)


def main():
    if lacks([MORE, BSPL], ["minisat"]):
        return 1
    print(f"{'protocol':24}{'messages':>9}{'clauses':>9}{'minisat':>9}{'verify':>9}{'MB':>6}{'ratio':>8}"
          + (f"{'old':>9}{'ratio':>8}" if OLD else ""))
    texts = given_protocols(sys.argv[1:]) + [(name, text.encode()) for name, text in long_protocols()]
    with tempfile.TemporaryDirectory() as folder:
        return status_after([fault for name, text in texts for fault in row(name, text, folder)])


if __name__ == "__main__":
    sys.exit(main())
