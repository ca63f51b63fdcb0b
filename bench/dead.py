#!/usr/bin/env python3
"""Times `bspl dead` beside minisat on the same formulas.

    bench/dead.py [FOLDER ..]

Each .bspl file of the folders (examples/) is taken with the protocol of the file's name, and then a protocol of 64
messages that is made here, of which 16 wait for one another and can never be sent. A line a protocol: its messages and
how many of them are dead, the clauses of one message's formula, and seconds of processor time: of `bspl_more formula
NAME dead M` for all messages M together, of `minisat` on these formulas from files, and of `bspl dead NAME --brief`, which
answers for all messages in one call; then the ratio of the last two. The least of RUNS (3) runs counts. Answers that
differ are told, and the status is 1. BSPL and BSPL_MORE name the programs (crates/bspl/out/bspl,
crates/bspl_more/out/bspl_more).
"""
import os
import shutil
import sys
import tempfile
from pathlib import Path

from measure import TOP, least, missing, program

BSPL, MORE = program("bspl"), program("bspl_more")


def long_protocol(live=48, waiting=16):
    """A chain of messages, each of which needs what the one before it produces, and a circle of others."""
    links = [f"  {'AB'[i % 2]} -> {'BA'[i % 2]}: m{i}[{'in' if i else 'out'} ID, "
             + (f"in p{i - 1}, " if i else "") + f"out p{i}]" for i in range(live)]
    circle = [f"  {'AB'[i % 2]} -> {'BA'[i % 2]}: w{i}[in ID, in q{(i - 1) % waiting}, out q{i}]" for i in range(waiting)]
    names = [f"p{i}" for i in range(live)] + [f"q{i}" for i in range(waiting)]
    # 64 parameters at most, the key among them: the last one of the chain is produced by nobody else
    private = ", ".join(name for name in names if name != f"p{live - 1}")
    text = ["Long {", "  roles A, B", "  parameters out ID key", f"  private {private}"]
    links[-1] = links[-1].replace(f", out p{live - 1}]", "]")
    return "\n".join([*text, *links, *circle, "}"]) + "\n"


def row(name, text, folder):
    """Prints the line of a protocol, and says whether the answers agree."""
    run = least([BSPL, "dead", name, "--brief"], text)
    took, out = run.processor, run.out
    answers = [line.split() for line in out.decode().splitlines() if line.startswith("message ")]
    if not answers:
        print(f"{name:24}{out.decode().strip()}")
        return not out.startswith(b"usage")
    printing = solving = 0
    clauses, agree = "-", True
    for index, (_, message, answer, *_) in enumerate(answers):
        printed = least([MORE, "formula", name, "dead", message], text)
        formula = printed.out
        path = Path(folder) / f"{name}-{index}.cnf"
        path.write_bytes(formula)
        clauses = next(line for line in formula.splitlines() if line.startswith(b"p ")).split()[3].decode()
        solved = least(["minisat", "-verb=0", str(path), os.devnull])
        printing, solving = printing + printed.processor, solving + solved.processor
        if {10: "enacted", 20: "dead"}.get(solved.status) != answer:
            print(f"{name} {message}: {answer} here, status {solved.status} of minisat")
            agree = False
        path.unlink()
    dead = sum(answer[2] == "dead" for answer in answers)
    ratio = f"{took / solving:7.2f}" if solving else f"{'-':>7}"
    print(f"{name:24}{len(answers):>9}{dead:>6}{clauses:>9}{printing:9.3f}{solving:9.3f}{took:9.3f}{ratio}", flush=True)
    return agree


def main():
    folders = [Path(f) for f in sys.argv[1:]] or [TOP / "examples"]
    lacking = missing(MORE, BSPL) + ([] if shutil.which("minisat") else ["minisat"])
    if lacking:
        sys.exit(f"missing: {', '.join(lacking)}")
    print(f"{'protocol':24}{'messages':>9}{'dead':>6}{'clauses':>9}{'formula':>9}{'minisat':>9}{'bspl':>9}{'ratio':>7}")
    files = sorted(p for folder in folders for p in folder.glob("*.bspl"))
    protocols = [(path.stem, path.read_bytes()) for path in files] + [("Long", long_protocol().encode())]
    with tempfile.TemporaryDirectory() as folder:
        agree = [row(name, text, folder) for name, text in protocols]
    return 0 if all(agree) else 1


if __name__ == "__main__":
    sys.exit(main())
