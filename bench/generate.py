#!/usr/bin/env python3
"""Times bspl generate by the number of stages and of threads.

    bench/generate.py [STAGES ..]

A line for each number of stages (1 to 16) and of threads a role (0, 1, 4 and 8): the seconds of the clock and of
processor time and the megabytes of memory of the run of RUNS (3) that takes least, and the ratio of its seconds to those
of --threads 0. Nothing is read, and each summary has to be the one that the number of stages gives. The line `verify`
of a number has what its two verdicts take alone, by the same program on the same text. BSPL names the program
(crates/bspl/out/bspl).
"""
import sys

from measure import least, program

BSPL = program("bspl")
THREADS = [0, 1, 4, 8]


def text_of(stages):
    """The protocol of so many stages, as docs/COMMANDS.md gives it."""
    numbers = range(1, stages + 1)
    params = ", ".join(["out ID key", *(f"out x{i}" for i in numbers)])
    lines = []
    for i in numbers:
        way = "A -> B" if i % 2 else "B -> A"
        carried = "out ID, out x1" if i == 1 else f"in ID, in x{i - 1}, out x{i}"
        lines += [f"  {way}: {answer}{i}[{carried}]" for answer in ("yes", "no")]
    return "\n".join(["Stage {", "  roles A, B", "  parameters " + params, *lines, "}", ""]).encode()


def summary_of(stages):
    """What the program has to print of so many stages."""
    sent, known = 1000 * stages, 1000 * (stages + 1)
    return (f"generate {stages}\nmessages {2 * stages}\nsafety safe\nliveness live\n"
            f"keys 1000\nsent {sent}\nreceived {sent}\nbound {known}\n").encode()


def taken(arguments, text=b""):
    """The run that takes least by the clock."""
    return least([BSPL, *arguments], text, by="seconds")


def shown(stages, threads, run, ratio=""):
    return f"{stages:6}{threads:>8}{run.seconds:9.3f}{run.processor:9.3f}{run.megabytes:6.0f}{ratio:>8}"


def measure(stages):
    """The lines of so many stages, and whether each summary is right."""
    right = True
    print(shown(stages, "verify", taken(["verify", "Stage", "--brief"], text_of(stages))), flush=True)
    runs = {threads: taken(["generate", str(stages), "--threads", str(threads)]) for threads in THREADS}
    for threads, run in runs.items():
        ratio = f"{run.seconds / runs[0].seconds:.2f}"
        right = right and run.out == summary_of(stages)
        print(shown(stages, threads, run, ratio), flush=True)
    return right


def main():
    numbers = [int(n) for n in sys.argv[1:]] or list(range(1, 17))
    print(f"{'stages':>6}{'threads':>8}{'clock':>9}{'proc':>9}{'MB':>6}{'ratio':>8}")
    wrong = [n for n in numbers if not measure(n)]
    if wrong:
        print("another summary: " + ", ".join(map(str, wrong)))
    return 1 if wrong else 0


if __name__ == "__main__":
    sys.exit(main())
