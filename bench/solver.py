#!/usr/bin/env python3
"""Runs the built dimacs_sat beside minisat and cadical, where they are installed.

    bench/solver.py [FOLDER ..]

Each .cnf file of the folders is solved, and so are formulas that are made here: pigeonhole, n
pigeons in n - 1 holes, which have no solution; and parity chains, x1 + .. + xn twice, in two
orders, with two results, which have none either, and with one result, which have. A line a formula:
the answer, conflicts, seconds, and the ratio of the times to those of the other solvers. BUDGET
(10000) is the number of conflicts allowed, SECONDS_EACH (60) the time of each run, and DIMACS_SAT the
program (crates/dimacs_sat/out/dimacs_sat). minisat and cadical have no limit of conflicts here.

With PERMUTED=N each given formula is solved N times more with its variables shuffled, and a line counts
the decided: a solver that leans on their order decides fewer.
"""
import os
import random
import re
import shutil
import sys
import tempfile
from pathlib import Path

from measure import once, program

PROGRAM = program("dimacs_sat")
BUDGET = os.environ.get("BUDGET", "10000")
SECONDS = float(os.environ.get("SECONDS_EACH", "60"))
PERMUTED = int(os.environ.get("PERMUTED", "0"))
ANSWERS = {10: "sat", 20: "unsat", 0: "unknown"}


def pigeonhole(pigeons):
    holes = pigeons - 1
    var = lambda pigeon, hole: pigeon * holes + hole + 1
    clauses = [[var(p, h) for h in range(holes)] for p in range(pigeons)]
    for h in range(holes):
        clauses += [[-var(p, h), -var(q, h)] for q in range(pigeons) for p in range(q)]
    return pigeons * holes, clauses


def sum_of_two(a, b, c):
    return [[-a, -b, -c], [-a, b, c], [a, -b, c], [a, b, -c]]


def parity(n, results):
    order, clauses, last = list(range(1, n + 1)), [], n
    for result in results:
        so_far = order[0]
        for x in order[1:]:
            last += 1
            clauses += sum_of_two(so_far, x, last)
            so_far = last
        clauses.append([so_far if result else -so_far])
        random.Random(n).shuffle(order)
    return last, clauses


def write(path, formula):
    vars_, clauses = formula
    lines = [f"p cnf {vars_} {len(clauses)}"]
    lines += [" ".join(map(str, clause)) + " 0" for clause in clauses]
    path.write_text("\n".join(lines) + "\n")


def shuffled(path, folder, seed):
    """The formula with its variables in another order."""
    lines = path.read_text().split("\n")
    head = next(line for line in lines if line.startswith("p "))
    names = list(range(1, int(head.split()[2]) + 1))
    random.Random(seed).shuffle(names)
    renamed = lambda word: word[: word.startswith("-")] + str(names[abs(int(word)) - 1])
    clauses = [line.split()[:-1] for line in lines if line and line[0] in "-0123456789"]
    clauses = [" ".join([renamed(word) for word in clause] + ["0"]) for clause in clauses]
    copy = folder / f"{path.stem}-shuffled-{seed}.cnf"
    copy.write_text("\n".join([head, *clauses]) + "\n")
    return copy


def made(folder):
    for n in range(4, 9):
        write(folder / f"pigeons-{n}.cnf", pigeonhole(n))
    for n in (8, 12, 16, 24, 32):
        write(folder / f"parity-{n}-unsat.cnf", parity(n, (False, True)))
        write(folder / f"parity-{n}-sat.cnf", parity(n, (True, True)))
    return sorted(folder.glob("*.cnf"))


def run(command, source=os.devnull):
    """The status, the text and the seconds; no status where the time is over."""
    done = once(command, source, SECONDS)
    return done.status, done.out.decode(errors="replace"), done.seconds


def number(pattern, text):
    found = re.search(pattern, text)
    return found.group(1) if found else "-"


def row(path, others):
    status, text, seconds = run([PROGRAM, "--budget", BUDGET], path)
    conflicts = number(r"^c conflicts (\d+)", text)
    answer = ANSWERS.get(status, "time" if status is None else f"status {status}")
    each = f"{1e6 * seconds / int(conflicts):.0f}" if conflicts not in ("-", "0") else "-"
    cells = [path.stem, answer, conflicts, f"{seconds:.3f}", each]
    for name, pattern in others:
        other, text, took = run([name, str(path)])
        cells += [ANSWERS.get(other, "time"), number(pattern, text), f"{took:.3f}", f"{seconds / took:.1f}"]
        if {answer, cells[-4]} == {"sat", "unsat"}:
            sys.exit(f"{path}: {answer} here, {cells[-4]} by {name}")
    print("\t".join(cells), flush=True)
    return answer in ("sat", "unsat")


def main():
    known = (("minisat", r"conflicts\s*:\s*(\d+)"), ("cadical", r"c conflicts:\s*(\d+)"))
    others = [(name, pattern) for name, pattern in known if shutil.which(name)]
    head = ["formula", "answer", "conflicts", "seconds", "us/conflict"]
    for name, _ in others:
        head += [name, "conflicts", "seconds", "ratio"]
    print("\t".join(head))
    with tempfile.TemporaryDirectory() as folder:
        folder = Path(folder)
        files = [path for arg in sys.argv[1:] for path in sorted(Path(arg).glob("*.cnf"))]
        decided = sum(row(path, others) for path in files)
        again = [sum(row(shuffled(path, folder, seed), others) for path in files) for seed in range(1, PERMUTED + 1)]
        if again:
            print(f"decided: {decided} of {len(files)} as given, {again} with their variables shuffled")
        for path in made(folder):
            row(path, others)


if __name__ == "__main__":
    main()
