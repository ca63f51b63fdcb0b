#!/usr/bin/env python3
"""Takes other solvers' proofs on formulas in DIMACS form in, and gives our proofs on them out.

    checks/lrat/formulas.py [FOLDER ..]

Each .cnf and .cnf.xz file of the folders is taken; of each .bspl file the formulas of `safety` and `liveness` that
`bspl_more formula` prints of the protocol of the file's name; and RANDOM (200) formulas that are made here: clauses of three
literals, six for each of 20 to 40 variables, by a fixed seed. Of these the formulas count on which minisat finds no
model within SECONDS_EACH (60).

- In: `picosat -R` and, if it is installed, `cadical` prove that there is no model; a PicoSAT that is built with traces,
  which PICOSAT_TRACE names, adds its traces. `from_trace.py` makes a log of each proof, with and without removals, and
  `dimacs_check` has to accept it, and to reject or refuse it with one number changed, TRIES (6) times, unless the
  changed log is right as well.
- Out: the proof that `dimacs_sat --lrat` prints has to be verified by `lrat_checker.py`, and refused with one number of a hint
  changed, unless `lrat_checker.py` finds it right: TRIES proofs of each formula.

A line a formula: clauses, steps and links of the first log, and the seconds of processor time of from_trace.py and of
`dimacs_check` on it; a line for all random ones together. DIMACS_SAT, DIMACS_CHECK and BSPL_MORE name the programs,
BUDGET (10000) the conflicts of `dimacs_sat`. The status is 1 if anything is not as it should be.
"""
import lzma
import os
import random
import resource
import subprocess
import sys
import tempfile
import time
from pathlib import Path

HERE = Path(__file__).resolve().parent
sys.path[:0] = [str(HERE), str(HERE.parent.parent / "bench")]
import examples  # noqa: E402
import from_trace  # noqa: E402
import lrat_checker  # noqa: E402
from measure import program  # noqa: E402

PROGRAMS = {name: program(name) for name in ("dimacs_sat", "dimacs_check", "bspl_more")}
BUDGET = os.environ.get("BUDGET", "10000")
SECONDS = float(os.environ.get("SECONDS_EACH", "60"))
RANDOM = int(os.environ.get("RANDOM", "200"))
COUNTS = dict.fromkeys(("formulas", "logs", "changed", "right", "proofs", "changed_proofs", "undecided"), 0)


def run(name, *arguments, text=b""):
    """The status, the output and the seconds of processor time of a call."""
    before = resource.getrusage(resource.RUSAGE_CHILDREN).ru_utime
    done = subprocess.run([PROGRAMS.get(name, name), *arguments], input=text, capture_output=True)
    return done.returncode, done.stdout.decode(), resource.getrusage(resource.RUSAGE_CHILDREN).ru_utime - before


def has_no_model(path):
    try:
        return subprocess.run(["minisat", path], capture_output=True, timeout=SECONDS).returncode == 20
    except subprocess.TimeoutExpired:
        return False


def log_is_taken(name, text, log, formula, rng):
    """Whether our checker accepts the log, and none with a changed number that is not right; and its seconds."""
    status, said, seconds = run("dimacs_check", text=text + b"\n%% log\n" + log.encode())
    COUNTS["logs"] += 1
    good = (status, said) == (0, "accepted unsatisfiable\n") or examples.wrong(f"log {name}", said)
    for other in filter(None, (examples.changed(log, rng) for _ in range(examples.TRIES))):
        status, said, _ = run("dimacs_check", text=text + b"\n%% log\n" + other.encode())
        right = examples.is_right(formula, other, "safety")
        COUNTS["right" if right else "changed"] += 1
        if (status == 0) != right or status not in (0, 1, 4):
            good = examples.wrong(f"changed log {name}", said)
    return good, seconds


def changed_hint(proof, rng):
    """The proof with one hint of one line changed."""
    lines = [line.split() for line in proof.splitlines()]
    places = [(i, j) for i, line in enumerate(lines) if line[1] != "d" for j in range(line.index("0") + 1, len(line) - 1)]
    if not places:
        return None
    i, j = rng.choice(places)
    lines[i][j] = str(max(1, int(lines[i][j]) + rng.choice([-1, 1, 2])))
    return list(map(" ".join, lines))


def proof_goes_out(name, path, text, rng):
    """Whether `lrat_checker.py` verifies our proof, and refuses it with a changed hint (what it finds right is counted)."""
    status, proof, _ = run("dimacs_sat", "--lrat", "--budget", BUDGET, text=text)
    if status == 0:
        COUNTS["undecided"] += 1
        return True
    clauses = lrat_checker.clauses_of(path)
    bad = lrat_checker.check(dict(clauses), proof.splitlines()) if status == 20 else proof
    COUNTS["proofs"] += 1
    for other in filter(None, (changed_hint(proof, rng) for _ in range(examples.TRIES))):
        COUNTS["changed_proofs"] += lrat_checker.check(dict(clauses), other) is not None
    return bad is None or examples.wrong(f"proof {name}", str(bad))


def formula_is_right(name, text, folder, rng):
    """Whether proofs go in and out on the formula; its figures, if it has no model."""
    path, proof = str(Path(folder, "formula.cnf")), str(Path(folder, "proof"))
    Path(path).write_bytes(text)
    if not has_no_model(path):
        return True, None
    COUNTS["formulas"] += 1
    formula = from_trace.read_formula(path)
    good, figures = proof_goes_out(name, path, text, rng), None
    for solver, command in examples.solvers():
        subprocess.run(command(path, proof), capture_output=True)
        for drops in (False, True):
            before = time.process_time()
            log = from_trace.log_of(formula, proof, "safety", drops)
            took = time.process_time() - before
            taken, seconds = log_is_taken(f"{name} {solver}", text, log, formula, rng)
            good &= taken
            steps = [line.split() for line in log.splitlines() if line.startswith("step")]
            figures = figures or (len(formula), len(steps), sum(len(step) // 2 - 1 for step in steps), took, seconds)
    return good, figures


def random_formula(rng):
    count = rng.randint(20, 40)
    clauses = [[v * rng.choice((-1, 1)) for v in rng.sample(range(1, count + 1), 3)] for _ in range(6 * count)]
    lines = [f"p cnf {count} {len(clauses)}", *(" ".join(map(str, [*clause, 0])) for clause in clauses)]
    return ("\n".join(lines) + "\n").encode()


def formulas_below(folders):
    """The names and the texts of the formulas of the folders."""
    for path in sorted(path for each in folders for path in Path(each).glob("*.cnf*")):
        yield path.name.split(".")[0], lzma.open(path).read() if path.suffix == ".xz" else path.read_bytes()
    for path in sorted(path for each in folders for path in Path(each).glob("*.bspl")):
        for kind in ("safety", "liveness"):
            status, text, _ = run("bspl_more", "formula", path.stem, kind, text=path.read_bytes())
            if status == 0:
                yield f"{path.stem} {kind}", text.encode()


def shown(name, figures):
    clauses, steps, links, took, seconds = figures
    print(f"{name:32}{clauses:9}{steps:9}{links:9}{took:9.2f}{seconds:9.3f}", flush=True)


def main(folders):
    good, rng = True, random.Random(1)
    print(f"{'':32}{'clauses':>9}{'steps':>9}{'links':>9}{'taken':>9}{'checked':>9}")
    with tempfile.TemporaryDirectory() as folder:
        for name, text in formulas_below(folders):
            right, figures = formula_is_right(name, text, folder, rng)
            good &= right
            if figures:
                shown(name, figures)
        all_figures = []
        for number in range(RANDOM):
            right, figures = formula_is_right(f"random {number}", random_formula(rng), folder, rng)
            good &= right
            all_figures += [figures] if figures else []
        if all_figures:
            shown(f"{len(all_figures)} random ones", map(sum, zip(*all_figures)))
    print(" ".join(f"{name} {count}" for name, count in COUNTS.items()))
    return not good


if __name__ == "__main__":
    sys.exit(main(sys.argv[1:]))
