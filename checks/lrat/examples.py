#!/usr/bin/env python3
"""Takes proofs of other solvers in, and gives proofs out to a checker that is not ours.

    checks/lrat/examples.py [FOLDER ..]

Each .bspl file of the folders (examples/) is taken with the protocol of the file's name, and of it the formulas of
`safety`, of `liveness` and of each message that have no model.

- In: `picosat -R` and, if it is installed, `cadical` prove that the formula has no model; a PicoSAT that is built with
  traces, which PICOSAT_TRACE names, adds its two traces. `from_trace.py` makes a log of each proof, with and without
  removals, and `bspl check` or `check-dead` has to accept it. Then each log is tried with one number changed, TRIES (6)
  times by a fixed seed, and has to be rejected or refused, unless the changed log is right as well: `is_right`, which
  resolves it here, says so.
- Out: the proof that `bspl_more lrat` makes of each log of `bspl verify` and of each log from another
  solver has to be verified by `lrat_checker.py`, for the formula that `bspl_more formula` prints.

It needs minisat and picosat. It prints a line a protocol with its formulas that have no model, and at the end how many
formulas, logs, changed logs and proofs there were. BSPL and BSPL_MORE
name the programs (crates/bspl/out/bspl and so on). The status is 1 if anything is not as it should be.
"""
import os
import random
import shutil
import subprocess
import sys
import tempfile
from pathlib import Path

HERE = Path(__file__).resolve().parent
sys.path[:0] = [str(HERE), str(HERE.parent.parent / "bench")]
import from_trace  # noqa: E402
import lrat_checker  # noqa: E402
from measure import TOP, program  # noqa: E402

PROGRAMS = {name: program(name) for name in ("bspl", "bspl_more")}
TRIES = int(os.environ.get("TRIES", "6"))
TRACER = os.environ.get("PICOSAT_TRACE")
COUNTS = dict.fromkeys(("formulas", "logs", "changed", "right", "proofs"), 0)


def run(name, *arguments, text=b""):
    done = subprocess.run([PROGRAMS.get(name, name), *arguments], input=text, capture_output=True)
    return done.returncode, done.stdout.decode()


def solvers():
    """Each way to get a proof: its name, and the command for a formula and the file of the proof."""
    yield "picosat -R", lambda cnf, proof: ["picosat", "-R", proof, cnf]
    if shutil.which("cadical"):
        yield "cadical", lambda cnf, proof: ["cadical", "-q", "--no-binary", cnf, proof]
    if TRACER:
        yield "picosat -T", lambda cnf, proof: [TRACER, "-T", proof, cnf]
        yield "picosat -t", lambda cnf, proof: [TRACER, "-t", proof, cnf]


def is_right(formula, log, kind):
    """Whether the log refutes the formula, resolved here."""
    lines = log.splitlines()
    if lines[-1] != "end" or lines[0] not in (f"log 1 {kind}", f"log 2 {kind}"):
        return False
    clauses, gone = [None, *formula], []
    for word, *fields in map(str.split, lines[1:-1]):
        numbers = list(map(int, fields))
        used = numbers if word == "drop" else [numbers[0], *numbers[2::2]]
        if any(number < 1 or number >= len(clauses) or clauses[number] is None for number in used):
            return False
        if word == "drop":
            if len(set(numbers)) < len(numbers):
                return False
            gone += [clauses[number] for number in numbers]
            for number in numbers:
                clauses[number] = None
            continue
        clause = clauses[numbers[0]]
        for pivot, number in zip(numbers[1::2], numbers[2::2]):
            if pivot not in clause or -pivot not in clauses[number]:
                return False
            clause = (clause - {pivot}) | (clauses[number] - {-pivot})
        clauses.append(clause)
    return frozenset() in clauses or frozenset() in gone


def changed(log, rng):
    """The log with one number of its steps or removals changed."""
    lines = [line.split(" ") for line in log.splitlines()]
    places = [(i, j) for i, line in enumerate(lines) if line[0] in ("step", "drop") for j in range(1, len(line))]
    if not places:
        return None
    i, j = rng.choice(places)
    number = int(lines[i][j])
    lines[i][j] = str(rng.choice([number + 1, max(number - 1, 1), -number, rng.randint(1, abs(number) + 9)]))
    other = "\n".join(map(" ".join, lines)) + "\n"
    return None if other == log else other


def wrong(text, said):
    print(f"WRONG {text}: {said.strip()[:200]}")
    return False


def proof_goes_out(name, protocol, kind, log, formula_text, folder):
    """Whether `lrat_checker.py` verifies the proof that `bspl_more lrat` makes of the log."""
    if kind.startswith("dead"):
        return True
    status, proof = run("bspl_more", "lrat", name, text=protocol + b"\n%% log\n" + log.encode())
    cnf = Path(folder, "again.cnf")
    cnf.write_text(formula_text)
    bad = lrat_checker.check(lrat_checker.clauses_of(cnf), proof.splitlines()) if status == 0 else proof
    COUNTS["proofs"] += 1
    return bad is None or wrong(f"proof {name} {kind}", str(bad))


def log_is_taken(name, protocol, kind, log, formula, rng):
    """Whether our checker accepts the log, and none with a changed number that is not right."""
    command = "check-dead" if kind.startswith("dead") else "check"
    status, said = run("bspl", command, name, text=protocol + b"\n%% log\n" + log.encode())
    COUNTS["logs"] += 1
    good = (status, said) == (0, f"accepted {kind}\n") or wrong(f"log {name} {kind}", said)
    for other in filter(None, (changed(log, rng) for _ in range(TRIES))):
        status, said = run("bspl", command, name, text=protocol + b"\n%% log\n" + other.encode())
        right = is_right(formula, other, kind)
        COUNTS["right" if right else "changed"] += 1
        if (status == 0) != right or status not in (0, 1, 4):
            good = wrong(f"changed log {name} {kind}", said + other)
    return good


def formulas_of(name, protocol):
    """The kinds of the protocol's formulas, with their texts."""
    messages = [line.split()[1] for line in run("bspl", "dead", name, "--brief", text=protocol)[1].splitlines()
                if line.startswith("message ")]
    for kind in ["safety", "liveness", *(f"dead {message}" for message in messages)]:
        yield kind, run("bspl_more", "formula", name, *kind.split(), text=protocol)[1]


def protocol_is_right(path, folder):
    name, protocol, rng = path.stem, path.read_bytes(), random.Random(path.stem)
    good, found = True, []
    for kind, formula_text in formulas_of(name, protocol):
        cnf, proof = Path(folder, "formula.cnf"), Path(folder, "proof")
        cnf.write_text(formula_text)
        if not formula_text.startswith("c") or run("minisat", str(cnf))[0] != 20:
            continue
        COUNTS["formulas"] += 1
        found.append(kind)
        formula = from_trace.read_formula(cnf)
        for solver, command in solvers():
            subprocess.run(command(str(cnf), str(proof)), capture_output=True)
            for drops in (False, True):
                log = from_trace.log_of(formula, proof, kind, drops)
                good &= log_is_taken(name, protocol, kind, log, formula, rng)
                good &= proof_goes_out(name, protocol, kind, log, formula_text, folder)
    verified = run("bspl", "verify", name, text=protocol)[1]
    for part in verified.split("log ")[1:]:
        log = "log " + part.split("end\n")[0] + "end\n"
        kind = log.split()[2]
        if kind in found:
            text = run("bspl_more", "formula", name, kind, text=protocol)[1]
            good &= proof_goes_out(name, protocol, kind, log, text, folder)
    print(f"{name:24}{' '.join(found) or '-'}")
    return good


def main(folders):
    paths = sorted(path for folder in folders for path in Path(folder).glob("*.bspl"))
    with tempfile.TemporaryDirectory() as folder:
        good = all([protocol_is_right(path, folder) for path in paths])
    print(" ".join(f"{name} {count}" for name, count in COUNTS.items()))
    return not good


if __name__ == "__main__":
    sys.exit(main(sys.argv[1:] or [TOP / "examples"]))
