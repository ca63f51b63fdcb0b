#!/usr/bin/env python3
"""Turns another solver's proof that a formula has no model into a log that `bspl check` reads.

    checks/lrat/from_trace.py [--drop] FORMULA PROOF KIND ..

FORMULA is what `bspl_more formula` prints, PROOF a solver's proof of it, and KIND is `safety`, `liveness` or `dead MESSAGE`,
as in the first line of the log, which is written to standard output. The proof is in one of these forms:

- a trace, as PicoSAT writes it if it is built with traces (`-T FILE`, or `-t FILE` without the literals of derived
  clauses): lines `ID LITERALS 0 ANTECEDENTS 0` or `ID * ANTECEDENTS 0`;
- LRAT, the same lines for the derived clauses, and `ID d CLAUSES 0`;
- clauses alone (`picosat -R FILE`, `cadical --no-binary FORMULA FILE`): lines `LITERALS 0` and `d LITERALS 0`.

Each derived clause is derived anew: its negation is propagated over its antecedents, or over all clauses if none are
given, until a clause is false. That clause is the first one of the step. From the end of the trail backwards, the
reason of each literal whose negation is still in the clause is the next link, and that negation is its pivot. What is
derived so may lack literals of the proof's clause. Steps that the empty clause does not need are left out, and removals
of the proof are skipped; with `--drop` the log removes each derived clause after the last step that needs it. Nothing
here is trusted, since `bspl check` checks the log.
"""
import sys
from collections import defaultdict


def read_formula(path):
    """The clauses of a formula in DIMACS form, in their order."""
    with open(path, encoding="ascii") as lines:
        return [frozenset(map(int, line.split()[:-1])) for line in lines if line[0] not in "cp"]


def read_proof(path):
    """Of each derived clause or named one its name, its literals and its antecedents, as far as they are given."""
    with open(path, encoding="ascii") as lines:
        for words in map(str.split, lines):
            if words[0] in ("c", "d") or words[0].startswith("%") or words[1:2] == ["d"]:
                continue
            if words[1:2] == ["*"]:
                yield int(words[0]), None, list(map(int, words[2:-1]))
            elif words.count("0") == 1:
                yield None, frozenset(map(int, words[:-1])), None
            else:
                middle = words.index("0")
                yield int(words[0]), frozenset(map(int, words[1:middle])), list(map(int, words[middle + 1:-1]))


class Index:
    """Some clauses by their literals, and the clauses of one literal."""

    def __init__(self):
        self.having, self.units = defaultdict(list), []

    def add(self, number, clause):
        for literal in clause:
            self.having[literal].append(number)
        if len(clause) == 1:
            self.units.append((*clause, number))


class Replay:
    """All clauses by their numbers, from 1, and the steps that derive those after the formula's."""

    def __init__(self, formula):
        self.clauses, self.given, self.steps = [None, *formula], len(formula), []
        self.index = Index()
        for number, clause in enumerate(formula, 1):
            self.index.add(number, clause)

    def among(self, antecedents):
        index = Index()
        for number in antecedents:
            index.add(number, self.clauses[number])
        return index

    def propagate(self, clause, index):
        """The number of a clause that is false if `clause` is, and the literals set on the way with their reasons."""
        true, reasons = {-literal for literal in clause}, []
        waiting = list(true)
        for literal, number in index.units:
            if -literal in true:
                return number, reasons
            if literal not in true:
                true.add(literal)
                reasons.append((literal, number))
                waiting.append(literal)
        for set_literal in waiting:
            for number in index.having[-set_literal]:
                unset = [literal for literal in self.clauses[number] if -literal not in true]
                if not unset:
                    return number, reasons
                if len(unset) == 1 and unset[0] not in true:
                    true.add(unset[0])
                    reasons.append((unset[0], number))
                    waiting.append(unset[0])
        raise SystemExit(f"unit propagation does not refute the negation of {sorted(clause)}")

    def derive(self, clause, index):
        """The number of a clause of these literals or fewer: a new step's, or an older one."""
        first, reasons = self.propagate(clause, index)
        derived, links = set(self.clauses[first]), []
        for literal, reason in reversed(reasons):
            if -literal in derived:
                derived = (derived - {-literal}) | (self.clauses[reason] - {literal})
                links.append((-literal, reason))
        if not links:
            return first
        self.steps.append((first, links))
        self.clauses.append(frozenset(derived))
        self.index.add(len(self.clauses) - 1, derived)
        return len(self.clauses) - 1


def unopposed(clauses):
    """What a chain of resolutions of these clauses leaves: literals whose negation is in none of them."""
    literals = frozenset().union(*clauses)
    return frozenset(literal for literal in literals if -literal not in literals)


def replayed(formula, proof):
    """The steps that derive the empty clause, which is that of the last step."""
    replay = Replay(formula)
    number_of = {clause: number for number, clause in enumerate(formula, 1)}
    named = {number: number for number in number_of.values()}
    for name, clause, antecedents in proof:
        if antecedents == []:
            named[name] = number_of[clause]
            continue
        index = replay.index
        if antecedents is not None:
            antecedents = [named.get(name, name) for name in antecedents]
            index = replay.among(antecedents)
        if clause is None:
            clause = unopposed([replay.clauses[number] for number in antecedents])
        named[name] = replay.derive(clause, index)
        if not replay.clauses[named[name]]:
            return replay.steps
    # PicoSAT leaves the empty clause of a list of clauses to its reader
    replay.derive(frozenset(), replay.index)
    return replay.steps


def needed(given, steps):
    """The steps that the last one needs, with their clauses numbered anew."""
    wanted = {given + len(steps)}
    for place in reversed(range(len(steps))):
        if given + 1 + place in wanted:
            wanted |= used(steps[place])
    kept = [number for number in sorted(wanted) if number > given]
    new = {number: given + 1 + place for place, number in enumerate(kept)}
    return [(new.get(first, first), [(pivot, new.get(number, number)) for pivot, number in links])
            for first, links in (steps[number - given - 1] for number in kept)]


def used(step):
    return {step[0], *(number for _, number in step[1])}


def log_lines(given, steps, kind, drops):
    """The log's text; if it drops, each derived clause but the last one goes after the last step that needs it."""
    last = {number: place for place, step in enumerate(steps) for number in used(step) if number > given}
    yield f"log {2 if drops and last else 1} {kind}"
    for place, (first, links) in enumerate(steps):
        yield " ".join(map(str, ["step", first, *(word for link in links for word in link)]))
        gone = sorted(number for number, user in last.items() if user == place)
        if drops and gone:
            yield " ".join(map(str, ["drop", *gone]))
    yield "end"


def log_of(formula, proof_path, kind, drops):
    """The text of the log that a proof gives."""
    steps = [] if frozenset() in formula else needed(len(formula), replayed(formula, read_proof(proof_path)))
    return "\n".join(log_lines(len(formula), steps, kind, drops)) + "\n"


def main(arguments):
    drops = arguments[:1] == ["--drop"]
    formula_path, proof_path, *kind = arguments[1:] if drops else arguments
    print(log_of(read_formula(formula_path), proof_path, " ".join(kind), drops), end="")


if __name__ == "__main__":
    if len(sys.argv) < 4:
        raise SystemExit(__doc__)
    main(sys.argv[1:])
