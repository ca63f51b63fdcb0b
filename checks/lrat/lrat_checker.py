#!/usr/bin/env python3
"""Checks a proof in LRAT form, by reversed unit propagation alone.

    checks/lrat/lrat_checker.py FORMULA PROOF

FORMULA is in DIMACS form and its clauses have the identifiers from 1 on, in their order. A line of PROOF is
`ID LITERALS 0 HINTS 0` and adds a clause, or `ID d CLAUSES 0` and deletes clauses. Written from Cruz-Filipe, Heule,
Hunt, Kaufmann and Schneider-Kamp, Efficient Certified RAT Verification (2017), and from nothing else: under the
negation of the clause that a line adds each hint in turn has one literal that is not false and is open, which becomes
true, until the last hint has none. It prints `verified CLAUSES` with status 0, or with status 1 why the proof is
refused: the number of its first bad line, from 1, or that it has no empty clause.
"""
import sys


def clauses_of(path):
    """The clauses of a formula by their identifiers."""
    clauses, literals = {}, []
    with open(path, encoding="ascii") as lines:
        for word in (word for line in lines if line[0] not in "cp" for word in line.split()):
            if word == "0":
                clauses[len(clauses) + 1] = frozenset(literals)
                literals = []
            else:
                literals.append(int(word))
    return clauses


def is_refuted(clause, hints, clauses):
    """Whether the negation of the clause is refuted by the hints, of which none is left over."""
    true = {-literal for literal in clause}
    for place, hint in enumerate(hints, 1):
        not_false = {literal for literal in clauses[hint] if -literal not in true}
        if not not_false:
            return place == len(hints)
        if len(not_false) > 1 or not_false <= true:
            return False
        true |= not_false
    return False


def check(clauses, lines):
    """Adds and deletes clauses line by line; the number of the first bad line, if there is one."""
    last = max(clauses, default=0)
    for number, line in enumerate(lines, 1):
        try:
            name, *words = line.split()
            if words[:1] == ["d"]:
                for clause in words[1:-1]:
                    del clauses[int(clause)]
                good = words[-1] == "0" and int(name) >= last
            else:
                middle = words.index("0")
                clause = frozenset(map(int, words[:middle]))
                good = int(name) > last and words[-1] == "0" and middle < len(words) - 1
                good = good and is_refuted(clause, list(map(int, words[middle + 1:-1])), clauses)
                last = int(name)
                clauses[last] = clause
        except (KeyError, ValueError, IndexError):
            good = False
        if not good:
            return number
        if words[0] == "0":
            return None
    return "no empty clause"


if __name__ == "__main__":
    formula = clauses_of(sys.argv[1])
    with open(sys.argv[2], encoding="ascii") as proof:
        bad = check(formula, proof)
    print(f"verified {len(formula)}" if bad is None else f"refused {bad}")
    sys.exit(bad is not None)
