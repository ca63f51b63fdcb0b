#!/usr/bin/env python3
"""Times `bspl_more ask` beside minisat on the same formulas, and beside `bspl verify`.

    bench/questions.py [FOLDER ..]

Each .bspl file of the folders (examples/) whose protocol of the file's name has rules is taken, and then the
protocols of 63 or 64 messages that bench/verify.py makes, with rules that are put in here. A line a protocol: its
rules and how many of their questions are possible; the clauses of the largest formula; and seconds of processor time:
of `minisat -no-pre` on the formulas of all questions together, from files that checks/ask/by_formula.py writes; of
`ask NAME QUESTION --brief` for each question, and the ratio of that to minisat's; of `ask NAME --all --brief`, which
makes the clauses that all questions share once and tries earlier models first, and its ratio; and of `verify NAME
--brief`, with the ratio of one `ask` to it. Then come the four long protocols again, with a hundred rules each, made
of their messages: the seconds of one `ask`, the mean over all hundred questions; of `verify`, and the ratio to it,
which should be at most 1.5; and of `ask --all`, and its ratio to one `ask`, which should be at most 20. The least of
RUNS (3) runs counts. What differs is said, and the status is 1. BSPL and BSPL_MORE name the programs
(crates/bspl/out/bspl, crates/bspl_more/out/bspl_more).
"""
import os
import sys
import tempfile
from pathlib import Path

from measure import TOP, given_protocols, lacks, least, program, status_after
from verify import long_protocols

sys.path.insert(0, str(TOP / "checks"))
from ask import by_formula, protocol, rules  # noqa: E402

BSPL, MORE = program("bspl"), program("bspl_more")
RULES = {
    "Choices": ["never rest and not bound x32", "never sent yes1 and sent no1", "some sent yes32 and sent no31",
                "some received yes32 after received no16", "never knows B x2 before knows A x1", "some rest"],
    "Deals": ["never sent accept8 and sent reject8", "never sent ship8 before received accept8", "some sent deliver8",
              "never knows Shipper price1", "never rest and sent rfq1 and not knows B closed8",
              "some rest and sent reject1"],
    "Random": ["some sent m1", "some rest", "some can m2 and not can m0", "never sent m1 before sent m0"],
    "Waiting": ["never sent m0", "never sent m40 or sent m50", "never rest and bound q1", "some rest"],
}
HEAD = (f"{'protocol':24}{'rules':>6}{'possible':>9}{'clauses':>9}{'minisat':>9}{'ask':>9}{'ratio':>7}{'all':>9}"
        f"{'ratio':>7}{'verify':>9}{'ratio':>7}")
HEAD_OF_HUNDRED = f"\n{'protocol':24}{'rules':>6}{'ask':>9}{'verify':>9}{'ratio':>7}{'all':>9}{'ratio':>7}"


def with_rules(text, found):
    """The text with these rules before its last brace."""
    return text.removesuffix("}\n") + "".join(f"  //? {rule}\n" for rule in found) + "}\n"


def hundred(it):
    """A hundred rules, kept or not: each message can be sent, and none is sent before the one above it."""
    names = [message.name for message in it.messages]
    ordered = [f"never sent {later} before sent {name}" for name, later in zip(names, names[1:])]
    return [*(f"some sent {name}" for name in names), *ordered][:100]


def write_formula(formula, shared, tree, path):
    """Writes the formula of the question in DIMACS form; how many clauses it has."""
    variables, own = formula.own(tree)
    lines = shared + [line_of(clause) for clause in own]
    path.write_text(f"p cnf {variables} {len(lines)}\n" + "".join(lines))
    return len(lines)


def line_of(clause):
    """The line of a clause."""
    return " ".join(map(str, sorted(set(clause), key=abs))) + " 0\n"


def solved(it, found, folder):
    """For each question whether it is possible, by minisat; the seconds of all, and the clauses of the largest."""
    formula = by_formula.Formula(it)
    shared = [line_of(clause) for clause in formula.shared()]
    path, seconds, clauses, answers = Path(folder) / "formula.cnf", 0, 0, []
    for _, tree, _ in found:
        clauses = max(clauses, write_formula(formula, shared, tree, path))
        run = least(["minisat", "-no-pre", "-verb=0", str(path), os.devnull])
        seconds += run.processor
        answers.append(run.status == 10)
    return answers, seconds, clauses


def asked(name, text, found):
    """For each question the status of `ask`, and the seconds of all."""
    runs = [least([MORE, "ask", name, spelling, "--brief"], text) for _, _, spelling in found]
    return [run.status for run in runs], sum(run.processor for run in runs)


def ratio(one, other):
    return f"{one / max(other, 1e-4):7.2f}"


def row_of_hundred(name, text):
    """Prints the line of a protocol with a hundred rules, and gives what differs."""
    text = with_rules(text, hundred(protocol.expansion(text, name)))
    found, given = rules.rules_of(text, name), text.encode("latin-1")
    statuses, asking = asked(name, given, found)
    one = asking / len(found)
    whole = least([MORE, "ask", name, "--all", "--brief"], given)
    verifying = least([BSPL, "verify", name, "--brief"], given).processor
    print(f"{name:24}{len(found):>6}{one:9.3f}{verifying:9.3f}{ratio(one, verifying)}{whole.processor:9.3f}"
          f"{ratio(whole.processor, one)}", flush=True)
    kept = all((status == 0) == (sense == "some") for (sense, _, _), status in zip(found, statuses))
    return [] if whole.status == (not kept) else [f"{name}: status {whole.status} of a hundred rules"]


def row(name, text, folder):
    """Prints the line of a protocol, and gives what differs."""
    found = rules.rules_of(text, name)
    if not found:
        return []
    answers, solving, clauses = solved(protocol.expansion(text, name), found, folder)
    given = text.encode("latin-1")
    statuses, asking = asked(name, given, found)
    whole = least([MORE, "ask", name, "--all", "--brief"], given)
    verifying = least([BSPL, "verify", name, "--brief"], given).processor
    print(f"{name:24}{len(found):>6}{sum(answers):>9}{clauses:>9}{solving:9.3f}{asking:9.3f}{ratio(asking, solving)}"
          f"{whole.processor:9.3f}{ratio(whole.processor, solving)}{verifying:9.3f}"
          f"{ratio(asking / len(found), verifying)}", flush=True)
    faults = [f"{name}: {spelling}: status {status}, minisat finds {'one' if is_possible else 'no'} model"
              for (_, _, spelling), status, is_possible in zip(found, statuses, answers) if status != (not is_possible)]
    kept = all(is_possible == (sense == "some") for (sense, _, _), is_possible in zip(found, answers))
    return faults + ([f"{name}: status {whole.status} of all rules"] if whole.status != (not kept) else [])


def main():
    if lacks([MORE, BSPL], ["minisat"]):
        return 1
    long = long_protocols()
    texts = [(name, text.decode("latin-1")) for name, text in given_protocols(sys.argv[1:])]
    texts += [(name, with_rules(text, RULES[name])) for name, text in long]
    print(HEAD)
    with tempfile.TemporaryDirectory() as folder:
        faults = [fault for name, text in texts for fault in row(name, text, folder)]
    print(HEAD_OF_HUNDRED)
    return status_after(faults + [fault for name, text in long for fault in row_of_hundred(name, text)])


if __name__ == "__main__":
    sys.exit(main())
