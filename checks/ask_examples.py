#!/usr/bin/env python3
"""Compares the answers of `bspl_more ask` on the examples with a search over states.

    checks/ask_examples.py [NAME ..]

Each protocol of examples/ (those that are named alone) with rules in its braces is taken: the search says whether each
rule is kept, and it has to be, since the examples keep theirs; `ask NAME --all` has to say the same. Then come the
questions of checks/ask/examples.txt, each with a protocol and the answer that was worked out. Runs and logs that the
program prints are judged as by checks/ask_compare.py. BSPL_MORE names the program (crates/bspl_more/out/bspl_more); if
it is empty, the rules and the worked answers are held against the search alone. The status is 1 if anything differs.
"""
import os
import sys
from pathlib import Path

from ask import answers, by_sets, protocol, question, rules, runs

sys.path.insert(0, str(Path(__file__).resolve().parent.parent / "bench"))
from measure import TOP, missing, program  # noqa: E402

MORE = program("bspl_more") if os.environ.get("BSPL_MORE", "-") else None
LIST = TOP / "checks/ask/examples.txt"


def example(name):
    """The text of the example, and its protocol of messages alone."""
    text = (TOP / "examples" / f"{name}.bspl").read_bytes().decode("latin-1")
    return text, protocol.expansion(text, name)


def worked(names):
    """The questions of the list: a protocol, a question, and what it is, of so many events if it is possible."""
    for line in LIST.read_text().splitlines():
        if not line.startswith("# "):
            name, asked, answer = map(str.strip, line.split("|"))
            if name in names:
                yield name, asked, answer


def wrong_of_rules(name):
    """What is wrong with the rules of the example, or nothing; and how many there are."""
    text, it = example(name)
    found = rules.rules_of(text, name)
    if not found:
        return None, 0
    verdicts = []
    for sense, tree, spelling in found:
        missed = question.unknown(tree, it)
        if missed:
            return f"{sense} {spelling}: {missed}", len(found)
        is_kept = (by_sets.Search(it, tree).answer() is None) == (sense == "never")
        if not is_kept:
            return f"{sense} {spelling}: broken", len(found)
        verdicts.append(is_kept)
    return MORE and answers.wrong_rules(MORE, text, it, found, verdicts), len(found)


def wrong_of_question(name, asked, answer):
    """What is wrong with the question of the list, or nothing."""
    text, it = example(name)
    tree, _ = question.read(asked)
    missed = question.unknown(tree, it)
    if missed:
        return missed
    events = by_sets.Search(it, tree).answer()
    found = "impossible" if events is None else f"possible {len(events)}"
    if found != answer:
        return f"{found} by the search, {answer} in the list"
    if events is not None and answers.wrong_run(it, tree, runs.written(it, events)):
        return "the search's own run"
    if not MORE:
        return None
    return answers.wrong_answer(MORE, text, it, asked, events) or (
        answers.wrong_made_log(MORE, text, it, asked) if events is None else None)


def main():
    names = sys.argv[1:] or sorted(path.stem for path in (TOP / "examples").glob("*.bspl"))
    if MORE and missing(MORE):
        print(f"missing: {MORE}")
        return 1
    wrong = asked = ruled = count = 0
    for name in names:
        what, found = wrong_of_rules(name)
        ruled, count = ruled + bool(found), count + found
        if what:
            wrong += 1
            print(f"{name}: {what}", flush=True)
    for name, words, answer in worked(names):
        what = wrong_of_question(name, words, answer)
        asked += 1
        if what:
            wrong += 1
            print(f"{name}: {words}: {what}", flush=True)
    print(f"{count} rules of {ruled} examples, {asked} worked questions; {wrong} wrong")
    return 1 if wrong else 0


if __name__ == "__main__":
    sys.exit(main())
