#!/usr/bin/env python3
"""Compares the answers of `bspl_more ask` with searches over states and over whole runs.

    checks/ask_compare.py [COUNT [SEED]]

COUNT (200) protocols of up to seven messages are made from SEED (2026), with a question each. The search over states
(checks/ask/by_sets.py) answers it, and the search over whole runs with two keys (checks/ask/by_runs.py) may not find a
run where that finds none, nor the other way round for a run of a few events, if it could try all of them. The program's
answer has to be the same; the run that it prints has to be legal and to answer yes, and no shorter part of it may; its
log has to be accepted by `ask NAME --check`, as has one that is made here (checks/ask/by_formula.py), and a title that
is no spelling refused. Within one conflict the answer may be undecided. Then the question is spoilt by a rule, and what
is refused, and at which place, has to be what checks/ask/question.py says. BSPL_MORE names the program
(crates/bspl_more/out/bspl_more); if it is empty, the searches are compared alone. The status is 1 if anything differs.
"""
import os
import random
import sys
from pathlib import Path

from ask import answers, by_formula, by_runs, by_sets, protocol, question, runs

sys.path.insert(0, str(Path(__file__).resolve().parent.parent / "bench"))
from measure import missing, program  # noqa: E402

MORE = program("bspl_more") if os.environ.get("BSPL_MORE", "-") else None
ROLES = ["A", "B", "not", "C"]
PARAMS = ["x", "or", "y", "z"]
MESSAGES = ["m", "and", "n", "sent", "before", "k", "rest"]
GAPS = [" ", "  ", "\t", "\n", " // and\n "]
SPOILT = ["in", "key", ";", "(", ")", "and", "sent", "unknown", "{", "-", "\xc3\xa9", "before", "but", "rest", "#",
          "->", "\xe2\x86\xa6", "P#1.m", "P#0.m", "m-", "nil"]


def random_text(rng):
    """Two to four roles, one or two keys, up to four more parameters, and up to seven messages."""
    roles, keys = ROLES[: rng.randint(2, 4)], ["ID", "K"][: rng.choice([1, 1, 1, 2])]
    params = PARAMS[: rng.randint(1, 4)]
    public = [param for param in params if rng.random() < 0.7]
    private = [param for param in params if param not in public]
    lines = ["P {", "  roles " + ", ".join(roles)]
    lines.append("  parameters " + ", ".join([f"out {key} key" for key in keys] + [f"out {param}" for param in public]))
    lines += ["  private " + ", ".join(private)] * bool(private)
    for place in range(rng.randint(0, 7)):
        sender, receiver = rng.sample(roles, 2)
        starts = place == 0 or rng.random() < 0.25
        carried = [f"{'out' if starts else 'in'} {key}" for key in keys]
        carried += [f"{rng.choice(['in', 'in', 'out', 'out', 'nil'])} {p}" for p in params if rng.random() < 0.5]
        lines.append(f"  {sender} -> {receiver}: {MESSAGES[place]}[{', '.join(carried)}]")
    return "\n".join([*lines, "}"]) + "\n"


def random_happening(rng, it):
    """The words of something that may have happened in the protocol."""
    words = ["knows", "knows", "bound"] + ["sent", "sent", "received", "received"] * bool(it.messages)
    word = rng.choice(words)
    if word == "knows":
        return [word, rng.choice(it.roles), rng.choice(it.params)]
    if word == "bound":
        return [word, rng.choice(it.params)]
    return [word, rng.choice(it.messages).name]


def random_atom(rng, it):
    """The words of a question without `not`, `and`, `or`."""
    kind = rng.random()
    if kind < 0.12 or (kind < 0.24 and not it.messages):
        excused = rng.sample(it.messages, min(len(it.messages), rng.choice([0, 0, 1, 2])))
        return ["rest"] + [word for message in excused for word in ("but", message.name)]
    if kind < 0.24:
        return ["can", rng.choice(it.messages).name]
    if kind < 0.55:
        return [*random_happening(rng, it), rng.choice(["before", "after"]), *random_happening(rng, it)]
    return random_happening(rng, it)


def random_words(rng, it, depth):
    """The words of a question."""
    kind = rng.random()
    if depth == 0 or kind < 0.2:
        return random_atom(rng, it)
    inner = random_words(rng, it, depth - 1)
    if kind < 0.4:
        return ["not", *(inner if rng.random() < 0.5 else ["(", *inner, ")"])]
    sides = [inner, random_words(rng, it, depth - 1)]
    left, right = [side if rng.random() < 0.5 else ["(", *side, ")"] for side in sides]
    return [*left, rng.choice(["and", "and", "or"]), *right]


def spaced(rng, words):
    """The words with blanks and comments between them."""
    return rng.choice(["", "", " "]) + "".join(word + rng.choice(GAPS) for word in words[:-1]) + words[-1]


def spoilt(rng, words):
    """Words of which one is another one, or is missing, or is one too many; or far too many of them."""
    place = rng.randrange(len(words))
    other = rng.choice(SPOILT)
    return rng.choice([
        [*words[:place], other, *words[place + 1:]], [*words[:place], *words[place + 1:]] or [";"],
        [*words[:place], other, *words[place:]], words[: place + 1], ["not"] * rng.choice([255, 256, 257]) + words,
    ])


def refusal_of(it, asked):
    """What has to be printed of the question, if it has to be refused."""
    try:
        tree, _ = question.read(asked)
    except question.Refused as refusal:
        return str(refusal)
    return question.unknown(tree, it)


def wrong_search(rng, it, tree, events):
    """Where the two searches differ, or nothing; and whether the one over runs tried all."""
    found, tried_all = by_runs.search(it, tree, rng)
    if found and events is None:
        return f"a run over two keys answers yes: {found}", tried_all
    if not found and tried_all and events is not None and len(events) <= by_runs.EVENTS:
        return f"no run over two keys answers yes, but these events do: {events}", tried_all
    if events is not None:
        printed = answers.wrong_run(it, tree, runs.written(it, events))
        return printed and f"the search's own run: {printed}", tried_all
    return None, tried_all


def wrongs(rng, text, it, words, counts):
    """What differs for the question of these words and for a spoilt one."""
    asked = spaced(rng, words)
    tree, _ = question.read(asked)
    events = by_sets.Search(it, tree).answer()
    counts["possible"] += events is not None
    differing, tried_all = wrong_search(rng, it, tree, events)
    counts["by all runs"] += tried_all
    yield differing
    if events is not None and by_formula.refutation(by_formula.Formula(it).clauses(tree)) is not None:
        yield f"unit propagation refutes the formula, but these events answer yes: {events}"
    if not MORE:
        return
    yield answers.wrong_answer(MORE, text, it, asked, events)
    yield None if events is not None else answers.wrong_made_log(MORE, text, it, asked)
    yield answers.wrong_brief_answer(MORE, text, it, asked, events)
    bad = spaced(rng, spoilt(rng, words))
    refusal = None if bad.startswith("-") else refusal_of(it, bad)
    if refusal:
        counts["refused"] += 1
        yield answers.wrong_refusal(MORE, text, it.name, bad, refusal)


def main():
    count, seed = [*map(int, sys.argv[1:]), *[200, 2026][len(sys.argv) - 1:]][:2]
    if MORE and missing(MORE):
        print(f"missing: {MORE}")
        return 1
    counts, wrong = {"possible": 0, "by all runs": 0, "refused": 0}, 0
    for number in range(count):
        rng = random.Random(f"{seed} {number}")
        text = random_text(rng)
        it = protocol.expansion(text, "P")
        words = random_words(rng, it, rng.randint(0, 3))
        for what in filter(None, wrongs(rng, text, it, words, counts)):
            wrong += 1
            print(f"case {number} of seed {seed}: {' '.join(words)}\n{text}{what}", flush=True)
    shown = ", ".join(f"{number} {what}" for what, number in counts.items())
    print(f"{count} questions, {shown}; {'program and searches' if MORE else 'searches alone'}; {wrong} wrong")
    return 1 if wrong else 0


if __name__ == "__main__":
    sys.exit(main())
