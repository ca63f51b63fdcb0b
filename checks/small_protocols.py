#!/usr/bin/env python3
"""Compares the formulas of small protocols with a search over all of their runs.

    checks/small_protocols.py [COUNT]

COUNT (200) protocols are made by a rule from a seed, and the protocols of examples/ that stand for themselves
are added. For each one the formulas that `bspl_more formula` prints for NAME, of `safety`, of `liveness` and of `dead M`
for each message M, are compared, clause by clause, with those that are made here from the tables of families in
docs/FORMATS.md; `minisat`, if it is installed, decides them; and the runs are searched here, without any formula. A
protocol is unsafe exactly if its safety formula has a solution, not live exactly if its liveness formula has one, and
a message can be sent exactly if its formula has one. The verdicts of `bspl verify` are compared too, and the answers
of `bspl_more ask` on each message and on each two, if they are built. BSPL and BSPL_MORE name the programs
(crates/bspl/out/bspl and so on). The status is 1 if anything differs.
"""
import itertools
import random
import re
import shutil
import subprocess
import sys
from pathlib import Path

sys.path.insert(0, str(Path(__file__).resolve().parent.parent / "bench"))
from measure import TOP, missing, program  # noqa: E402

MORE, VERIFIER = program("bspl_more"), program("bspl")
ROLES = ["A", "B", "C"]


def random_protocol(number):
    """Two or three roles, one key, up to three more parameters, and one to five messages. Each message has
    the key `in` or `out`, and each other parameter with probability one half, adorned at random. The key is public,
    and each other parameter with probability three quarters; what is public is adorned `out`."""
    rng = random.Random(number)
    roles = ROLES[: rng.randint(2, 3)]
    params = ["ID"] + [f"p{i}" for i in range(rng.randint(1, 3))]
    messages = []
    for i in range(rng.randint(1, 5)):
        sender, receiver = rng.sample(roles, 2)
        carried = [("out" if i == 0 or rng.random() < 0.3 else "in", "ID")]
        for p in params[1:]:
            if rng.random() < 0.5:
                carried.append((rng.choice(["in", "out", "out", "nil"]), p))
        messages.append((f"m{i}", sender, receiver, carried))
    public = [p for p in params if p == "ID" or rng.random() < 0.75]
    return f"P{number}", public + [p for p in params if p not in public], public, roles, messages


def text_of(protocol):
    name, params, public, roles, messages = protocol
    declared = ", ".join(f"out {p}" + (" key" if p == "ID" else "") for p in public)
    lines = [f"{name} {{", "  roles " + ", ".join(roles), "  parameters " + declared]
    if len(public) < len(params):
        lines.append("  private " + ", ".join(params[len(public):]))
    for message, sender, receiver, carried in messages:
        lines.append(f"  {sender} -> {receiver}: {message}[" + ", ".join(f"{a} {p}" for a, p in carried) + "]")
    return "\n".join(lines + ["}"]) + "\n"


def read_plain(path):
    """A protocol of messages alone, as the examples are laid out; None if it refers to others."""
    text = re.sub(r"//.*", "", path.read_text())
    head = re.match(r"\s*(\S+)\s*\{\s*roles?\s+(.*?)\s+parameters?\s+(.*?)(?:\s+private\s+(.*?))?(?=\s+\w[\w-]*\s*->|\s*\})",
                    text, re.S)
    if not head or re.search(r"\w\s*\(", text) or text.count("{") != 1:
        return None
    declared = [f.split() for f in re.split(r"\s*,\s*", head.group(3).strip())]
    params, values = [f[1] for f in declared], [f[1] for f in declared if f[0] != "nil"]
    if head.group(4):
        params += re.split(r"\s*,\s*", head.group(4).strip())
    messages = []
    for sender, receiver, name, body in re.findall(r"([\w-]+)\s*->\s*([\w-]+)\s*:\s*(\w[\w-]*)\s*\[(.*?)\]", text, re.S):
        carried = [tuple(f.split()[:2]) for f in re.split(r"\s*,\s*", body.strip())]
        messages.append((name, sender, receiver, carried))
    return head.group(1), params, values, re.split(r"\s*,\s*", head.group(2).strip()), messages


def search(protocol):
    """Searches all runs under one key: whether one has a conflict, whether one comes to rest with a public parameter
    that nobody knows, and which sets of messages are sent. A message with an `out` is sent once; one without changes
    nothing when it is sent again. What a role knows is what was carried to it or by it."""
    _, _, values, _, messages = protocol
    start = (frozenset(), frozenset())
    seen, stack = {start}, [start]
    unsafe = not_live = False
    together = set()
    while stack:
        sent, received = stack.pop()
        together.add(sent)
        known = {}
        for i, (_, sender, receiver, carried) in enumerate(messages):
            bound = {p for a, p in carried if a != "nil"}
            if i in sent:
                known.setdefault(sender, set()).update(bound)
            if i in received:
                known.setdefault(receiver, set()).update(bound)
        produced = {p for i in sent for a, p in messages[i][3] if a == "out"}
        after = [(sent, received | {i}) for i in sent - received]
        for i, (_, sender, _, carried) in enumerate(messages):
            have = known.get(sender, set())
            if i not in sent and all((p in have) == (a == "in") for a, p in carried):
                unsafe |= any(a == "out" and p in produced for a, p in carried)
                after.append((sent | {i}, received))
        not_live |= not after and not set(values) <= set().union(*known.values())
        for state in after:
            if state not in seen:
                seen.add(state)
                stack.append(state)
    return {"safety": unsafe, "liveness": not_live}, together


def formula(protocol, wanted):
    """The clauses of docs/FORMATS.md, each as a set of literals: for a property, or for a message by its index."""
    _, params, values, _, messages = protocol
    count = len(messages)
    kinds = 2 * count
    sent, received = (lambda m: 2 * m + 1), (lambda m: 2 * m + 2)
    adorned = lambda m, *adornments: [p for a, p in messages[m][3] if a in adornments]
    selectors = [(m, n) for p in params for m, n in itertools.combinations(
        [i for i in range(count) if p in adorned(i, "out")], 2)]
    lacking = [(m, p) for m in range(count) for p in adorned(m, "in")]
    base = kinds + (len(values) + len(lacking) if wanted == "liveness" else len(selectors))
    number = {pair: base + k + 1 for k, pair in enumerate(itertools.combinations(range(1, kinds + 1), 2))}
    before = lambda i, j: number[i, j] if i < j else -number[j, i]

    def carriers(m, p):
        role = messages[m][1]
        found = []
        for n, (_, sender, receiver, _) in enumerate(messages):
            if p in adorned(n, "in", "out"):
                found += [sent(n)] * (sender == role) + [received(n)] * (receiver == role)
        return [c for c in found if c != sent(m)]

    clauses = []
    for i, j, k in itertools.combinations(range(1, kinds + 1), 3):
        clauses += [[-before(i, j), -before(j, k), before(i, k)], [before(i, j), before(j, k), -before(i, k)]]
    clauses += [[-i, j, before(i, j)] for i, j in itertools.permutations(range(1, kinds + 1), 2)]
    clauses += [[-received(m), before(sent(m), received(m))] for m in range(count)]
    for m in range(count):
        clauses += [[-sent(m)] + [before(c, sent(m)) for c in carriers(m, p)] for p in adorned(m, "in")]
    for m in range(count):
        clauses += [[-sent(m), -before(c, sent(m))] for p in adorned(m, "out", "nil") for c in carriers(m, p)]
    if wanted == "safety":
        for s, (m, n) in enumerate(selectors, kinds + 1):
            clauses += [[-s, sent(m)], [-s, sent(n)]]
        clauses.append(list(range(kinds + 1, base + 1)))
    elif wanted != "liveness":
        clauses.append([sent(wanted)])
    else:
        unbound = {p: kinds + 1 + k for k, p in enumerate(values)}
        lacks = {want: kinds + len(values) + 1 + k for k, want in enumerate(lacking)}
        clauses += [[-sent(m), received(m)] for m in range(count)]
        for m in range(count):
            clauses.append([sent(m)] + [lacks[m, p] for p in adorned(m, "in")]
                           + [c for p in adorned(m, "out", "nil") for c in carriers(m, p)])
        clauses += [[-v, -c] for (m, p), v in lacks.items() for c in carriers(m, p)]
        clauses += [[-v, -sent(m)] for p, v in unbound.items() for m in range(count) if p in adorned(m, "in", "out")]
        clauses.append(list(unbound.values()))
    return base + len(number), [frozenset(c) for c in clauses]


def printed_formula(name, words, text):
    run = subprocess.run([MORE, "formula", name, *words], input=text.encode(), capture_output=True)
    if run.returncode != 0:
        return run.stdout.decode().strip(), None
    lines = [line for line in run.stdout.decode().splitlines() if not line.startswith("c")]
    variables = int(lines[0].split()[2])
    clauses = [frozenset(map(int, line.split()[:-1])) for line in lines[1:]]
    return (variables, clauses), run.stdout


def has_solution(dimacs):
    run = subprocess.run(["minisat", "-verb=0", "/dev/stdin", "/dev/null"], input=dimacs, capture_output=True)
    return {10: True, 20: False}[run.returncode]


def verdicts(name, text):
    """Whether `bspl verify` refutes each property."""
    run = subprocess.run([VERIFIER, "verify", name, "--brief"], input=text.encode(), capture_output=True)
    lines = run.stdout.decode().splitlines()
    return {"safety": "safety safe" not in lines, "liveness": "liveness live" not in lines}


def can_send(name, messages, text):
    """Whether `bspl_more ask` prints a run in which these messages are sent."""
    question = " and ".join(f"sent {message}" for message in messages)
    run = subprocess.run([MORE, "ask", name, question, "--brief"], input=text.encode(), capture_output=True)
    return {0: True, 1: False}.get(run.returncode)


def wrong_answers(protocol, text, together):
    """How many messages, alone and by two, are answered otherwise than the runs say, and how many were asked."""
    name, _, _, _, messages = protocol
    asked = wrong = 0
    for chosen in [*itertools.combinations(range(len(messages)), 1), *itertools.combinations(range(len(messages)), 2)]:
        names, asked = [messages[m][0] for m in chosen], asked + 1
        found = any(set(chosen) <= sent for sent in together)
        if can_send(name, names, text) != found:
            wrong += 1
            print(f"{name}: the runs say {found} of {' '.join(names)}")
    return wrong, asked


def main():
    wanted = int(sys.argv[1]) if len(sys.argv) > 1 else 200
    minisat = shutil.which("minisat")
    if not minisat:
        print("minisat is not installed: formulas are compared, and not decided")
    absent = missing(VERIFIER, MORE)
    if absent:
        print(f"missing: {', '.join(absent)}")
        return 1
    protocols = [(p, text_of(p)) for p in map(random_protocol, range(wanted))]
    for path in sorted((TOP / "examples").glob("*.bspl")):
        plain = read_plain(path)
        if plain:
            protocols.append((plain, path.read_text()))
    compared = decided = verified = answered = refused = wrong = 0
    failing = {"safety": 0, "liveness": 0, "dead": 0}
    for protocol, text in protocols:
        found, together = search(protocol)
        messages = [message for message, *_ in protocol[4]]
        sent = set().union(*together)
        said = verdicts(protocol[0], text)
        rows = [(word, (word,), found[word], word) for word in ("safety", "liveness")]
        rows += [("dead", ("dead", name), m in sent, m) for m, name in enumerate(messages)]
        for word, words, holds, asked in rows:
            printed, dimacs = printed_formula(protocol[0], words, text)
            if dimacs is None:
                refused += 1
                continue
            compared += 1
            failing[word] += holds != (word == "dead")
            shown = " ".join(words)
            if printed != formula(protocol, asked):
                wrong += 1
                print(f"{protocol[0]} {shown}: another formula")
            if said and word != "dead":
                verified += 1
                if said[word] != holds:
                    wrong += 1
                    print(f"{protocol[0]} {shown}: the verdict says {said[word]}, the runs say {holds}")
            if minisat:
                decided += 1
                if has_solution(dimacs) != holds:
                    wrong += 1
                    print(f"{protocol[0]} {shown}: the formula says {not holds}, the runs say {holds}")
        if dimacs is not None:
            others, asked = wrong_answers(protocol, text, together)
            wrong, answered = wrong + others, answered + asked
    print(f"{compared} formulas of {len(protocols)} protocols compared, {failing['safety']} of them unsafe, "
          f"{failing['liveness']} not live and {failing['dead']} of a dead message; {decided} decided by minisat; "
          f"{verified} verdicts; {answered} answers on messages; {refused} refused; {wrong} wrong")
    return 1 if wrong else 0


if __name__ == "__main__":
    sys.exit(main())
