#!/usr/bin/env python3
"""Times bspl, bspl_more and dimacs_sat on texts that look for slow corners, beside plain texts of the same size.

    bench/hostile.py [CASE ..]

A line a case: its size in bytes, the seconds of processor time, those of the plain text of that size, the ratio, and
the megabytes of memory that both took at most. The run of RUNS (3) that takes least counts; a run of more than
SECONDS_EACH (120) seconds is stopped. A plain text is a document whose asked protocol is small and stands alone, or for
a run, a log, histories or a script the same text without the fault, or for many private parameters under a long prefix
the same under a short one; that expansion has 520 megabytes. For keys with one hash, by which a table of the kit finds
each in linear time, it is keys with others; for different events under one key, each under a key of its own; for many
receipts of one emission, receipts of as many; for receipts from last to first, those from first to last. The long ones
have SIZE (100000000) bytes: the plain side of `histories` is an audit of so many. What is missing is
said, and left out. BSPL, BSPL_MORE and DIMACS_SAT name the programs (crates/bspl/out/bspl,
crates/bspl_more/out/bspl_more, crates/dimacs_sat/out/dimacs_sat).
"""
import itertools
import multiprocessing
import os
import sys
import tempfile
from functools import partial
from pathlib import Path

import measure
from measure import TOP, least, missing
from replay import purchase, ten

BSPL, BSPL_MORE, DIMACS_SAT = (measure.program(name) for name in ("bspl", "bspl_more", "dimacs_sat"))
SECONDS = int(os.environ.get("SECONDS_EACH", "120"))
SIZE = int(os.environ.get("SIZE", "100000000"))
LETTERS = "abcdefghijklmnopqrstuvwxyzABCDEFGHIJKLMNOPQRSTUVWXYZ"
RESERVED = {"key", "out", "nil", "any", "opt"}
TEXT_LIMIT = 1 << 20
PAIR = "Pair { roles A, B parameters out a key, out b key A -> B: pair[out a, out b] }\n"
MANY = "Many {{ roles A, B, C parameters out ID key, {0} A -> C: a[out ID, {0}] B -> C: b[out ID, {0}] " \
    "C -> A: m[in ID, {1}] }}\n".format(", ".join(f"out x{n}" for n in range(1, 16)),
                                     ", ".join(f"in x{n}" for n in range(1, 16)))
PING = "Ping { roles A, B parameters out ID key A -> B: ping[out ID] }\n"


def names(count):
    """Different names of three or four letters."""
    made = ("".join(letters) for length in (3, 4) for letters in itertools.product(LETTERS, repeat=length))
    return list(itertools.islice((name for name in made if name not in RESERVED), count))


def plain(size):
    """Protocol P alone with one message, and 62 more of messages alone, in about `size` bytes."""
    text = "P{roles A,B parameters out ID key A->B:m[out ID]}\n"
    each, messages = (size - len(text)) // 62, names(20000)
    for number in range(62):
        head, body, at = f"Q{number}{{roles A,B parameters out ID key,out x ", [], 0
        while len(head) + at < each - 30:
            body.append(f"A->B:{messages[len(body)]}[out ID,out x]")
            at += len(body[-1]) + 1
        text += head + "\n".join(body) + "}\n"
    return text


def roles():
    """Two references to a protocol of 120,000 roles, which has a message and a private parameter."""
    declared = names(120000)
    given = "A," * (len(declared) - 1) + "B"
    top = f"P{{roles A,B parameters out ID key Q({given},out ID) Q({given},out ID)}}\n"
    return top + f"Q{{roles {','.join(declared)} parameters out ID key private x" \
        f" {declared[0]}->{declared[-1]}:m[out ID,out x]}}\n"


def list_of_names():
    """100,000 private parameters in one list, the last of which repeats the first."""
    private = names(100000)
    return f"P{{roles A,B parameters out ID key private {','.join(private + private[:1])} A->B:m[out ID]}}\n"


def prefix(messages, params, length=500000):
    """A reference to a protocol whose name has so many bytes, and whose messages carry private parameters."""
    long, private = "q" * length, names(params)
    carried = "".join(f",out {name}" if number == 0 else f",in {name}" for number, name in enumerate(private))
    body = "\n".join(f"A->B:m{number}[out ID{carried}]" for number in range(messages))
    return f"P{{roles A,B parameters out ID key {long}(A,B,out ID)}}\n" \
        f"{long}{{roles A,B parameters out ID key private {','.join(private)} {body}}}\n"


def chain():
    """24,000 protocols, each of which refers to the next, and the last to the first."""
    made = ["P"] + names(23999)
    return "\n".join(f"{name}{{roles A parameters out I key {made[(number + 1) % len(made)]}(A,out I)}}"
                     .replace(" key", " key" if number == 0 else "") for number, name in enumerate(made))


def paths():
    """300^8 paths along references that lead to no message."""
    made = ["P"] + [f"Q{number}" for number in range(1, 9)]
    text = ""
    for name, target in zip(made, made[1:] + [None]):
        body = " ".join([f"{target}(A,B,out ID)"] * 300) if target else ""
        own = "A->B:m[out ID]" if name == "P" else ""
        text += f"{name}{{roles A,B parameters out ID key {own} {body}}}\n"
    return text


def long_run(last):
    """An emission under each key, and the last line."""
    lines = SIZE // 25
    return PING + "%% run\nrun 1\n" + "".join(f"send ping ID={10 ** 9 + number}\n" for number in range(lines)) + last


def long_log(last):
    """The same resolution again and again, and the last line."""
    return PING + "%% log\nlog 1 safety\n" + "step 1 -1 2\n" * (SIZE // 12) + last


def long_script(last):
    """Comments, and the last line."""
    return PING + "%% agents\n" + "// passed over\n" * (SIZE // 15) + last


def folded(state, number, size):
    """The state of the kit's hasher of tables after a number of so many bytes, which is at most 8."""
    product = (state ^ (number * (1 + (1 << 8) + (1 << 16)) if size == 1 else number)) * (0x9E3779B97F4A7C15 ^ 2 * size)
    return product & (1 << 64) - 1 ^ product >> 64


def pairs(count, collide):
    """Different keys of two numbers each; all have one hash, or the second is a number of as many digits."""
    for first in range(1, count + 1):
        state = 0x243F6A8885A308D3
        for number, size in ((2, 8), (0, 1), (first, 8), (0, 1)):
            state = folded(state, number, size)
        yield first, state ^ 12345 if collide else 10 ** 18 + first


def many_keys(collide):
    """A script of 10,000 lines `key`."""
    return PAIR + "%% agents\n" + "".join(f"key {first} {second}\n" for first, second in pairs(10000, collide))


def run_of_keys(collide):
    """A run of an emission under each of 100,000 keys."""
    lines = (f"send pair a={first} b={second}\n" for first, second in pairs(100000, collide))
    return PAIR + "%% run\nrun 1\n" + "".join(lines) + "end\n"


def acts_of_keys(one_key, count=1 << 15):
    """The acts of A, B and C of Many, each a list. C knows two values of each of 15 parameters under one key, and emits
    each message that it can with them, which A receives; or each key has what A and B tell C, and two of these, which
    makes as long a text of half as many."""
    acts = {"A": [], "B": [], "C": []}
    keys, count = (1, count) if one_key else (count // 4, count // 2)
    for number in range(keys):
        for role, name, value in (("A", "a", 0), ("B", "b", 1)):
            line = f"{name} ID={number + 1}" + "".join(f" x{n}={value}" for n in range(1, 16))
            acts[role].append(f"send {line}")
            acts["C"].append(f"receive {line}")
    for number in range(count):
        key = 1 if one_key else number // 2 + 1
        line = f"m ID={key}" + "".join(f" x{n}={number >> (n - 1) & 1}" for n in range(1, 16))
        acts["C"].append(f"send {line}")
        acts["A"].append(f"receive {line}")
    return acts


def run_of_acts(one_key):
    """A legal run: what A and B emit comes before what C does, and what A receives last."""
    acts = acts_of_keys(one_key)
    sent = [line for line in acts["A"] if line.startswith("send")] + acts["B"]
    received = [line for line in acts["A"] if line.startswith("receive")]
    return MANY + "%% run\nrun 1\n" + "\n".join(sent + acts["C"] + received) + "\nend\n"


def histories(protocol, acts, last="end\n"):
    """A text of histories with these acts of each role."""
    sections = "".join(f"role {role}\n" + "".join(f"{line}\n" for line in lines) for role, lines in acts.items())
    return protocol + "%% histories\nhistories 1\n" + sections + last


def histories_of_acts(one_key):
    """The histories of that run."""
    return histories(MANY, acts_of_keys(one_key))


def pings(sent, received):
    """The acts of Ping, each under one of these keys."""
    lines = lambda word, keys: (f"{word} ping ID={10 ** 9 + number}" for number in keys)
    return {"A": lines("send", sent), "B": lines("receive", received)}


def long_histories(last):
    """An emission and its receipt under each key, and the last line."""
    keys = range(SIZE // 51)
    return histories(PING, pings(keys, keys), last)


def receipts(again, count=200000):
    """One emission is received again and again, or each of as many as give a text of that size."""
    keys = range(count * 27 // 51)
    return histories(PING, pings(range(1), [0] * count) if again else pings(keys, keys))


def received(backwards, count=200000):
    """What was emitted is received from last to first, or in order."""
    keys = range(count)
    return histories(PING, pings(keys, reversed(keys) if backwards else keys))


def variables(count):
    """So many variables, and no clause."""
    return f"p cnf {count} 0\n"


def shown_run(count):
    """Purchase and a run of it, of so many events."""
    protocol = (TOP / "examples" / "Purchase.bspl").read_text()
    return protocol.rstrip("\n") + "\n%% run\nrun 1\n" + "".join(f"{line}\n" for line in ten(purchase, count)) + "end\n"


def written(text_of, path):
    """Writes the text into the file, in a process of its own: what this one ever held would count as memory of what it
    starts."""
    writer = multiprocessing.get_context("fork").Process(target=lambda: Path(path).write_text(text_of()))
    writer.start()
    writer.join()
    if writer.exitcode:
        sys.exit(f"{path} could not be written")


def measured(command, text_of):
    """Of RUNS runs of the command on the text the one with the least processor time, and the size of the text."""
    with tempfile.NamedTemporaryFile() as file:
        written(text_of, file.name)
        return least(command, file.name, limit=SECONDS, kept=60), os.path.getsize(file.name)


def row(case, command, text_of, beside):
    """Prints the case's line; `beside` gives the plain command and what makes its text, from the size."""
    run, size = measured(command, text_of)
    first = run.out.decode(errors="replace").splitlines()[0][:28] if run.out else ""
    if first.startswith("refused N1"):
        print(f"{case:22} {Path(command[0]).name} {command[1]} is not supported yet")
        return
    ordinary, _ = measured(*beside(size))
    cell = lambda of: f"{of.processor:9.3f}" if of.status is not None else f"{'stopped':>9}"
    ended = run.status is not None and ordinary.status is not None
    ratio = f"{run.processor / max(ordinary.processor, 0.001):8.1f}" if ended else f"{'-':>8}"
    memory = f"{run.megabytes:7.0f}{ordinary.megabytes:7.0f}"
    print(f"{case:22}{size:>11}{cell(run)}{cell(ordinary)}{ratio}{memory}  {first}", flush=True)


def by_document(command, program=BSPL):
    return lambda size: ([program, command, "P"], partial(plain, size))


def short_prefix(size):
    """The same protocol under a short name, and plain protocols up to the size."""
    short = prefix(64, 15, 3)
    return short + plain(size - len(short)).split("\n", 1)[1]


def against(command, text_of, slow, ordinary):
    """The command on a text made of the one argument, beside the same on one made of the other."""
    return command, partial(text_of, slow), lambda _: (command, partial(text_of, ordinary))


def cases():
    """A case: its name, its command, what makes its text, and what makes the plain command and text from the size."""
    for command in ("expand", "verify"):
        of_p = [BSPL, command, "P"]
        yield f"roles {command}", of_p, roles, by_document(command)
        yield f"names {command}", of_p, list_of_names, by_document(command)
        yield f"prefix 1 {command}", of_p, partial(prefix, 1, 1), by_document(command)
        yield f"chain {command}", of_p, chain, by_document(command)
        yield f"paths {command}", of_p, paths, by_document(command)
    for command in ("expand", "verify"):
        of_p = [BSPL, command, "P"]
        yield f"prefix 64 {command}", of_p, partial(prefix, 64, 15), \
            lambda size, c=of_p: (c, partial(short_prefix, size))
    for case, command, text_of, end in (
        ("run", "replay", long_run, "end\n"),
        ("log", "check", long_log, "end\n"),
        ("histories", "audit", long_histories, "end\n"),
        ("script", "run", long_script, "seed 1\n"),
    ):
        yield case, *against([BSPL, command, "Ping"], text_of, "bad\n", end)
    yield "keys run", *against([BSPL, "run", "Pair", "--threads", "0"], many_keys, True, False)
    yield "keys replay", *against([BSPL, "replay", "Pair"], run_of_keys, True, False)
    yield "events replay", *against([BSPL, "replay", "Many"], run_of_acts, True, False)
    yield "events audit", *against([BSPL, "audit", "Many"], histories_of_acts, True, False)
    yield "receipts audit", *against([BSPL, "audit", "Ping"], receipts, True, False)
    yield "backwards audit", *against([BSPL, "audit", "Ping"], received, True, False)
    for count in (1000, 2000, 4000):
        of_purchase = [BSPL_MORE, "page", "Purchase"]
        yield f"page {count}", of_purchase, partial(shown_run, count), by_document("page", BSPL_MORE)
    yield "dimacs_sat", *against([DIMACS_SAT], variables, 16777215, 1)


def main():
    wanted, told = sys.argv[1:], set()
    print(f"{'case':22}{'bytes':>11}{'seconds':>9}{'plain':>9}{'ratio':>8}{'MB':>7}{'plain':>7}  answer")
    for case, command, text_of, beside in cases():
        if wanted and not any(case.startswith(word) for word in wanted):
            continue
        if missing(command[0]):
            if command[0] not in told:
                print(f"{command[0]} is missing, so its cases are left out")
            told.add(command[0])
            continue
        row(case, command, text_of, beside)


if __name__ == "__main__":
    main()
