#!/usr/bin/env python3
"""Whether bspl audit finds what is wrong with histories, and how long it takes beside a replay.

    checks/audit.py [RUNS]

Protocols are played by this script: at each turn some role emits what it may, or some message arrives; a tenth of all
messages is lost, and a tenth arrives twice. Of RUNS (100) plays of each protocol

- `replay` has to find the run legal, and `audit` has to find the histories of its roles consistent, by a run that
  `replay` finds legal and in which each role has that history;
- then one entry is exchanged with the next one, dropped, invented or moved, and `audit` has to answer by the rule
  below: the first place of the first role that its own earlier events or the sender's history do not allow, and why;
  or, where the events have no order in which each receipt follows its emission, some cycle of receipts; or consistent.

Then EVENTS (100000) events under a tenth as many keys, of eight roles, are audited, and the same events replayed in
the order in which they were made: the seconds of processor time and the megabytes of each, the least of three runs,
and the ratio of the seconds. At last CORNER (1000 2000 4000) receipts under one key, no two alike, the slow corner of
an audit. BSPL names the program (crates/bspl/out/bspl). The last line says how many answers were wrong.
"""
import os
import random
import re
import subprocess
import sys
import tempfile
from pathlib import Path
from typing import NamedTuple

sys.path.insert(0, str(Path(__file__).resolve().parent.parent / "bench"))
from fair import fair  # noqa: E402
from measure import TOP, least, missing, program  # noqa: E402

BSPL = program("bspl")
EVENTS = int(os.environ.get("EVENTS", "100000"))
CORNER = [int(n) for n in os.environ.get("CORNER", "1000 2000 4000").split()]


class Message(NamedTuple):
    sender: str
    receiver: str
    name: str
    carried: list


class Event(NamedTuple):
    act: str
    message: str
    values: tuple


class Protocol:
    """A protocol without references, as its text declares it."""

    def __init__(self, name, text):
        self.name, self.text = name, text.rstrip("\n") + "\n"
        self.roles = re.search(r"roles (.*)", text)[1].split(", ")
        self.keys = re.findall(r"(\w+) key", text)
        found = re.findall(r"(\w+) -> (\w+): (\w+)\[(.*?)\]", text)
        self.messages = {n: Message(s, r, n, [tuple(c.split()) for c in cs.split(", ")]) for s, r, n, cs in found}

    def role_of(self, event):
        message = self.messages[event.message]
        return message.sender if event.act == "send" else message.receiver

    def key_of(self, event):
        return tuple(value for param, value in event.values if param in self.keys)

    def histories_of(self, run):
        return {role: [event for event in run if self.role_of(event) == role] for role in self.roles}


def example(name):
    return Protocol(name, (TOP / "examples" / f"{name}.bspl").read_text())


# ---- what a role knows, and the rule


class Knowledge:
    """What a role knows under each key: of each parameter the values, in the order in which it heard of them."""

    def __init__(self, protocol):
        self.protocol, self.known = protocol, {}

    def values(self, key, param):
        return self.known.get((key, param), [])

    def take(self, event):
        for param, value in event.values:
            self.known.setdefault((self.protocol.key_of(event), param), []).append(value)

    def fault(self, event):
        """Why the role may not emit the event now, or None."""
        sent = dict(event.values)
        for adornment, param in self.protocol.messages[event.message].carried:
            values = self.values(self.protocol.key_of(event), param)
            if adornment == "in" and not values:
                return f"missing {param}"
            if adornment == "in" and sent[param] not in values:
                return f"other {param} {values[0]}"
            if adornment != "in" and values:
                return f"bound {param} {values[0]}"
        return None


def bad_place(protocol, histories):
    """The answer that names the first bad place of the first role that has one, or None."""
    for role in protocol.roles:
        knowledge = Knowledge(protocol)
        for place, event in enumerate(histories[role], 1):
            if event.act == "send":
                fault = knowledge.fault(event)
            else:
                sender = protocol.messages[event.message].sender
                fault = None if event._replace(act="send") in histories[sender] else "unsent"
            if fault:
                return f"inconsistent {role} {place} {fault}\n"
            knowledge.take(event)
    return None


def awaited(protocol, histories, event):
    """Where the first emission of what the event receives is."""
    sender = protocol.messages[event.message].sender
    return sender, histories[sender].index(event._replace(act="send"))


def has_order(protocol, histories):
    """Whether the events have an order that keeps each history, and in which each receipt follows its emission."""
    left = {(role, i) for role in protocol.roles for i in range(len(histories[role]))}
    waits = {}
    for role, i in left:
        event = histories[role][i]
        waits[role, i] = {(role, i - 1)} & left
        if event.act == "receive":
            waits[role, i].add(awaited(protocol, histories, event))
    while ready := {at for at in left if not waits[at] & left}:
        left -= ready
    return not left


def is_cycle(protocol, histories, out):
    """Whether the answer names receipts that wait for one another, from the role that comes first."""
    words = out.split()
    if words[:2] != ["inconsistent", "cycle"] or len(words) < 6:
        return False
    points = list(zip(words[2::2], map(int, words[3::2])))
    roles = [role for role, _ in points]
    for (role, place), (after, behind) in zip(points, points[1:] + points[:1]):
        event = histories[role][place - 1]
        if event.act != "receive":
            return False
        sender, index = awaited(protocol, histories, event)
        if sender != after or index + 1 <= behind:
            return False
    return len(set(roles)) == len(roles) and roles[0] == min(roles, key=protocol.roles.index)


# ---- texts, and the program


def line_of(event):
    return " ".join([event.act, event.message, *(f"{param}={value}" for param, value in event.values)])


def run_part(run):
    return "%% run\nrun 1\n" + "".join(line_of(event) + "\n" for event in run) + "end\n"


def histories_part(histories):
    sections = (f"role {role}\n" + "".join(line_of(e) + "\n" for e in events) for role, events in histories.items())
    return "%% histories\nhistories 1\n" + "".join(sections) + "end\n"


def events_in(text):
    """The events of the text of a run."""
    words = (line.split(" ") for line in text.splitlines() if line.startswith(("send ", "receive ")))
    return [Event(act, message, tuple(tuple(f.split("=", 1)) for f in fields)) for act, message, *fields in words]


def answer(command, protocol, part):
    ran = subprocess.run([BSPL, command, protocol.name], input=(protocol.text + part).encode(), capture_output=True)
    return ran.returncode, ran.stdout.decode()


# ---- plays and what is changed in them


def play(protocol, chance, keys):
    """A legal run: roles emit and messages arrive in any order, some of them never and some twice."""
    roles = {role: Knowledge(protocol) for role in protocol.roles}
    run, arriving, tried = [], [], set()
    while True:
        open_ = [(key, m) for key in keys for m in protocol.messages.values() if (key, m.name) not in tried]
        able = [event for key, m in open_ if (event := emission(protocol, chance, roles[m.sender], key, m))]
        if not able and not arriving:
            return run
        if able and (not arriving or chance.random() < 0.5):
            event = chance.choice(able)
            tried.add((protocol.key_of(event)[0], event.message))
            times = chance.choices([0, 1, 2], [1, 8, 1])[0]
            arriving += [event._replace(act="receive")] * times
        else:
            event = arriving.pop(chance.randrange(len(arriving)))
        run.append(event)
        roles[protocol.role_of(event)].take(event)


def emission(protocol, chance, knowledge, key, message):
    """The emission of the message under the key, with new values, if its sender may emit it."""
    values = []
    for adornment, param in message.carried:
        known = knowledge.values((key,), param)
        if adornment == "in" and known:
            values.append((param, known[0]))
        elif adornment == "out":
            values.append((param, key if param in protocol.keys else str(chance.randrange(100))))
    event = Event("send", message.name, tuple(values))
    whole = len(values) == sum(adornment != "nil" for adornment, _ in message.carried)
    return event if whole and not knowledge.fault(event) else None


def changed(protocol, chance, histories):
    """The same histories but for one entry, and what was done to it."""
    histories = {role: list(events) for role, events in histories.items()}
    events = histories[chance.choice([role for role in protocol.roles if len(histories[role]) > 1])]
    at = chance.randrange(len(events) - 1)
    change = chance.choice(["exchanged", "dropped", "invented", "moved"])
    if change == "exchanged":
        events[at], events[at + 1] = events[at + 1], events[at]
    elif change == "dropped":
        del events[at]
    elif change == "moved":
        events.insert(chance.randrange(len(events)), events.pop(at))
    else:
        values = list(events[at].values)
        which = chance.randrange(len(values))
        values[which] = (values[which][0], str(chance.randrange(100)))
        events.insert(chance.randrange(len(events)), events[at]._replace(values=tuple(values)))
    return histories, change


def kind(out):
    return "consistent" if out.startswith("consistent\n") else "cycle" if " cycle " in out else "bad place"


def is_consistent(protocol, histories, status, out):
    """Whether the answer is a legal run in which each role has its history."""
    run = events_in(out)
    legal = answer("replay", protocol, run_part(run))[1].startswith(f"legal {len(run)}\n")
    return status == 0 and kind(out) == "consistent" and legal and protocol.histories_of(run) == histories


def is_right(protocol, histories, status, out):
    """Whether the answer is the one of the rule."""
    bad = bad_place(protocol, histories)
    if bad:
        return (status, out) == (1, bad)
    if has_order(protocol, histories):
        return is_consistent(protocol, histories, status, out)
    return status == 1 and is_cycle(protocol, histories, out)


def plays(protocol, runs):
    """How many answers on plays of the protocol were wrong."""
    wrong, counts = 0, {}
    for n in range(runs):
        chance = random.Random(n)
        run = play(protocol, chance, [str(key) for key in range(1, 5)])
        histories = protocol.histories_of(run)
        wrong += not answer("replay", protocol, run_part(run))[1].startswith(f"legal {len(run)}\n")
        wrong += not is_consistent(protocol, histories, *answer("audit", protocol, histories_part(histories)))
        histories, change = changed(protocol, chance, histories)
        status, out = answer("audit", protocol, histories_part(histories))
        wrong += not is_right(protocol, histories, status, out)
        counts[change, kind(out)] = counts.get((change, kind(out)), 0) + 1
    told = ", ".join(f"{change} {what} {count}" for (change, what), count in sorted(counts.items()))
    print(f"{protocol.name}: {runs} plays, {wrong} wrong; {told}", flush=True)
    return wrong


# ---- seconds and megabytes


def measured(command, protocol, given):
    """The processor time in seconds and the memory in megabytes of the call that takes least, and what it printed."""
    run = least([BSPL, command, protocol.name], given)
    return run.processor, run.megabytes, run.out


def asked_thrice(key):
    """Ten events under the key: the first role asks three others, and two answer."""
    first, second = 2 + key % 6, 2 + (key + 1) % 6
    ask = lambda n: (f"ask{n}", (("ID", str(key)), (f"a{n}", str(key % 97))))
    reply = lambda n: (f"answer{n}", (*ask(n)[1], (f"b{n}", f'"word{key % 31}"')))
    sent = [ask(1), ask(first), reply(1), ask(second), reply(first)]
    return [Event(act, *message) for message in sent for act in ("send", "receive")]


def large(count):
    """A run with a hundred enactments at a time."""
    run = []
    for start in range(0, count // 10, 100):
        block = [asked_thrice(key) for key in range(start, min(start + 100, count // 10))]
        run += [events[at] for at in range(10) for events in block]
    return run


def shown(what, events, seconds, megabytes, ratio=""):
    print(f"{what:26}{events:8}{seconds:9.3f}{megabytes:7.0f}{ratio:>7}", flush=True)


def times(folder):
    """How many of the measured answers were wrong."""
    protocol, merged, parted = Protocol("Fair", fair()), folder / "merged", folder / "parted"
    # Another process makes the inputs: the memory of this one would be counted as that of the calls.
    if not os.fork():
        run = large(EVENTS)
        merged.write_text(protocol.text + run_part(run))
        parted.write_text(protocol.text + histories_part(protocol.histories_of(run)))
        os._exit(0)
    os.wait()
    print(f"{'':26}{'events':>8}{'seconds':>9}{'MB':>7}{'ratio':>7}")
    replayed, memory, report = measured("replay", protocol, merged)
    shown("replay", EVENTS, replayed, memory)
    seconds, memory, out = measured("audit", protocol, parted)
    shown("audit", EVENTS, seconds, memory, f"{seconds / replayed:.1f}")
    wrong = corner(folder)
    histories = protocol.histories_of(large(EVENTS))
    wrong += not report.startswith(b"legal %d\n" % EVENTS)
    return wrong + (not out.startswith(b"consistent\n") or protocol.histories_of(events_in(out.decode())) != histories)


def corner(folder):
    """How many answers on receipts under one key, no two alike, were wrong."""
    wrong, before, given = 0, None, folder / "corner"
    text = example("Ping").text.replace("out ID]", "out ID, out x]").replace("out ID key", "out ID key, out x")
    protocol = Protocol("Ping", text)
    for count in CORNER:
        received = [Event("receive", "ping", (("ID", "1"), ("x", str(n)))) for n in range(count)]
        histories = {"A": [received[-1]._replace(act="send")], "B": received}
        given.write_text(protocol.text + histories_part(histories))
        seconds, memory, out = measured("audit", protocol, given)
        wrong += out != b"inconsistent B 1 unsent\n"
        shown("receipts under one key", count, seconds, memory, f"{seconds / before:.1f}" if before else "")
        before = seconds
    return wrong


def main():
    if missing(BSPL):
        print(f"{BSPL} is missing: build it in crates/bspl, or name the program in BSPL")
        return 1
    runs = int(sys.argv[1]) if len(sys.argv) > 1 else 100
    protocols = [example("Purchase"), example("Relay"), example("AnyOrder"), Protocol("Fair", fair())]
    wrong = sum(plays(protocol, runs) for protocol in protocols)
    with tempfile.TemporaryDirectory() as folder:
        wrong += times(Path(folder))
    print(f"{wrong} wrong")
    return 1 if wrong else 0


if __name__ == "__main__":
    sys.exit(main())
