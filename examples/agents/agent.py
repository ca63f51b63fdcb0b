#!/usr/bin/env python3
"""An agent that plays one role of Purchase.

    agent.py ROLE PURCHASES LOG [--port PORT] [--seed SEED]

It decides what to send. Whether it may, and what a message that comes tells, its child process answers, a line for each
line: `./bspl role`, or the program that BSPL_ROLE names, as role.py. Each request is logged before it is made, and its
reply after it; an agent that is started with such a log makes the same requests again, gets the same replies, and goes
on.

Messages travel as the role's replies have them, and may be dropped, repeated or late: the receiver acknowledges each
by its number, and the sender sends it again until then. With a seed the lines that come in are treated so here.
"""
import argparse
import json
import os
import signal
import subprocess
import sys
from pathlib import Path

from link import Chaos, Inbox, of_arguments
from protocol import EXAMPLES, purchase

FRONT = str(EXAMPLES.parent / "bspl")
ROLE_COMMAND = [os.environ["BSPL_ROLE"]] if "BSPL_ROLE" in os.environ else [FRONT, "role"]
QUIET = 0.3
AGAIN = 200


def text(words):
    """The spelling of a text as a value."""
    plain = lambda byte: 0x21 <= byte <= 0x7E and byte not in b'"\\'
    return '"' + "".join(chr(b) if plain(b) else f"\\{b:02x}" for b in words.encode()) + '"'


def first_act(key):
    """What the buyer does first: a message, its key and the values that it chooses."""
    return "rfq", [key], [text(f"fig {int(key) % 7}")]


def next_acts(message, values):
    """What the receiver of a message does then."""
    key = [values["ID"]]
    if message == "rfq":
        yield "quote", key, [str(40 + 7 * int(values["ID"]) % 50)]
    elif message == "quote" and int(values["price"]) <= 70:
        yield "accept", key, [text(f"{values['ID']} Hill Road"), text("yes")]
    elif message == "quote":
        yield "reject", key, [text("too dear"), text("no")]
    elif message == "accept":
        yield "ship", key, []
    elif message == "ship":
        yield "deliver", key, [text("left at the door")]


class Role:
    """The child process that keeps the role's store, and the log of what it was asked."""

    def __init__(self, protocol, role, log):
        command = [*ROLE_COMMAND, protocol.name, role]
        self.child = subprocess.Popen(command, stdin=subprocess.PIPE, stdout=subprocess.PIPE)
        self.child.stdin.write((protocol.text + "%% wire\n").encode())
        self.past = list(self.replayed(log))
        self.log = open(log, "ab", buffering=0)

    def replayed(self, log):
        """The requests of the log with their replies, made again. A last line that was cut off is removed."""
        if not log.exists():
            return
        logged = log.read_bytes()
        whole = logged[: logged.rfind(b"\n") + 1]
        lines = whole.splitlines(keepends=True)
        if len(lines) % 2:
            whole = whole[: -len(lines.pop())]
        log.write_bytes(whole)
        for request, reply in zip(lines[::2], lines[1::2]):
            if self.answer(request) != reply:
                sys.exit(f"agent: the log of {log} is not that of this role")
            yield json.loads(request), json.loads(reply)

    def answer(self, line):
        self.child.stdin.write(line)
        self.child.stdin.flush()
        return self.child.stdout.readline()

    def ask(self, request):
        line = json.dumps(request, separators=(",", ":")).encode() + b"\n"
        self.log.write(line)
        reply = self.answer(line)
        if not reply:
            sys.exit("agent: the role's program ended")
        self.log.write(reply)
        return json.loads(reply)

    def close(self):
        self.child.stdin.close()
        self.child.wait()


class Agent:
    def __init__(self, role, log, link):
        self.name, self.protocol, self.link = role, purchase(), link
        self.unheard = {}
        self.role = Role(self.protocol, role, log)

    def begin(self, purchases):
        """Takes up what the log has, and then starts each purchase, if it is the buyer's to start."""
        for request, reply in self.role.past:
            self.after(request, reply)
        for request, reply in self.role.past:
            if "receipt" in reply:
                self.react(request["receive"])
        if self.protocol.messages["rfq"].sender == self.name:
            for n in range(purchases):
                self.emit(*first_act(str(n + 1)))

    def after(self, request, reply):
        """Sends what the role sent, and says to the counter what happened."""
        if "sent" in reply:
            self.unheard[reply["sent"]["number"]] = reply["sent"]
            self.send(reply["sent"])
            self.report("send", reply["sent"])
        elif reply.get("receipt") == "fresh":
            self.report("receive", request["receive"])

    def send(self, message):
        self.link.send(self.protocol.messages[message["message"]].receiver, message)

    def report(self, act, message):
        self.link.send("count", {"act": act, **message})

    def emit(self, message, key, outs):
        request = {"emit": {"key": key, "message": message, "outs": outs}}
        self.after(request, self.role.ask(request))

    def react(self, message):
        for act in next_acts(message["message"], message["values"]):
            self.emit(*act)

    def take(self, item):
        if "ack" in item:
            self.unheard.pop(item["ack"], None)
            return
        request = {"receive": item}
        reply = self.role.ask(request)
        self.after(request, reply)
        if "receipt" in reply:
            self.link.send(self.protocol.messages[item["message"]].sender, {"ack": item["number"]})
        if reply.get("receipt") == "fresh":
            self.react(item)

    def again(self):
        for message in list(self.unheard.values())[:AGAIN]:
            self.send(message)

    def play(self, inbox):
        while True:
            items, is_quiet = inbox.next(QUIET)
            for item in items:
                self.take(item)
            if is_quiet:
                self.again()


def main():
    arguments = argparse.ArgumentParser()
    arguments.add_argument("role")
    arguments.add_argument("purchases", type=int)
    arguments.add_argument("log", type=Path)
    arguments.add_argument("--port", type=int)
    arguments.add_argument("--seed", type=int)
    given = arguments.parse_args()
    signal.signal(signal.SIGTERM, lambda *_: sys.exit(0))
    link = of_arguments(given.role, given.port)
    chaos = None if given.seed is None else Chaos(given.seed)
    agent = Agent(given.role, given.log, link)
    try:
        # it takes lines in from the beginning, so that nobody waits for this process to read
        inbox = Inbox(link, chaos)
        agent.begin(given.purchases)
        agent.play(inbox)
    except EOFError:
        pass
    finally:
        if chaos:
            sys.stderr.write(f"{given.role}: {chaos.told()}\n")
        link.close()
        agent.role.close()


if __name__ == "__main__":
    main()
