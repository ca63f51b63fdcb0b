#!/usr/bin/env python3
"""Lets three agents play Purchase, and audits what they did.

    play.py [--pipes] [--chaos] [--purchases N] [--logs FOLDER] [--role PROGRAM]

The agents reach each other over a broker, mosquitto, which is started here on a port of its own; with --pipes over
pipes. With --chaos a tenth of the lines to each agent is dropped, a tenth comes twice, and a tenth comes late; and the
seller is killed once and started again. When all N (1000) purchases have ended, `bspl audit` judges the three
histories, and the outcome of each purchase is printed. The status is 0 if one legal run explains the histories, and no
two of them have different values of one thing. The agents ask `./bspl role`, or the program of --role or of BSPL_ROLE,
as role.py; `./bspl audit` audits, or the program that BSPL names.
"""
import argparse
import collections
import os
import signal
import socket
import subprocess
import sys
import tempfile
import threading
import time
from pathlib import Path

from history import audited, events
from link import session
from protocol import EXAMPLES, purchase

HERE = Path(__file__).resolve().parent
FRONT = str(EXAMPLES.parent / "bspl")
BSPL = os.environ.get("BSPL", FRONT)
ROLES = ["B", "S", "Shipper"]
KILLED = "S"
SECONDS = 600


class Game:
    """The processes, over pipes that this one joins."""

    def __init__(self, given, folder):
        self.given, self.folder = given, folder
        self.processes = {}
        self.writing = collections.defaultdict(threading.Lock)

    def log(self, role):
        return self.folder / f"{role}.log"

    def link(self):
        return []

    def start_counter(self):
        self.start("count", ["count.py", str(self.given.purchases), *self.link()])

    def start_agent(self, role, seed):
        chaos = ["--seed", str(seed)] if self.given.chaos else []
        self.start(role, ["agent.py", role, str(self.given.purchases), str(self.log(role)), *self.link(), *chaos])

    def start(self, name, command):
        command = [sys.executable, str(HERE / command[0]), *command[1:]]
        pipe = subprocess.PIPE
        self.processes[name] = process = subprocess.Popen(command, stdin=pipe, stdout=pipe, text=True, bufsize=1)
        threading.Thread(target=self.carry, args=[process], daemon=True).start()

    def carry(self, process):
        """Passes each line on to the process that it names. What nobody takes, or was cut off by a kill, is lost."""
        for line in process.stdout:
            to, _, text = line.partition(" ")
            if not text.endswith("\n"):
                continue
            try:
                with self.writing[to]:
                    self.processes[to].stdin.write(text)
            except OSError:
                pass

    def stop(self):
        for process in self.processes.values():
            process.terminate()
        for process in self.processes.values():
            process.wait()


class BrokerGame(Game):
    """The processes, over a broker."""

    def __init__(self, given, folder):
        super().__init__(given, folder)
        self.port = free_port()
        settings = folder / "mosquitto.conf"
        settings.write_text(f"listener {self.port} 127.0.0.1\nallow_anonymous true\nmax_queued_messages 0\nlog_type error\n")
        self.broker = subprocess.Popen(["mosquitto", "-c", str(settings)])
        wait_for(self.port)
        # each session is there before the first line is published
        for name in [*ROLES, "count"]:
            subprocess.run([*session(name, self.port), "-E"], check=True)

    def link(self):
        return ["--port", str(self.port)]

    def start(self, name, command):
        self.processes[name] = subprocess.Popen([sys.executable, str(HERE / command[0]), *command[1:]])

    def stop(self):
        super().stop()
        self.broker.terminate()
        self.broker.wait()


def free_port():
    with socket.socket() as found:
        found.bind(("127.0.0.1", 0))
        return found.getsockname()[1]


def wait_for(port):
    for _ in range(100):
        with socket.socket() as tried:
            if tried.connect_ex(("127.0.0.1", port)) == 0:
                return
        time.sleep(0.05)
    sys.exit("play: the broker does not listen")


def kill_once(game, seed):
    """Kills the agent in the midst of its work, and starts it again."""
    while line_count(game.log(KILLED)) < game.given.purchases:
        time.sleep(0.01)
    game.processes[KILLED].kill()
    game.processes[KILLED].wait()
    print(f"play: {KILLED} was killed after {line_count(game.log(KILLED))} lines, and starts again", file=sys.stderr)
    game.start_agent(KILLED, seed)


def line_count(path):
    return path.read_bytes().count(b"\n") if path.exists() else 0


def play(game):
    """Whether all purchases have ended."""
    game.start_counter()
    for seed, role in enumerate(ROLES):
        game.start_agent(role, seed)
    if game.given.chaos:
        kill_once(game, len(ROLES))
    return game.processes["count"].wait(timeout=SECONDS) == 0


def values_of(logs):
    """The values that any role has of each parameter of each purchase."""
    found = collections.defaultdict(set)
    for log in logs.values():
        for _, _, values in events(log):
            for param, value in values.items():
                found[int(values["ID"]), param].add(value)
    return found


def audit(logs):
    """What the audit answers in its first line."""
    protocol = purchase()
    command = [BSPL, "audit", protocol.name]
    ran = subprocess.run(command, input=audited(protocol, logs).encode(), capture_output=True)
    return ran.stdout.decode().split("\n")[0]


def report(logs, purchases):
    """Prints the outcomes and the answer of the audit, and says whether all is well."""
    found = values_of(logs)
    for n in range(1, purchases + 1):
        print(f"purchase {n} {' or '.join(sorted(found[n, 'outcome'])) or 'open'}")
    answer = audit(logs)
    differing = sum(len(values) > 1 for values in found.values())
    outcomes = collections.Counter(next(iter(found[n, "outcome"]), "open") for n in range(1, purchases + 1))
    for outcome, count in sorted(outcomes.items()):
        print(f"{count} times {outcome}")
    print(f"{sum(1 for log in logs.values() for _ in events(log))} events; {differing} values differ; audit: {answer}")
    return answer == "consistent" and not differing and "open" not in outcomes


def tell_of_role():
    """Says what keeps the roles' stores; what has no build yet gets one before the play begins."""
    if "BSPL_ROLE" not in os.environ:
        subprocess.run([FRONT, "role"], stdin=subprocess.DEVNULL, capture_output=True)
    print(f"play: the roles are those of {os.environ.get('BSPL_ROLE', './bspl role')}", file=sys.stderr)


def main():
    arguments = argparse.ArgumentParser()
    arguments.add_argument("--pipes", action="store_true")
    arguments.add_argument("--chaos", action="store_true")
    arguments.add_argument("--purchases", type=int, default=1000)
    arguments.add_argument("--logs", type=Path)
    arguments.add_argument("--role", type=Path)
    given = arguments.parse_args()
    if given.role:
        os.environ["BSPL_ROLE"] = str(given.role.resolve())
    tell_of_role()
    signal.signal(signal.SIGTERM, lambda *_: sys.exit(1))
    with tempfile.TemporaryDirectory() as scratch:
        folder = given.logs or Path(scratch)
        folder.mkdir(exist_ok=True)
        for old in folder.glob("*.log"):
            old.unlink()
        game = (Game if given.pipes else BrokerGame)(given, folder)
        begun = time.monotonic()
        try:
            ended = play(game)
        finally:
            game.stop()
        print(f"play: {time.monotonic() - begun:.1f} s", file=sys.stderr)
        logs = {role: game.log(role) for role in ROLES}
        return 0 if report(logs, given.purchases) and ended else 1


if __name__ == "__main__":
    sys.exit(main())
