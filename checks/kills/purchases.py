"""Three roles play purchases while they are killed and started again."""
import json
import subprocess
import sys
import threading
import time
from collections import deque
from pathlib import Path

from .role import BSPL, TEXT, TOP, Ended, Role, emit, head, kept, receive

sys.path.insert(0, str(TOP / "examples/agents"))
import history  # noqa: E402
from protocol import Protocol  # noqa: E402

# a role is killed once in so many seconds
PERIOD = 0.3
# what each role sends once it has received a message, with the values that it chooses
NEXT = {"rfq": ("quote", ["40"]), "quote": ("accept", ['"Hill\\20Road"', '"yes"']), "accept": ("ship", []),
        "ship": ("deliver", ['"there"'])}
CARRIED = {"rfq": ["ID", "item"], "quote": ["ID", "item", "price"], "accept": ["ID", "item", "price", "address", "response"],
           "ship": ["ID", "item", "address"], "deliver": ["ID", "item", "address", "outcome"]}
CHOSEN = {"rfq": ["item"], "quote": ["price"], "accept": ["address", "response"], "ship": [], "deliver": ["outcome"]}
TO = {"rfq": "S", "quote": "B", "accept": "S", "ship": "Shipper", "deliver": "B"}


class Player(threading.Thread):
    """A role with its agent, which asks again what was not answered when the role was killed."""

    def __init__(self, name, folder, game):
        super().__init__(daemon=True)
        self.name, self.journal, self.game = name, folder / f"{name}.journal", game
        self.todo, self.known, self.restarts = deque(), {}, 0
        self.role = None

    def start_role(self):
        self.role = Role(self.name, self.journal)

    def reply_to(self, line):
        while True:
            try:
                return next(self.role.ask(line))
            except Ended:
                self.role.kill()
                self.restarts += 1
                self.start_role()

    def send(self, message, key, chosen):
        """Emits the message. One that an earlier life emitted is made again from what is known."""
        reply = json.loads(self.reply_to(emit(message, key, *chosen)))
        values = self.known[key]
        values.update(zip(CHOSEN[message], chosen))
        if "sent" not in reply and reply.get("blocked") != "bound" and CHOSEN[message]:
            self.game.wrong.append(f"{self.name} emits {message} {key}: {reply}")
        self.game.players[TO[message]].todo.append((message, {name: values[name] for name in CARRIED[message]}))

    def take(self, message, values):
        reply = json.loads(self.reply_to(receive(message, values)))
        if reply.get("receipt") not in ("fresh", "repeat"):
            self.game.wrong.append(f"{self.name} receives {message} {values}: {reply}")
        key = values["ID"]
        self.known.setdefault(key, {}).update(values)
        if message in NEXT:
            self.send(NEXT[message][0], key, NEXT[message][1])
        else:
            self.game.ended += 1

    def run(self):
        self.start_role()
        if self.name == "B":
            for n in range(1, self.game.purchases + 1):
                self.known[str(n)] = {"ID": str(n)}
                self.send("rfq", str(n), ['"fig"'])
        while self.game.ended < self.game.purchases and not self.game.wrong:
            if self.todo:
                self.take(*self.todo.popleft())
            else:
                time.sleep(0.0005)


class Game:
    def __init__(self, folder, purchases):
        self.purchases, self.ended, self.wrong = purchases, 0, []
        self.players = {name: Player(name, folder, self) for name in ("B", "S", "Shipper")}


def audited(players):
    """What `bspl audit` says of the journals."""
    logs = {}
    for name, player in players.items():
        lines = kept(player.journal, name)
        replies = subprocess.run([BSPL, "serve", "Purchase"], input=head(name) + b"".join(lines), stdout=subprocess.PIPE,
                                 check=True).stdout.splitlines(keepends=True)
        log = player.journal.with_suffix(".log")
        log.write_bytes(b"".join(line + reply for line, reply in zip(lines, replies)))
        logs[name] = Path(log)
    given = history.audited(Protocol(TEXT.decode()), logs)
    return subprocess.run([BSPL, "audit", "Purchase"], input=given.encode(), stdout=subprocess.PIPE, check=False).stdout


def played(folder, purchases, seconds=300):
    """Plays so many purchases while two roles in turn are killed. Yields what is wrong."""
    game = Game(folder, purchases)
    begun = time.monotonic()
    for player in game.players.values():
        player.start()
    turn = 0
    while game.ended < purchases and not game.wrong and time.monotonic() - begun < seconds:
        time.sleep(PERIOD)
        game.players[("B", "S")[turn % 2]].role.process.kill()
        turn += 1
    took = time.monotonic() - begun
    for player in game.players.values():
        player.join(10)
        player.role.end()
    yield from game.wrong
    if game.ended < purchases:
        yield f"only {game.ended} of {purchases} purchases ended"
    answer = audited(game.players)
    if not answer.startswith(b"consistent\n"):
        yield f"the audit of the journals: {answer[:200]}"
    print(f"{game.ended} purchases ended in {took:.1f} s, with {turn} kills", flush=True)
