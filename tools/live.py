"""Trials of bspl_role with its input held open: each line has to have its reply before the next one is written.

The lines and the replies are those of the worked rows on `bspl serve`, which gives the same replies at the end of its
input as long as its limits are not met; then the status is 0. A role of an unsafe protocol (1), of a text that is
refused (4), and for other arguments (3) has to end at once. So has one whose input (5) or output (6) is cut off after
a reply. A role with a journal is killed after a reply, and started again: it has to go on where it was, and the
journal has to be an input of `bspl serve`.
"""
import queue
import re
import socket
import subprocess
import tempfile
import threading
from pathlib import Path

from faults import PING
from repository import TOP
from rows import rows, without_evidence

# how long the reply to a line may take
SECONDS = 1
# how long a role may take to end by itself, or to open and sync a journal, on a machine that is at work
END_SECONDS = 20
WIRE = b"%% wire\n"
# the opening of a role of Ping, a line for it, and the reply
OPENING = PING + b"\n" + WIRE
EMIT = b'{"emit":{"key":["1"],"message":"ping","outs":[]}}\n'
SENT = b'{"sent":{"message":"ping","number":0,"stamp":1,"values":{"ID":"1"}}}\n'


def started(path, args):
    """A role with pipes. As here, the signal of a broken pipe is ignored, so that writing fails."""
    return subprocess.Popen([path, *args], stdin=subprocess.PIPE, stdout=subprocess.PIPE, restore_signals=False)


class Role:
    """A role that plays, and the lines that it has written, which a thread collects."""

    def __init__(self, path, args):
        self.process = started(path, args)
        self.lines = queue.Queue()
        threading.Thread(target=self.collect, daemon=True).start()

    def collect(self):
        for line in self.process.stdout:
            self.lines.put(line)
        self.lines.put(b"")

    def reply_to(self, line, seconds=SECONDS):
        """Writes the line, and gives the next line of the role; no bytes at the end, or if none came in time."""
        self.process.stdin.write(line)
        self.process.stdin.flush()
        try:
            return self.lines.get(timeout=seconds)
        except queue.Empty:
            return b""

    def end(self):
        """Ends the input. Gives the status, and what the role wrote after the last reply."""
        self.process.stdin.close()
        rest = b"".join(iter(self.lines.get, b""))
        return self.process.wait(), rest


def parts_of(row):
    """Of a row on `serve` that ends well: the text up to the wire line, the role, and its lines with their replies."""
    text, _, wire = row.given.partition(WIRE)
    head, *lines = wire.splitlines(keepends=True)
    return text + WIRE, head.split()[1], list(zip(lines, row.output.splitlines(keepends=True)))


def wrong_play(path, row, options):
    """Plays the role of the row line by line."""
    text, role, lines = parts_of(row)
    player = Role(path, [row.args[2], role, *options])
    player.process.stdin.write(text)
    for line, wanted in lines:
        if line.endswith(b"\n"):
            found = player.reply_to(line)
        else:
            player.process.stdin.write(line)
            status, found = player.end()
            return None if (status, found) == (0, wanted) else f"{row.place}: bspl_role, its last line"
        if found != wanted:
            player.end()
            return f"{row.place}: bspl_role replies {found} to {line}, and not {wanted}"
    return None if player.end() == (0, b"") else f"{row.place}: bspl_role at the end of its input"


def wrong_end(path, args, given, status, output):
    """Whether the role ends with this status and output while its input is held open."""
    player = Role(path, args)
    player.process.stdin.write(given)
    player.process.stdin.flush()
    try:
        ended = player.process.wait(END_SECONDS)
    except subprocess.TimeoutExpired:
        ended = None
        player.process.kill()
    found = without_evidence(b"".join(iter(player.lines.get, b"")))
    wanted = (status, without_evidence(output))
    return None if (ended, found) == wanted else f"bspl_role {args}: ended {ended} with {found}"


def wrong_cut_input(path):
    """An input that is cut off gives the status 5 after the reply: its other end is closed with the reply unread."""
    ours, theirs = socket.socketpair()
    with ours, theirs:
        ours.settimeout(END_SECONDS)
        player = subprocess.Popen([path, "Ping", "A"], stdin=theirs, stdout=theirs)
        theirs.close()
        ours.sendall(OPENING + EMIT)
        found = ours.recv(len(SENT), socket.MSG_PEEK | socket.MSG_WAITALL)
    ended = player.wait(END_SECONDS)
    return None if (ended, found) == (5, SENT) else f"bspl_role: its input is cut off: ended {ended} after {found}"


def wrong_cut_output(path):
    """An output that nobody reads any more gives the status 6 at the next reply."""
    player = started(path, ["Ping", "A"])
    with player.stdin:
        player.stdin.write(OPENING + EMIT)
        player.stdin.flush()
        found = player.stdout.readline()
        player.stdout.close()
        player.stdin.write(EMIT)
        player.stdin.flush()
        ended = player.wait(END_SECONDS)
    return None if (ended, found) == (6, SENT) else f"bspl_role: its output is cut off: ended {ended} after {found}"


def wrong_restart(paths):
    """A role that is killed after a reply has the event of that reply when it is started again with its journal."""
    blocked = b'{"blocked":"bound","kept":"1","param":"ID"}\n'
    with tempfile.TemporaryDirectory() as folder:
        journal = Path(folder) / "A.journal"
        args = ["Ping", "A", "--journal", str(journal)]
        first = Role(paths["bspl_role"], args)
        found = [first.reply_to(OPENING + EMIT, END_SECONDS), first.reply_to(EMIT, END_SECONDS)]
        first.process.kill()
        first.process.wait()
        again = Role(paths["bspl_role"], args)
        found += [again.reply_to(OPENING + EMIT, END_SECONDS), *again.end()]
        text = journal.read_bytes().split(b"\0", 1)[0]
        served = subprocess.run([paths["bspl"], "serve", "Ping"], input=text, stdout=subprocess.PIPE, check=False)
    wanted = [SENT, blocked, blocked, 0, b""]
    if found != wanted:
        return f"bspl_role, killed and started again: {found}, and not {wanted}"
    if (served.returncode, served.stdout) != (0, SENT):
        return f"bspl serve on a journal: {served.returncode} with {served.stdout}"
    return None


def wrong_tutorial(path):
    """The lines and replies of the tutorial's last section: a buyer asks, sends, is killed, and still knows it."""
    page = (TOP / "docs/TUTORIAL.md").read_text().rpartition("\n## ")[2]
    asked, replied = (block.encode().splitlines(keepends=True) for block in re.findall(r"```json\n(.*?)```", page, re.S))
    question, known = (line.encode() + b"\n" for line in re.findall(r"`(\{.known.*?)`", page))
    opening = (TOP / "examples/Purchase.bspl").read_bytes() + WIRE
    with tempfile.TemporaryDirectory() as folder:
        args = ["Purchase", "B", "--journal", str(Path(folder) / "B.journal")]
        buyer = Role(path, args)
        found = [buyer.reply_to(opening + asked[0], END_SECONDS)]
        found += [buyer.reply_to(line, END_SECONDS) for line in asked[1:]]
        buyer.process.kill()
        buyer.process.wait()
        buyer = Role(path, args)
        found += [buyer.reply_to(opening + question, END_SECONDS), buyer.end()]
    wanted = [*replied, known, (0, b"")]
    return None if found == wanted else f"bspl_role, the tutorial: {found}, and not {wanted}"


def is_on_whole_lines(row):
    """Whether the row's lines and replies can be paired: a role line, and a reply for each line after it."""
    text, found, wire = row.given.partition(WIRE)
    lines = wire.splitlines()
    return found and not text.count(b"%%") and lines and len(lines[0].split()) == 2 and (
        len(row.output.splitlines()) == len(lines) - 1
    )


def meets_a_limit(row):
    """Whether the row meets a limit of `serve`, which a role line by line does not have."""
    return b'{"refused":"F3"}' in row.output


def is_unsafe(row):
    """Whether the row has a text of one protocol, which is found unsafe."""
    is_verdict = row.args[:2] == [b"bspl", b"verify"] and b"--brief" in row.args
    return is_verdict and b"\nsafety unsafe" in row.output and row.given.count(b"roles") == 1


def endings(path, all_rows):
    """The calls that end by themselves: status 1, 3 and 4."""
    usage = b"usage: bspl_role NAME ROLE [--unchecked] [--journal FILE [--no-sync]]\n"
    yield lambda: wrong_end(path, ["Ping"], b"", 3, usage)
    yield lambda: wrong_end(path, ["Ping", "A", "--brief"], b"", 3, usage)
    yield lambda: wrong_end(path, ["Ping", "C"], OPENING, 4, b"refused F5\n")
    yield lambda: wrong_end(path, ["Pong", "A"], OPENING, 4, b"refused E3 Pong\n")
    for row in [row for row in all_rows if is_unsafe(row)][:5]:
        role = re.search(rb"roles\s+(\w+)", row.given)[1]
        yield lambda row=row, role=role: wrong_end(path, [row.args[2], role], row.given + b"\n" + WIRE, 1, row.output)


def trials(paths):
    path = paths["bspl_role"]
    all_rows = list(rows())
    for row in all_rows:
        if row.args[:2] == [b"bspl", b"serve"] and row.status == 0 and is_on_whole_lines(row) and not meets_a_limit(row):
            yield lambda row=row: wrong_play(path, row, [b"--unchecked"])
            if row.given.startswith(PING):
                yield lambda row=row: wrong_play(path, row, [])
    yield lambda: wrong_cut_input(path)
    yield lambda: wrong_cut_output(path)
    yield lambda: wrong_restart(paths)
    yield lambda: wrong_tutorial(path)
    yield from endings(path, all_rows)
