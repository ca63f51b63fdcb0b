"""A role of `Purchase` with a journal: its process, its lines, and what its file keeps."""
import json
import os
import subprocess
import sys
from pathlib import Path

sys.path.insert(0, str(Path(__file__).resolve().parents[2] / "bench"))
from measure import TOP, program  # noqa: E402

ROLE = program("bspl_role")
BSPL = program("bspl")
TEXT = (TOP / "examples/Purchase.bspl").read_bytes()
WIRE = b"%% wire\n"
SECTOR = 512


class Ended(Exception):
    """The role ended before it had answered."""


def line(request):
    return json.dumps(request, separators=(",", ":")).encode() + b"\n"


def receive(message, values, number=0, stamp=0):
    return line({"receive": {"message": message, "number": number, "stamp": stamp, "values": values}})


def emit(message, key, *outs):
    return line({"emit": {"key": [key], "message": message, "outs": list(outs)}})


def rfq(n):
    """The line by which the seller receives the request of this number."""
    return receive("rfq", {"ID": str(n), "item": '"fig"'}, number=n, stamp=n)


# a line that makes no event, whatever came before
IDLE = emit("ship", "-1")


def makes_event(reply):
    return b'"sent":{' in reply or b'"receipt":"fresh"' in reply


class Role:
    """A process that plays the role over the journal."""

    def __init__(self, role, journal, options=(), before=(), name="Purchase", text=TEXT):
        command = [*before, ROLE, name, role, "--journal", str(journal), *options]
        self.process = subprocess.Popen(command, stdin=subprocess.PIPE, stdout=subprocess.PIPE, bufsize=0)
        self.begun = b""
        self.write(text + b"\n" + WIRE)

    def write(self, given):
        try:
            self.process.stdin.write(given)
        except BrokenPipeError:
            pass

    def reply(self):
        """The next reply."""
        while b"\n" not in self.begun:
            came = os.read(self.process.stdout.fileno(), 65536)
            if not came:
                raise Ended
            self.begun += came
        first, _, self.begun = self.begun.partition(b"\n")
        return first + b"\n"

    def ask(self, *lines):
        """Writes the lines at once, and gives their replies one by one."""
        self.write(b"".join(lines))
        for _ in lines:
            yield self.reply()

    def end(self):
        """Ends the input. The status, and what was still written."""
        self.process.stdin.close()
        rest = self.begun + self.process.stdout.read()
        self.process.stdout.close()
        return self.process.wait(), rest

    def kill(self):
        self.process.kill()
        self.process.stdin.close()
        self.process.stdout.close()
        self.process.wait()


def head(role):
    """What the journal of a role of `Purchase` begins with."""
    expanded = subprocess.run([BSPL, "expand", "Purchase"], input=TEXT, stdout=subprocess.PIPE, check=True).stdout
    return expanded + WIRE + b"role %s\n" % role.encode()


def text_of(image):
    """The text of a file: the whole lines before the first zero."""
    before = image.split(b"\0", 1)[0]
    return before[: before.rfind(b"\n") + 1]


def kept(journal, role="S"):
    """The lines that the file keeps behind its head, in order."""
    text = text_of(journal.read_bytes()) if journal.exists() else b""
    begins = head(role)
    if not text.startswith(begins):
        return []
    return text[len(begins):].splitlines(keepends=True)
