"""What a protocol text without references declares. `bspl expand NAME` prints such a text of any protocol."""
import re
import sys
from pathlib import Path
from typing import NamedTuple

EXAMPLES = Path(__file__).resolve().parent.parent
MESSAGE = re.compile(r"([\w-]+)\s*->\s*([\w-]+)\s*:\s*([\w#.-]+)\s*\[(.*?)\]", re.S)


def declared(text):
    """The keys, and for each message its sender, its receiver, its name and its parameters with their adornments."""
    text = re.sub(r"//[^\n]*", " ", text).replace("\u21a6", "->")
    first = MESSAGE.search(text)
    head, body = (text[: first.start()], text[first.start() :]) if first else (text, "}")
    if MESSAGE.sub("", body).strip() != "}":
        sys.exit("protocol: more than messages; `bspl expand NAME` prints a text without references")
    return re.findall(r"([\w#.-]+)\s+key(?![\w#.-])", head), MESSAGE.findall(body)


class Message(NamedTuple):
    sender: str
    receiver: str
    params: list  # those that have a value, in the message's order


class Protocol:
    def __init__(self, text):
        self.text = text.rstrip("\n") + "\n"
        self.name = re.match(r"(?:\s|//[^\n]*\n)*([\w-]+)", text)[1]
        self.keys, found = declared(text)
        self.messages = {name: Message(s, r, valued(carried)) for s, r, name, carried in found}


def valued(carried):
    fields = [field.split() for field in carried.split(",")]
    return [field[1] for field in fields if field[0] != "nil"]


def purchase():
    return Protocol((EXAMPLES / "Purchase.bspl").read_text(encoding="utf-8"))
