#!/usr/bin/env python3
"""A role on the wire, written plainly: dicts, and the json module.

    role.py NAME ROLE

Standard input begins with a protocol without references and the line `%% wire`. Each line after it is a request, and
is answered at once, as README.md says. The protocol is neither admitted nor judged here.
"""
import json
import re
import sys

from protocol import declared

EVENTS, KEYS, LAST = 65536, 10000, 2**64 - 1
NUMBER = re.compile(r"(?:0|[1-9][0-9]{0,19})\Z")
TEXT = re.compile(r'"(?:[!#-\[\]-~]|\\[0-9a-f]{2})*"\Z')
ESCAPE = re.compile(r"\\(..)")


class Refused(Exception):
    pass


def is_value(field):
    """Whether the field is the one spelling of a number or of a text."""
    if NUMBER.match(field):
        return int(field) <= LAST
    if not TEXT.match(field):
        return False
    escaped = [int(code, 16) for code in ESCAPE.findall(field)]
    plain = all(not 0x21 <= byte <= 0x7E or byte in b'"\\' for byte in escaped)
    return plain and len(field) - 2 - 2 * len(escaped) <= 32


class Message:
    def __init__(self, sender, receiver, carried, keys):
        self.sender, self.receiver = sender, receiver
        self.carried = [tuple(word.split()[:2]) for word in carried.split(",")]
        self.valued = [param for adornment, param in self.carried if adornment != "nil"]
        self.chosen = [param for adornment, param in self.carried if adornment == "out" and param not in keys]
        self.names = set(self.valued)


class Role:
    def __init__(self, text, role):
        self.role = role
        self.keys, found = declared(text)
        self.messages = {name: Message(s, r, carried, self.keys) for s, r, name, carried in found}
        self.known, self.seen = {}, {}
        self.clock = self.count = 0

    def answer(self, line):
        try:
            return self.done(request(line))
        except Refused as refused:
            return {"refused": str(refused)}

    def done(self, asked):
        (act, body), = asked.items()
        return self.receive(body) if act == "receive" else self.emit(body)

    def message(self, name, side):
        found = self.messages.get(name)
        if not found or getattr(found, side) != self.role:
            raise Refused("F2")
        return found

    def held(self, key, stamp):
        """What is known under the key, which is held from now on."""
        if self.count == EVENTS or key not in self.known and len(self.known) == KEYS:
            raise Refused("F3")
        if LAST in (self.clock, stamp):
            raise Refused("F4")
        self.seen.setdefault(key, set())
        return self.known.setdefault(key, {})

    def receive(self, body):
        message, values = self.message(body["message"], "receiver"), body["values"]
        if values.keys() != message.names or not all(map(is_value, values.values())):
            raise Refused("F2")
        key = tuple(values[param] for param in self.keys)
        known = self.held(key, body["stamp"])
        for param in message.valued:
            if known.get(param, values[param]) != values[param]:
                return {"arrived": values[param], "kept": known[param], "param": param, "receipt": "differs"}
        if body["message"] in self.seen[key]:
            return {"receipt": "repeat"}
        self.append(key, body["message"], max(self.clock, body["stamp"]) + 1)
        known.update(values)
        return {"receipt": "fresh"}

    def emit(self, body):
        message, outs = self.message(body["message"], "sender"), body["outs"]
        key = tuple(body["key"])
        if len(key) != len(self.keys) or len(outs) != len(message.chosen) or not all(map(is_value, [*key, *outs])):
            raise Refused("F2")
        known = self.held(key, 0)
        for adornment, param in message.carried:
            if adornment == "in" and param not in known:
                return {"blocked": "missing", "param": param}
            if adornment != "in" and param in known:
                return {"blocked": "bound", "kept": known[param], "param": param}
        known.update(zip(self.keys, key))
        known.update(zip(message.chosen, outs))
        number = self.count
        self.append(key, body["message"], self.clock + 1)
        values = {param: known[param] for param in message.valued}
        return {"sent": {"message": body["message"], "number": number, "stamp": self.clock, "values": values}}

    def append(self, key, message, stamp):
        self.seen[key].add(message)
        self.clock, self.count = stamp, self.count + 1


def is_text(value):
    return type(value) is str


def are_texts(value):
    return type(value) is list and all(map(is_text, value))


def is_below(limit):
    return lambda value: type(value) is int and 0 <= value < limit


def is_binding(value):
    return type(value) is dict and all(map(is_text, value.values()))


KINDS = {
    "receive": {"message": is_text, "number": is_below(2**32), "stamp": is_below(2**64), "values": is_binding},
    "emit": {"key": are_texts, "message": is_text, "outs": are_texts},
}


def request(line):
    """The request of the line, if it is one."""
    if len(line) > 65537 or not line.endswith(b"\n"):
        raise Refused("F1")
    try:
        asked = json.loads(line)
    except (ValueError, RecursionError):
        raise Refused("F1") from None
    if type(asked) is not dict or len(asked) != 1:
        raise Refused("F1")
    (act, body), = asked.items()
    kinds = KINDS.get(act)
    if not kinds or type(body) is not dict or body.keys() != kinds.keys():
        raise Refused("F1")
    if not all(is_kind(body[name]) for name, is_kind in kinds.items()):
        raise Refused("F1")
    return asked


def main():
    source, sink, head = sys.stdin.buffer, sys.stdout.buffer, []
    for line in source:
        if line.rstrip(b"\r\n") == b"%% wire":
            break
        head.append(line.decode(errors="replace"))
    role = Role("".join(head), sys.argv[2])
    for line in source:
        sink.write(json.dumps(role.answer(line), sort_keys=True, separators=(",", ":")).encode() + b"\n")
        sink.flush()
    return 0


if __name__ == "__main__":
    sys.exit(main())
