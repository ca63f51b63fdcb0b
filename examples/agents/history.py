#!/usr/bin/env python3
"""Makes the input of `bspl audit NAME` from the logs of agents.

    history.py PROTOCOL ROLE=LOG ..

PROTOCOL is a file with a protocol without references; `bspl expand NAME` prints such a text of any other. A log has
two lines for each request to a role's program: the request and its reply. What was sent and what was received for the
first time are the events of the history, in the order of the log; repeats, blocks and refusals are none.
"""
import json
import sys
from pathlib import Path

from protocol import Protocol


def events(log):
    """The acts of the log: send or receive, the message, and its values."""
    lines = log.read_bytes().splitlines()
    for request, reply in zip(lines[::2], lines[1::2]):
        reply = json.loads(reply)
        if "sent" in reply:
            yield "send", reply["sent"]["message"], reply["sent"]["values"]
        elif reply.get("receipt") == "fresh":
            received = json.loads(request)["receive"]
            yield "receive", received["message"], received["values"]


def history(protocol, log):
    """The lines of a history: the values stand in the order of the message."""
    for act, message, values in events(log):
        fields = (f"{param}={values[param]}" for param in protocol.messages[message].params)
        yield " ".join([act, message, *fields])


def audited(protocol, logs):
    """The whole input of the audit, given the log of each role."""
    lines = ["%% histories", "histories 1"]
    for role, log in logs.items():
        lines += [f"role {role}", *history(protocol, log)]
    return protocol.text + "\n".join([*lines, "end"]) + "\n"


def main():
    protocol = Protocol(Path(sys.argv[1]).read_text(encoding="utf-8"))
    logs = dict(given.split("=", 1) for given in sys.argv[2:])
    sys.stdout.write(audited(protocol, {role: Path(log) for role, log in logs.items()}))


if __name__ == "__main__":
    main()
