#!/usr/bin/env python3
"""Counts what the agents of Purchase report, until all purchases have ended.

    count.py PURCHASES [--port PORT]

A purchase has ended when its outcome was sent and each message that was sent in it has arrived.
"""
import argparse
import signal
import sys

from link import Inbox, of_arguments


def main():
    arguments = argparse.ArgumentParser()
    arguments.add_argument("purchases", type=int)
    arguments.add_argument("--port", type=int)
    given = arguments.parse_args()
    signal.signal(signal.SIGTERM, lambda *_: sys.exit(1))
    link = of_arguments("count", given.port)
    inbox, acts, ended = Inbox(link), {}, set()
    try:
        while len(ended) < given.purchases:
            for report in inbox.next(1)[0]:
                key = report["values"]["ID"]
                of_purchase = acts.setdefault(key, {})
                of_purchase.setdefault(report["message"], set()).add(report["act"])
                if has_ended(of_purchase):
                    ended.add(key)
    finally:
        link.close()
    print(f"count: {len(ended)} purchases ended", file=sys.stderr)
    return 0


def has_ended(acts):
    """Whether the outcome was sent, and all messages arrived, given what was done with each message."""
    return bool(acts.keys() & {"reject", "deliver"}) and all(len(done) == 2 for done in acts.values())


if __name__ == "__main__":
    sys.exit(main())
