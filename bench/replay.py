#!/usr/bin/env python3
"""Times bspl replay on legal runs of Purchase and Relay.

    bench/replay.py [EVENTS ..]

For each protocol and each number of events (1000, 10000 and 100000) a run is made: `ten`, with ten events or six under
each key, a hundred keys at a time; `one`, with all events under one key; `each`, with one event under each key. A line
a run: the seconds of processor time, the megabytes of memory, and the ratio of the seconds to those of the run before
it. The least of RUNS (3) runs counts. What is missing is said. BSPL names the program (crates/bspl/out/bspl).
"""
import sys
from pathlib import Path

from measure import TOP, least, program

BSPL = program("bspl")
AT_ONCE = 100


def purchase(key):
    """The events of one purchase: each message is emitted and received."""
    fields = f'ID={key} item="item{key % 7}"'
    priced = f"{fields} price={key % 100}"
    sent = f'{fields} address="street{key}"'
    return both("rfq", fields) + both("quote", priced) + both("accept", f'{priced} address="street{key}" response="yes"') \
        + both("ship", sent) + both("deliver", f'{sent} outcome="ok"')


def relay(key):
    """The events of one relay."""
    return both("a", f"ID={key} x={key % 5}") + both("b", f"ID={key} x={key % 5} y=2") + both("c", f"ID={key} y=2 z=3")


def both(message, fields):
    return [f"send {message} {fields}", f"receive {message} {fields}"]


def ten(events_of, count):
    """Whole enactments, a hundred of them interleaved."""
    lines, size = [], len(events_of(0))
    for start in range(0, count // size, AT_ONCE):
        block = [events_of(key) for key in range(start, min(start + AT_ONCE, count // size))]
        lines += [events[at] for at in range(size) for events in block]
    return lines


def one(events_of, count):
    """One enactment, whose last reception is repeated."""
    events = events_of(1)
    return events + [events[-1]] * (count - len(events))


def each(events_of, count):
    """The first event of each enactment."""
    return [events_of(key)[0] for key in range(count)]


def main():
    if not Path(BSPL).exists():
        print(f"{BSPL} is missing: build it in crates/bspl, or name the program in BSPL")
        return
    counts = [int(word) for word in sys.argv[1:]] or [1000, 10000, 100000]
    print(f"{'protocol':10}{'run':6}{'events':>8}{'seconds':>9}{'MB':>7}{'ratio':>7}")
    for name, events_of in (("Purchase", purchase), ("Relay", relay)):
        protocol = (TOP / "examples" / f"{name}.bspl").read_text()
        for shape in (ten, one, each):
            before = None
            for count in counts:
                lines = shape(events_of, count)
                text = protocol.rstrip("\n") + "\n" + "\n".join(["%% run", "run 1"] + lines + ["end"]) + "\n"
                run = least([BSPL, "replay", name], text.encode())
                seconds, out = run.processor, run.out
                if not out.startswith(f"legal {len(lines)}\n".encode()):
                    print(f"{name:10}{shape.__name__:6}{len(lines):8}  is not supported: {out[:40].decode().strip()}")
                    break
                ratio = f"{seconds / before:7.1f}" if before else f"{'-':>7}"
                print(f"{name:10}{shape.__name__:6}{len(lines):8}{seconds:9.3f}{run.megabytes:7.0f}{ratio}")
                before = seconds


if __name__ == "__main__":
    main()
