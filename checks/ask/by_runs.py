"""A search over whole legal runs, of a few events under two keys with two values each, with repeats and with losses.

It is the definitions read aloud: a run, a key, and what happened in it up to each moment.
"""
import itertools

from .runs import Event, answers_yes, may_follow

EVENTS = 6
TRIED = 1500


def keys_of(protocol):
    """Two keys that differ in the last value."""
    count = len(protocol.keys)
    return [dict(zip(protocol.keys, ["1"] * (count - 1) + [last])) for last in "12"]


def continuations(protocol, run):
    """Each event that may follow the run."""
    found = {event._replace(word="receive"): None for event in run if event.word == "send"}
    for number, message in enumerate(protocol.messages):
        free = [param for param in message.adorned("in", "out") if param not in protocol.keys]
        for key, given in itertools.product(keys_of(protocol), itertools.product("12", repeat=len(free))):
            values = {**key, **dict(zip(free, given))}
            carried = tuple((param, values[param]) for param in message.adorned("in", "out"))
            event = Event("send", number, carried)
            if may_follow(protocol, run, event):
                found[event] = None
    return list(found)


def search(protocol, tree, rng):
    """A run and a key at which the answer is yes, or nothing; and whether all runs were tried."""
    keys = [tuple(value for _, value in sorted(key.items())) for key in keys_of(protocol)]
    stack, tried = [[]], 0
    while stack:
        run = stack.pop()
        for key in keys:
            if answers_yes(protocol, tree, run, key):
                return (run, key), True
        if len(run) < EVENTS:
            further = continuations(protocol, run)
            rng.shuffle(further)
            tried += len(further)
            if tried > TRIED:
                return None, False
            stack += [[*run, event] for event in further]
    return None, True
