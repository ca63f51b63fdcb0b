"""Whole runs: their texts, which of them are legal, and which questions they answer with yes under a key.

An event is `send` or `receive`, a message's number, and its values by parameter, as they are spelled.
"""
from typing import NamedTuple

from .meaning import Meaning


class Event(NamedTuple):
    """What happened to an instance of a message."""

    word: str
    number: int
    values: tuple

    def key(self, protocol):
        """The values of the key."""
        return tuple(value for param, value in sorted(self.values) if param in protocol.keys)


def ones(protocol):
    """The key of all ones."""
    return tuple("1" for _ in protocol.keys)


def known_to(protocol, role, run, key):
    """The pairs of parameter and value that the role's own events under the key carry."""
    pairs = set()
    for event in run:
        message = protocol.messages[event.number]
        if role == (message.sender if event.word == "send" else message.receiver) and event.key(protocol) == key:
            pairs.update(event.values)
    return pairs


def may_follow(protocol, run, event):
    """Whether the event may come after the run."""
    if event.word == "receive":
        return event._replace(word="send") in run
    message = protocol.messages[event.number]
    pairs = known_to(protocol, message.sender, run, event.key(protocol))
    params = {param for param, _ in pairs}
    knows = all((param, value) in pairs for param, value in event.values if param in message.adorned("in"))
    return knows and not params & set(message.adorned("out", "nil"))


def is_legal(protocol, run):
    """Whether each event may come after those before it."""
    return all(may_follow(protocol, run[:place], event) for place, event in enumerate(run))


class Moment:
    """What has happened in a run under a key."""

    def __init__(self, protocol, run, key):
        self.protocol, self.run, self.key = protocol, run, key
        self.numbers = {message.name: number for number, message in enumerate(protocol.messages)}

    def has(self, word, name):
        """Whether there is such an event."""
        asked = word, self.numbers[name]
        return any(event[:2] == asked and event.key(self.protocol) == self.key for event in self.run)

    def is_sent(self, name):
        return self.has("send", name)

    def is_received(self, name):
        return self.has("receive", name)

    def knows(self, role, param):
        return any(param == known for known, _ in known_to(self.protocol, role, self.run, self.key))


def answers_yes(protocol, tree, run, key):
    """Whether the answer is yes at the end of the run."""
    meaning = Meaning(protocol)
    moments = [Moment(protocol, run[:count], key) for count in range(len(run) + 1)]
    was = lambda one, other: any(meaning.was_first(one, other, moment) for moment in moments)
    return meaning.holds(tree, moments[-1], was)


def first_yes(protocol, tree, run, key):
    """How many events are over when the answer is yes for the first time; nothing if it never is."""
    counts = range(len(run) + 1)
    return next((count for count in counts if answers_yes(protocol, tree, run[:count], key)), None)


def read(protocol, lines):
    """The events of a text from `run 1` to `end`; nothing if it is no text of a run."""
    numbers = {message.name: number for number, message in enumerate(protocol.messages)}
    if len(lines) < 2 or lines[0] != "run 1" or lines[-1] != "end":
        return None
    events = []
    for line in lines[1:-1]:
        word, name, *fields = line.split(" ")
        if word not in ("send", "receive") or name not in numbers:
            return None
        values = tuple(tuple(field.split("=")) for field in fields)
        if [param for param, *_ in values] != protocol.messages[numbers[name]].adorned("in", "out"):
            return None
        events.append(Event(word, numbers[name], values))
    return events


def written(protocol, events):
    """The lines of the run of these events, words and numbers, under the key of all ones. A message gives an `out` that
    is no key its own number, and an `in` the value that its sender heard of first."""
    lines, known, carried = ["run 1"], {}, {}
    for word, number in events:
        message = protocol.messages[number]
        if word == "send":
            own = known.setdefault(message.sender, {})
            for param in message.adorned("out"):
                own[param] = "1" if param in protocol.keys else str(number + 1)
            carried[number] = {param: own[param] for param in message.adorned("in", "out")}
        heard = known.setdefault(message.receiver, {}) if word == "receive" else {}
        for param, value in carried[number].items():
            heard.setdefault(param, value)
        fields = " ".join(f"{param}={value}" for param, value in carried[number].items())
        lines.append(f"{word} {message.name} {fields}")
    return [*lines, "end"]
