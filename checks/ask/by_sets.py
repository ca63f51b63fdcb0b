"""A search over states: which messages were sent and which received under one key, and for each two happenings of
which the question asks for the order, whether the one was there at some moment without the other.

A message with an `out` is sent once; one without changes nothing when it is sent again. What a role knows is what was
carried to it or by it. Values and other keys change nothing of all this.
"""
from typing import NamedTuple

from .meaning import Meaning, orders_in

LIMIT = 400_000


class TooLarge(Exception):
    """There are more states than the search may look at."""


class State(NamedTuple):
    """Numbers of messages that were sent and received, and the orders that were seen."""

    sent: frozenset
    received: frozenset
    seen: frozenset


class Moment:
    """What a state says."""

    def __init__(self, protocol, numbers, state):
        self.numbers, self.state, self.known = numbers, state, {}
        for number in state.sent:
            message = protocol.messages[number]
            self.known.setdefault(message.sender, set()).update(message.adorned("in", "out"))
        for number in state.received:
            message = protocol.messages[number]
            self.known.setdefault(message.receiver, set()).update(message.adorned("in", "out"))

    def is_sent(self, name):
        return self.numbers[name] in self.state.sent

    def is_received(self, name):
        return self.numbers[name] in self.state.received

    def knows(self, role, param):
        return param in self.known.get(role, ())


class Search:
    """A protocol and a question."""

    def __init__(self, protocol, tree):
        self.protocol, self.tree, self.meaning = protocol, tree, Meaning(protocol)
        self.numbers = {message.name: number for number, message in enumerate(protocol.messages)}
        self.orders = set(orders_in(tree))

    def at(self, sent, received, seen):
        """The state after these events, with the orders that are seen there too, and what it says."""
        moment = Moment(self.protocol, self.numbers, State(sent, received, seen))
        new = frozenset(pair for pair in self.orders - seen if self.meaning.was_first(*pair, moment))
        return State(sent, received, seen | new), moment

    def is_yes(self, state, moment):
        """Whether the state answers yes."""
        return self.meaning.holds(self.tree, moment, lambda one, other: (one, other) in state.seen)

    def following(self, state, moment):
        """Each event that may come next and changes the state, with the state and the moment after it."""
        for number in sorted(state.sent - state.received):
            yield ("receive", number), *self.at(state.sent, state.received | {number}, state.seen)
        for number, message in enumerate(self.protocol.messages):
            if number not in state.sent and self.meaning.can(message.name, moment):
                yield ("send", number), *self.at(state.sent | {number}, state.received, state.seen)

    def answer(self, limit=LIMIT):
        """A shortest list of events at the end of which the answer is yes; nothing if there is none."""
        state, moment = self.at(frozenset(), frozenset(), frozenset())
        came, level = {state: None}, [(state, moment)]
        while level:
            after = []
            for state, moment in level:
                if self.is_yes(state, moment):
                    return way_to(state, came)
                for event, new, later in self.following(state, moment):
                    if new not in came:
                        came[new] = event, state
                        after.append((new, later))
            if len(came) > limit:
                raise TooLarge
            level = after
        return None

    def ways(self, limit=LIMIT):
        """How many lists of events end with the first yes, and one of them."""
        counts, ends = {}, {}
        steps = 0

        def count(state, moment):
            nonlocal steps
            if state not in counts:
                steps += 1
                if steps > limit:
                    raise TooLarge
                if self.is_yes(state, moment):
                    counts[state], ends[state] = 1, []
                    return 1
                counts[state] = 0
                for event, new, later in self.following(state, moment):
                    below = count(new, later)
                    if below:
                        ends[state] = [event, *ends[new]]
                    counts[state] += below
            return counts[state]

        start = self.at(frozenset(), frozenset(), frozenset())
        return count(*start), ends.get(start[0])


def way_to(state, came):
    """The events that lead to the state."""
    events = []
    while came[state]:
        event, state = came[state]
        events.append(event)
    return events[::-1]
