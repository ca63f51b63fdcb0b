"""What a question means at the end of some events, for the enactment of one key.

A *moment* says what has happened so far: `is_sent(message)`, `is_received(message)` and `knows(role, param)`, by names.
"""


class Meaning:
    """Judges questions on a protocol."""

    def __init__(self, protocol):
        self.roles = protocol.roles
        self.messages = {message.name: message for message in protocol.messages}

    def happened(self, happening, moment):
        """Whether it has happened by then."""
        word, *names = happening
        if word == "sent":
            return moment.is_sent(names[0])
        if word == "received":
            return moment.is_received(names[0])
        if word == "knows":
            return moment.knows(*names)
        return any(moment.knows(role, names[0]) for role in self.roles)

    def can(self, name, moment):
        """Whether the message's sender can send it now: it knows each `in`, and no `out` and no `nil`."""
        message = self.messages[name]
        return all(moment.knows(message.sender, param) == (adornment == "in") for adornment, param in message.carried)

    def rests(self, excused, moment):
        """Whether what was sent has arrived, and nothing else can be sent but what is excused."""
        for name in self.messages:
            if moment.is_sent(name):
                if not moment.is_received(name):
                    return False
            elif name not in excused and self.can(name, moment):
                return False
        return True

    def was_first(self, one, other, moment):
        """Whether the one had happened by then, and the other had not."""
        return self.happened(one, moment) and not self.happened(other, moment)

    def holds(self, tree, moment, was):
        """Whether the answer is yes at the moment; `was(one, other)` says if there was a moment, up to this one, at
        which the one had happened and the other had not."""
        word = tree[0]
        if word == "happened":
            return self.happened(tree[1], moment)
        if word == "before":
            return was(tree[1], tree[2])
        if word == "after":
            return self.happened(tree[1], moment) and was(tree[2], tree[1])
        if word == "can":
            return self.can(tree[1], moment)
        if word == "rest":
            return self.rests(tree[1], moment)
        if word == "not":
            return not self.holds(tree[1], moment, was)
        if word == "and":
            return self.holds(tree[1], moment, was) and self.holds(tree[2], moment, was)
        return self.holds(tree[1], moment, was) or self.holds(tree[2], moment, was)


def orders_in(tree):
    """The pairs of happenings of which the question asks whether the one was there without the other."""
    word = tree[0]
    if word == "before":
        return [(tree[1], tree[2])]
    if word == "after":
        return [(tree[2], tree[1])]
    if word in ("not", "and", "or"):
        return [pair for part in tree[1:] for pair in orders_in(part)]
    return []
