"""Protocol texts, and the protocol of messages alone that a name of them stands for.

Only texts that the programs take are read here: what is wrong in a text is not looked for.
"""
from typing import NamedTuple

from .words import words_of


class Message(NamedTuple):
    """Its name, its two roles, and its parameters, each with the adornment before it."""

    name: str
    sender: str
    receiver: str
    carried: list

    def adorned(self, *adornments):
        """The parameters with one of these adornments, in order."""
        return [param for adornment, param in self.carried if adornment in adornments]


class Protocol(NamedTuple):
    """A protocol of messages alone."""

    name: str
    roles: list
    params: list
    keys: list
    messages: list


class Declared(NamedTuple):
    """A protocol as it is written: a formal is an adornment, a parameter and whether it is a key."""

    roles: list
    public: list
    private: list
    items: list


class Reader:
    """Takes the tokens of a text from the left."""

    def __init__(self, text):
        self.words = [word for _, word in words_of(text)] + [""]

    def next(self):
        """Takes a token."""
        return self.words.pop(0)

    def has(self, word):
        """Takes the token if it is this word."""
        if self.words[0] != word:
            return False
        self.next()
        return True

    def listed(self, take):
        """What a list with commas has."""
        found = [take()]
        while self.has(","):
            found.append(take())
        return found

    def formal(self):
        """An adornment, a parameter, and whether the word `key` is after it."""
        return self.next(), self.next(), self.has("key")

    def message(self, sender):
        """A message, of which the sender is taken by now."""
        self.next()
        receiver, _, name, _ = self.next(), self.next(), self.next(), self.next()
        carried = [(adornment, param) for adornment, param, _ in self.listed(self.formal)]
        self.next()
        return Message(name, sender, receiver, carried)

    def reference(self, name):
        """A protocol's name, and what it is given for its roles and for its public parameters."""
        self.next()
        roles, given = [self.next()], []
        while self.has(","):
            if self.words[1] in ",)":
                roles.append(self.next())
            else:
                given.append(self.formal()[1])
        self.next()
        return name, roles, given

    def item(self):
        """A message or a reference."""
        name = self.next()
        return self.reference(name) if self.words[0] == "(" else self.message(name)

    def protocol(self):
        """The name and the protocol."""
        name, _, _ = self.next(), self.next(), self.next()
        roles = self.listed(self.next)
        self.next()
        public = self.listed(self.formal)
        private = self.listed(self.next) if self.has("private") else []
        items = []
        while not self.has("}"):
            items.append(self.item())
        return name, Declared(roles, public, private, items)


def read(text):
    """The protocols of the text by their names; of two of one name the first."""
    reader, found = Reader(text), {}
    while reader.words[0]:
        name, protocol = reader.protocol()
        found.setdefault(name, protocol)
    return found


def unfold(found, name, prefix, roles, params):
    """The messages that the protocol comes to, and the private parameters that it adds, under these names."""
    messages, added = [], []
    for place, item in enumerate(found[name].items, 1):
        if isinstance(item, Message):
            carried = [(adornment, params[param]) for adornment, param in item.carried]
            messages.append(Message(prefix + item.name, roles[item.sender], roles[item.receiver], carried))
            continue
        part, given_roles, given = item
        inner, within = found[part], f"{prefix}{part}#{place}."
        own = {param: within + param for param in inner.private}
        taken = dict(zip([param for _, param, _ in inner.public], [params[param] for param in given]))
        below = dict(zip(inner.roles, [roles[role] for role in given_roles]))
        new, further = unfold(found, part, within, below, {**own, **taken})
        messages, added = messages + new, added + [*own.values(), *further]
    return messages, added


def expansion(text, name):
    """The protocol of messages alone that the name stands for in the text."""
    found = read(text)
    asked = found[name]
    params = [param for _, param, _ in asked.public] + asked.private
    messages, added = unfold(found, name, "", {role: role for role in asked.roles}, {param: param for param in params})
    keys = [param for _, param, is_key in asked.public if is_key]
    return Protocol(name, asked.roles, params + added, keys, messages)
