"""The formula of a question, written down from docs/FORMATS.md, and a log of one step that refutes it, if unit
propagation does. So `ask NAME --check` can be given a log that no program has made, with the numbers of the page.

A condition is a literal, `True`, `False`, or a tuple `("and", c, d)` or `("or", c, d)`.
"""
import itertools
from functools import reduce


def all_of(parts):
    """All of the conditions, the first one outermost."""
    return reduce(lambda after, part: ("and", part, after), parts[-2::-1], parts[-1]) if parts else True


def some_of(parts):
    """Some of the conditions, the first one outermost."""
    return reduce(lambda after, part: ("or", part, after), parts[-2::-1], parts[-1]) if parts else False


def denied(condition):
    """The condition's negation, with the negation at the literals."""
    if isinstance(condition, bool):
        return not condition
    if isinstance(condition, int):
        return -condition
    word, one, other = condition
    return {"and": "or", "or": "and"}[word], denied(one), denied(other)


def is_a(condition, word):
    """Whether the condition is joined by the word."""
    return isinstance(condition, tuple) and condition[0] == word


class Clauses:
    """Takes conditions, and gives their clauses: a conjunction within a disjunction is a variable of its own."""

    def __init__(self, free):
        self.free, self.clauses = free, []

    def add(self, guard, condition):
        """The condition holds, or a literal of the guard does."""
        if is_a(condition, "and"):
            self.add(guard, condition[1])
            self.add(guard, condition[2])
        elif condition is not True:
            named = []
            self.clauses.append(guard + self.literals(condition, named))
            for variable, part in named:
                self.define(variable, part)

    def define(self, variable, part):
        """Where the variable is true, the part is. Its own further variables come after it."""
        kept, self.free = self.free, variable + 1
        self.add([-variable], part)
        self.free = kept

    def literals(self, condition, named):
        """The literals of a disjunction; its conjunctions get variables, and room for those within them."""
        if condition is False:
            return []
        if condition is True or is_a(condition, "and"):
            variable = self.free
            self.free += 1 + room(condition)
            named.append((variable, condition))
            return [variable]
        if is_a(condition, "or"):
            return self.literals(condition[1], named) + self.literals(condition[2], named)
        return [condition]


def room(condition):
    """How many variables the parts of an asserted condition take."""
    if is_a(condition, "and"):
        return room(condition[1]) + room(condition[2])
    return room_within(condition) if is_a(condition, "or") else 0


def room_within(condition):
    """How many variables a condition in a disjunction takes."""
    if is_a(condition, "or"):
        return room_within(condition[1]) + room_within(condition[2])
    return 1 + room(condition) if condition is True or is_a(condition, "and") else 0


class Formula:
    """The formula of questions on a protocol. Kinds of events are numbered from 1: sent and received, by messages."""

    def __init__(self, protocol):
        self.messages = protocol.messages
        self.numbers = {message.name: number for number, message in enumerate(self.messages)}
        self.kinds = 2 * len(self.messages)
        pairs = itertools.combinations(range(1, self.kinds + 1), 2)
        self.orders = {pair: self.kinds + place for place, pair in enumerate(pairs, 1)}

    def before(self, one, other):
        """The literal that says which of the two kinds comes first."""
        return self.orders[one, other] if one < other else -self.orders[other, one]

    def carriers(self, role, param):
        """The kinds of a role that make the parameter known to it."""
        found = []
        for number, message in enumerate(self.messages):
            if param in message.adorned("in", "out"):
                found += [2 * number + 1] * (message.sender == role) + [2 * number + 2] * (message.receiver == role)
        return found

    def shared(self):
        """The clauses of each formula: order, occurrence, delivery, premises, freshness."""
        kinds, before = range(1, self.kinds + 1), self.before
        for i, j, k in itertools.combinations(kinds, 3):
            yield [-before(i, j), -before(j, k), before(i, k)]
            yield [before(i, j), before(j, k), -before(i, k)]
        yield from ([-i, j, before(i, j)] for i, j in itertools.permutations(kinds, 2))
        yield from ([-sent - 1, before(sent, sent + 1)] for sent in kinds[::2])
        for sent, param in self.carried("in"):
            yield [-sent, *self.earlier_carriers(sent, param)]
        for sent, param in self.carried("out", "nil"):
            yield from ([-sent, -carrier] for carrier in self.earlier_carriers(sent, param))

    def carried(self, *adornments):
        """The emission of each message with each parameter that it adorns so."""
        for number, message in enumerate(self.messages):
            yield from ((2 * number + 1, param) for param in message.adorned(*adornments))

    def earlier_carriers(self, sent, param):
        """The literals that say that the sender has the parameter before the emission."""
        sender = self.messages[sent // 2].sender
        return [self.before(kind, sent) for kind in self.carriers(sender, param) if kind != sent]

    def kinds_of(self, happening):
        """The kinds of which one has to occur."""
        word, *names = happening
        if word == "knows":
            return self.carriers(*names)
        if word == "bound":
            return [2 * n + 1 for n, message in enumerate(self.messages) if names[0] in message.adorned("in", "out")]
        return [2 * self.numbers[names[0]] + (1 if word == "sent" else 2)]

    def earlier(self, one, other):
        """The one has happened, and the other had not by then."""
        others = self.kinds_of(other)
        return some_of([all_of([k, *(self.before(k, other) for other in others)])
                        for k in self.kinds_of(one) if k not in others])

    def can(self, message):
        """What the sender of the message has to know, and not to know."""
        known = lambda param: some_of(self.carriers(message.sender, param))
        return all_of([known(p) if adornment == "in" else denied(known(p)) for adornment, p in message.carried])

    def rests(self, excused):
        """What was sent has arrived, and what was not sent cannot be sent."""
        parts = []
        for sent, message in zip(range(1, self.kinds + 1, 2), self.messages):
            parts.append(some_of([-sent, sent + 1]))
            if message.name not in excused:
                parts.append(some_of([sent, denied(self.can(message))]))
        return all_of(parts)

    def condition(self, tree):
        """What has to be true of the literals."""
        word = tree[0]
        if word == "happened":
            return some_of(self.kinds_of(tree[1]))
        if word == "before":
            return self.earlier(tree[1], tree[2])
        if word == "after":
            return "and", some_of(self.kinds_of(tree[1])), self.earlier(tree[2], tree[1])
        if word == "can":
            return self.can(self.messages[self.numbers[tree[1]]])
        if word == "rest":
            return self.rests(tree[1])
        if word == "not":
            return denied(self.condition(tree[1]))
        return word, self.condition(tree[1]), self.condition(tree[2])

    def own(self, tree):
        """How many variables there are, and the clauses of the question alone."""
        shared, condition = self.kinds * (self.kinds + 1) // 2, self.condition(tree)
        own = Clauses(shared + 1)
        own.add([], condition)
        return shared + room(condition), own.clauses

    def clauses(self, tree):
        """All clauses of the formula of the question."""
        return [frozenset(clause) for clause in [*self.shared(), *self.own(tree)[1]]]


def forced(clauses):
    """What unit propagation makes true, with the numbers of the clauses; and the number of one that is then false."""
    why, is_new = {}, True
    while is_new:
        is_new = False
        for number, clause in enumerate(clauses, 1):
            free = [literal for literal in clause if -literal not in why]
            if not free:
                return why, number
            if len(free) == 1 and free[0] not in why:
                why[free[0]], is_new = number, True
    return why, None


def refutation(clauses):
    """The lines of a log that derives the empty clause from the clauses, if unit propagation alone finds it."""
    why, number = forced(clauses)
    if number is None:
        return None
    if not clauses[number - 1]:
        return []
    open_literals, links = set(clauses[number - 1]), [number]
    for literal in reversed(why):
        if -literal in open_literals:
            links += [-literal, why[literal]]
            open_literals = open_literals - {-literal} | clauses[why[literal] - 1] - {literal}
    return ["step " + " ".join(map(str, links))]
