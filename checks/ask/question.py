"""Questions: their tokens, their trees, and what is wrong with a text that is none.

    question  = term { "or" term }
    term      = factor { "and" factor }
    factor    = "not" factor | "(" question ")" | "rest" { "but" name } | "can" name
              | happening [ ( "before" | "after" ) happening ]
    happening = "sent" name | "received" name | "knows" name name | "bound" name

A tree is a tuple: `("happened", h)`, `("before", h, h)`, `("after", h, h)`, `("can", m)`, `("rest", (m, ..))`,
`("not", q)`, `("and", q, r)` or `("or", q, r)`. A happening is one too: `("sent", m)`, `("received", m)`,
`("knows", role, param)` or `("bound", param)`.
"""
from .words import BadByte, is_name, words_of

LIMIT = 256
NAMES = {"sent": ["message"], "received": ["message"], "knows": ["role", "param"], "bound": ["param"]}
CODES = {"message": "E15", "role": "E16", "param": "E17"}


class Refused(Exception):
    """The text is no question; the line says why."""


class Parser:
    """Takes the tokens of a question from the left, and refuses the first one that no question has there."""

    def __init__(self, words, length):
        self.words, self.ends = words, [offset for offset, _ in words] + [length]
        self.place = 0

    def peek(self):
        """The next token, or no text at the end."""
        return self.words[self.place][1] if self.place < len(self.words) else ""

    def next(self):
        """Takes a token."""
        self.place += 1
        return self.words[self.place - 1][1]

    def refuse(self):
        """The next token, or the end, is in the wrong place."""
        raise Refused(f"Q3 {self.ends[self.place]}")

    def name(self):
        """Takes a name."""
        return self.next() if is_name(self.peek()) else self.refuse()

    def word(self, *words):
        """Takes one of these words."""
        return self.next() if self.peek() in words else self.refuse()

    def joined(self, word, part):
        """Parts with the word between two."""
        tree = part()
        while self.peek() == word:
            self.next()
            tree = (word, tree, part())
        return tree

    def question(self):
        """One or more terms."""
        return self.joined("or", lambda: self.joined("and", self.factor))

    def happening(self):
        """One of four words, and its names."""
        word = self.word(*NAMES)
        return (word, *[self.name() for _ in NAMES[word]])

    def rest(self):
        """The messages that are excused."""
        excused = []
        while self.peek() == "but":
            self.next()
            excused.append(self.name())
        return "rest", tuple(excused)

    def factor(self):
        """What `not` may stand before."""
        word = self.peek()
        if word not in ("not", "(", "rest", "can"):
            happening = self.happening()
            if self.peek() in ("before", "after"):
                return self.next(), happening, self.happening()
            return "happened", happening
        self.next()
        if word == "not":
            return "not", self.factor()
        if word == "can":
            return "can", self.name()
        return self.rest() if word == "rest" else self.bracketed()

    def bracketed(self):
        """A question, and the bracket after it."""
        inner = self.question()
        self.word(")")
        return inner


def read(text):
    """The tree and the spelling of the question."""
    try:
        words = words_of(text)
    except BadByte as bad:
        raise Refused(f"Q1 {bad.offset}") from None
    if len(words) > LIMIT:
        raise Refused(f"Q2 {len(words)}")
    parser = Parser(words, len(text))
    tree = parser.question()
    if parser.peek():
        parser.refuse()
    return tree, " ".join(word for _, word in words)


def names_in(tree):
    """The names of the question with what each is of, in the order of the text."""
    word = tree[0]
    if word in ("not", "and", "or"):
        return [name for part in tree[1:] for name in names_in(part)]
    if word == "can":
        return [("message", tree[1])]
    if word == "rest":
        return [("message", name) for name in tree[1]]
    return [pair for happening in tree[1:] for pair in zip(NAMES[happening[0]], happening[1:])]


def unknown(tree, protocol):
    """What is printed of the first name that the protocol does not have; nothing if it has all."""
    has = {"message": {message.name for message in protocol.messages}, "role": protocol.roles, "param": protocol.params}
    for kind, name in names_in(tree):
        if name not in has[kind]:
            return f"{CODES[kind]} {name}"
    return None
