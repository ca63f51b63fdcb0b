"""The tokens of protocol texts and of questions, as docs/LANGUAGE.md has them."""
import re

PLAIN = r"[A-Za-z_](?:[A-Za-z0-9_]|-(?=[A-Za-z0-9]))*"
NAME = rf"{PLAIN}(?:#[1-9][0-9]*\.{PLAIN})*"
BLANK = re.compile(r"(?:[ \t\r\n]|//[^\n]*)*")
TOKEN = re.compile(rf"{NAME}|->|\xe2\x86\xa6|[][{{}}(),:]")
RESERVED = {"roles", "role", "parameters", "parameter", "private", "in", "out", "nil", "any", "opt", "key"}


class BadByte(Exception):
    """No token begins at this offset."""

    def __init__(self, offset):
        super().__init__(offset)
        self.offset = offset


def words_of(text):
    """The offset and the text of each token. The text has a character for each byte."""
    found, place = [], BLANK.match(text).end()
    while place < len(text):
        token = TOKEN.match(text, place)
        if not token:
            raise BadByte(place)
        found.append((place, token[0]))
        place = BLANK.match(text, token.end()).end()
    return found


def is_name(word):
    """Whether the token is a name: no word of the language, and no sign."""
    return word not in RESERVED and bool(re.fullmatch(NAME, word))
