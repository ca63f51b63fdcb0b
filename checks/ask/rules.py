"""The rules of a protocol: lines in its braces that begin, after blanks, with `//?`, then `never` or `some`."""
import re

from .question import Refused, read
from .words import words_of

RULE = re.compile(r"^[ \t\r]*//\?([^\n]*)", re.M)
SENSE = re.compile(r"([ \t\r]*)([A-Za-z]*)(.*)", re.S)


def braces(text, name):
    """The offsets of the two braces of the protocol of this name."""
    words = words_of(text)
    for place, (_, word) in enumerate(words[:-1]):
        if word == name and words[place + 1][1] == "{":
            start = words[place + 1][0]
            return start, next(offset for offset, word in words[place:] if word == "}")
    raise ValueError(f"no protocol {name}")


def shifted(refusal, start):
    """The refusal with its offset counted from the start of the whole text."""
    code, number = str(refusal).split()
    return Refused(f"{code} {number if code == 'Q2' else int(number) + start}")


def rule_of(line, start):
    """The sense, the tree and the spelling of the rule that stands after `//?` at this offset."""
    blanks, sense, asked = SENSE.match(line).groups()
    if sense not in ("never", "some"):
        raise Refused(f"Q3 {start + len(blanks)}")
    try:
        return sense, *read(asked)
    except Refused as refusal:
        raise shifted(refusal, start + len(line) - len(asked)) from None


def rules_of(text, name):
    """The rules of the protocol of this name, in order; the first one that is none is refused."""
    first, last = braces(text, name)
    lines = [match for match in RULE.finditer(text) if first < match.start() < last]
    return [rule_of(match[1], match.start(1)) for match in lines]
