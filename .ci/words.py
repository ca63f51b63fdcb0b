#!/usr/bin/env python3
"""Which public words of specs/ mean two things: they are defined in two crates, so a reader takes one for the other.

Those that stand are listed in `double-words` beside this script, each with its crates, and the reason or `to go`. The
first line of that list says how many they are; it may only become less. Run by itself, this script writes the list
anew: a word that has one meaning now goes, and each other one has the crates that define it now, if these are no more
than before.
"""
import re
import sys

import tree

LIST = tree.TOP / ".ci/double-words"
WORD = re.compile(r"^(?:abbrev pub|pub abbrev|pub record|data pub|pub data) (\w+)", re.M)


def defined():
    """For each public word of a crate's specs/, but for those of specs/inner, the crates that define it."""
    found = {}
    for crate in tree.crates():
        for path in sorted((tree.TOP / "crates" / crate / "specs").glob("*.antt")):
            for word in WORD.findall(path.read_text()):
                found.setdefault(word, set()).add(crate)
    return found


def listed():
    """The number at the head of the list, and for each word of it the crates and the reason."""
    head, *lines = [line for line in LIST.read_text().splitlines() if line.strip()]
    words = {}
    for line in lines:
        names, _, reason = line.partition(": ")
        word, *crates = names.split()
        words[word] = set(crates), reason
    return int(re.search(r"\d+", head)[0]), words


def faults():
    """What is wrong: a word with two meanings that is not listed, or a list that has more than there is."""
    found = defined()
    most, words = listed()
    for word, crates in sorted(found.items()):
        more = crates - words.get(word, (set(), ""))[0]
        if len(crates) > 1 and more:
            yield f"the public word {word} of specs/ has two meanings, in {', '.join(sorted(crates))}"
    for word, (crates, reason) in words.items():
        if len(crates & found.get(word, set())) < 2 or crates - found[word]:
            yield f".ci/double-words: {word} is not in all of {', '.join(sorted(crates))} any more: python3 .ci/words.py"
        if not reason:
            yield f".ci/double-words: {word} has no reason, and no `to go`"
    if len(words) != most:
        yield f".ci/double-words has {len(words)} words, and says {most}"


def shrink():
    """Writes the list as it is now, without what is new."""
    found = defined()
    most, words = listed()
    lines = []
    for word, (crates, reason) in sorted(words.items()):
        now = found.get(word, set())
        left = now if len(now) <= len(crates) else now & crates
        if len(left) > 1:
            lines.append(f"{word} {' '.join(sorted(left))}: {reason}")
    head = LIST.read_text().splitlines()[0]
    LIST.write_text("\n".join([re.sub(r"\d+", str(min(most, len(lines))), head, count=1), *lines]) + "\n")


if __name__ == "__main__":
    sys.exit(shrink())
