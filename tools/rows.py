"""The worked rows: the sections that crates/worked_rows/data/sections lists, whose first lines say their form."""
import functools
import re
from pathlib import Path
from typing import NamedTuple

FOLDER = Path(__file__).resolve().parent.parent / "crates" / "worked_rows"


class Row(NamedTuple):
    place: str
    name: str
    args: list
    given: bytes
    is_tried: bool
    status: int
    output: bytes


def sections():
    """The name and the bytes of each section."""
    for name in (FOLDER / "data/sections").read_text().splitlines():
        if not name.startswith("# "):
            yield name, (FOLDER / "data" / name).read_bytes()


@functools.lru_cache(maxsize=None)
def text_of_file(name):
    """The text for which a line `@ NAME` stands."""
    return (FOLDER / "data" / f"{name.decode()}.bspl").read_bytes()


def with_texts(section):
    """The section with the texts of files in place of the lines that stand for them."""
    return re.sub(rb"^@ ([^\n\\]+)(\\?)\n", lambda m: text_of_file(m[1]), section, flags=re.M)


def spelled(text, number=0):
    """What a text of the rows stands for: bytes, the number of a repeated line, and the number after it."""
    text = text.replace(rb"\#", b"%d" % number).replace(rb"\+", b"%d" % (number + 1))
    return re.sub(rb"\\x([0-9a-f]{2})", lambda m: bytes([int(m[1], 16)]), text)


def text_of(lines):
    """What the lines of an input or an output stand for."""
    whole = []
    for line in lines:
        asked = re.fullmatch(rb"@ ([^\\]+)(\\?)", line, re.S)
        if asked:
            text = text_of_file(asked[1])
            whole.append(text.removesuffix(b"\n") if asked[2] else text)
            continue
        repeated = re.match(rb"\* (\d+) (.*)", line, re.S)
        numbers, text = (range(1, int(repeated[1]) + 1), repeated[2]) if repeated else ((0,), line)
        for number in numbers:
            whole.append(spelled(text[:-1], number) if text.endswith(b"\\") else spelled(text, number) + b"\n")
    return b"".join(whole)


def row_of(place, lines):
    """The row that begins at the place with these lines."""
    name, _, command = lines[0].partition(b"|")
    lines = [line for line in lines if not line.startswith(b"# ")]
    end = next(i for i, line in enumerate(lines) if re.match(rb"[=~!-] \d+$", line))
    args = [b"" if word == b"''" else spelled(word) for word in command.split(b" ") if word]
    status = int(lines[end][2:])
    given, output = text_of(lines[1:end]), text_of(lines[end + 1 :])
    return Row(place, name.strip().decode(), args, given, lines[end][:1] == b"~", status, output)


def rows():
    """All rows, in order."""
    for section, text in sections():
        lines = text.removesuffix(b"\n").split(b"\n")
        heads = [i for i, line in enumerate(lines) if line.startswith(b"$")]
        for head, after in zip(heads, [*heads[1:], len(lines)]):
            yield row_of(f"{section}:{head + 1}", [lines[head][1:], *lines[head + 1 : after]])


def without_evidence(output):
    """The verdicts with a line for each log and each run, and without the positions of a conflict."""
    output = re.sub(rb"^(log|run) .*\n(?:.*\n)*?end\n", rb"\1 ..\n", output, flags=re.M)
    return re.sub(rb"^(safety unsafe \S+) \d+ \d+$", rb"\1", output, flags=re.M)


def shown(status, output):
    """A status and an output as a row spells them."""
    return f"= {status}\n{output.decode(errors='backslashreplace')}"
