"""What the scripts know of this repository: its crates, its commands, and where the builds of a program are."""
import os
from pathlib import Path
from typing import NamedTuple

TOP = Path(__file__).resolve().parent.parent
CRATES = TOP / "crates"
OUT = TOP / "out"


class Command(NamedTuple):
    word: str
    program: list
    args: str
    does: str
    example: str


def commands():
    """The commands of tools/commands, in order."""
    lines = (TOP / "tools" / "commands").read_text().splitlines()
    parts = [line.split(";") for line in lines if not line.startswith("#")]
    return [Command(word, program.split(), *others) for word, program, *others in parts]


def programs():
    """The programs of this repository that have a command, in order."""
    names = [it.program[0] for it in commands() if it.program[0] in crates()]
    return list(dict.fromkeys(names))


def crates():
    """The crates of the repository that each crate of it stands on."""
    lines = [line.split("#")[0] for line in (TOP / "crates.txt").read_text().splitlines()]
    listed = [line.partition(":") for line in lines if line.strip()]
    names = {head.split()[0] for head, _, _ in listed}
    return {head.split()[0]: [use for use in uses.split() if use in names] for head, _, uses in listed}


def below(name, uses, found):
    """Adds the crate and all that it stands on to those that were found."""
    if name not in found:
        found.add(name)
        for use in uses[name]:
            below(use, uses, found)
    return found


def read_by(name, parts=("src", "specs", "proofs")):
    """The files and folders of these parts of the crate."""
    folders = [CRATES / name / part for part in parts]
    return [path for folder in folders if folder.exists() for path in [folder, *folder.rglob("*")]]


def newest(names, parts):
    """The time of the newest source of these crates; a folder's time tells of files that come and go."""
    times = [path.stat().st_mtime for name in names for path in read_by(name, parts)]
    return max([*times, (TOP / "crates.txt").stat().st_mtime])


def proved(name):
    """Where the proved build of the program is."""
    return CRATES / name / "out" / name


def unproved(name):
    """Where the build without proofs is."""
    return OUT / name


def is_current(path, name, parts=("src", "specs", "proofs")):
    """Whether the build is there, and nothing that it was made of is newer. Its time is that at which it began."""
    return os.access(path, os.X_OK) and path.stat().st_mtime >= newest(below(name, crates(), set()), parts)


def build_of(name):
    """The build of the program that answers, and whether it is proved; none if neither is current."""
    if is_current(proved(name), name):
        return proved(name), True
    if is_current(unproved(name), name, ("src",)):
        return unproved(name), False
    return None
