"""What the sources say of the repository: its crates, their functions, their definitions and their edits."""
import re
from pathlib import Path
from typing import NamedTuple

TOP = Path(__file__).resolve().parent.parent


def crates():
    """Each crate of crates.txt with what it stands on, in order."""
    lines = [line.split("#")[0].strip() for line in (TOP / "crates.txt").read_text().splitlines()]
    return {name.split()[0]: uses.split() for name, _, uses in (line.partition(":") for line in lines if line)}


def sources(crate):
    return sorted((TOP / "crates" / crate / "src").rglob("*.rt"))


def function_at(text, at):
    """The name of the function whose contract or body has this offset."""
    before = list(re.finditer(r"^ *(?:pub(?:\([a-z]+\))? )?(?:const )?fn (\w+)", text[:at], re.M))
    return before[-1][1] if before else None


class Edit(NamedTuple):
    """A must-fail edit: its name, the function that it changes, and how often the text stands that it changes first."""

    name: str
    function: str
    places: int


def edits(crate):
    """The must-fail edits of a crate. One that changes no function has no name of one."""
    folder = TOP / "crates" / crate
    for path in sorted((folder / "must-fail").glob("*.edit")):
        lines = path.read_text().splitlines()
        file = folder / next(line[6:] for line in lines if line.startswith("file: "))
        old = next(line[5:] for line in lines if line.startswith("old: "))
        text = file.read_text() if file.exists() else ""
        places = text.count(old)
        yield Edit(path.stem, function_at(text, text.find(old) + len(old)) if places == 1 else None, places)


def passed_on(crate):
    """The names that `lib.rt` passes on."""
    lib = TOP / "crates" / crate / "src/lib.rt"
    uses = re.findall(r"^pub use (.*?);", lib.read_text(), re.M | re.S) if lib.exists() else []
    return set(re.findall(r"\w+", " ".join(uses)))


class Function(NamedTuple):
    """A function: of what type or trait it is, its name, the comment above it, its signature with its contract."""

    owner: str
    is_public: bool
    name: str
    comment: str
    head: str

    def is_law(self):
        """A law takes nothing that it could change, and answers nothing: its contract is all that it has."""
        signature = re.split(r"\n *(?:requires|ensures)", self.head)[0]
        return not re.search(r"->|&mut|\brt:", signature)

    def labels(self):
        """The labels of its clauses."""
        return set(re.findall(r"(?:ensures|requires)\*? (\w+) \{", self.head))


ITEM = re.compile(r"^(impl|pub trait)\b([^{]*)|^}|^( *)(pub(?:\([a-z]+\))? )?(?:const )?fn (\w+)", re.M)


def functions(path):
    """The functions of a file, in order."""
    owner = ""
    text = path.read_text()
    for found in ITEM.finditer(text):
        kind, of, indent, public, name = found.groups()
        if kind:
            owner = re.search(r"\w+", re.sub(r"^<(?:[^<>]|<[^<>]*>)*> ", "", of).split(" for ")[-1].lstrip())[0]
        elif name is None:
            owner = ""
        else:
            before, after = text[: found.start()].splitlines(), text[found.start() :].splitlines()
            yield Function(owner if indent else "", public == "pub ", name, comment_of(before), head_of(after))


def comment_of(lines):
    """The comment that ends these lines, but for attributes."""
    said = []
    for line in reversed(lines):
        if line.lstrip().startswith("///"):
            said.insert(0, line.strip()[3:].strip())
        elif not line.lstrip().startswith("#["):
            break
    return " ".join(said)


def head_of(lines):
    """The signature and the contract of the function that begins with these lines."""
    clauses = False
    for number, line in enumerate(lines):
        clauses = clauses or bool(re.match(r" *(?:ensures|requires)", line))
        if re.fullmatch(r" *\{\}?", line):
            return "\n".join(lines[:number])
        if line.endswith("};") if clauses else line.endswith(("{", "{}", ";")):
            return "\n".join(lines[: number + 1])
    return "\n".join(lines)


def handed_out(crate):
    """The functions that other crates may call, those of a file together."""
    passed = passed_on(crate)
    public = [function for path in sources(crate) for function in functions(path) if function.is_public]
    return [function for function in public if (function.owner or function.name) in passed]


def contracts():
    """For each name of a function, of any crate: the types that have it, each with the labels of its clauses."""
    found = {}
    for crate in crates():
        for path in sources(crate):
            for function in functions(path):
                found.setdefault(function.name, []).append((function.owner, function.labels()))
    return found


def definitions(crate):
    """The files of definitions that contracts of other crates may cite, in reading order."""
    lib = TOP / "crates" / crate / "specs/Lib.antt"
    names = re.findall(r"^pub mod (\w+)", lib.read_text(), re.M) if lib.exists() else []
    return [name for name in names if name != "inner"]
