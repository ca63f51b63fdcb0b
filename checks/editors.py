#!/usr/bin/env python3
"""Compares the colours of docs/editors with the tokens of the language.

    checks/editors.py

Each text of examples/ and each input of the worked rows is cut into tokens by a scanner that is written here from
docs/LANGUAGE.md, and by the regular expressions of `bspl.tmLanguage.json`, which are applied here as an editor does;
and, if `vim` is installed, the examples and some edges by `bspl.vim` too. Every character that is not blank has to get
the same class. Left out are inputs that are no UTF-8, have a CR or over 20,000 characters, and parts that are refused.
A number for each kind of text is printed; the status is 1 if anything differs.
"""
import json
import re
import shutil
import subprocess
import sys
import tempfile
from pathlib import Path

TOP = Path(__file__).resolve().parent.parent
EDITORS = TOP / "docs" / "editors"
sys.path.insert(0, str(TOP / "tools"))
from rows import rows

WORDS = {word: "declaration" for word in ("roles", "role", "parameters", "parameter", "private")}
WORDS |= {word: "adornment" for word in ("in", "out", "nil", "any", "opt")}
WORDS |= {"key": "key"}
QUESTION_WORDS = dict.fromkeys(("rest", "not", "and", "or", "before", "after"), 0)  # and how many names come after
QUESTION_WORDS |= dict.fromkeys(("sent", "received", "bound", "can", "but"), 1) | {"knows": 2}
LETTERS = set("ABCDEFGHIJKLMNOPQRSTUVWXYZabcdefghijklmnopqrstuvwxyz")
DIGITS = set("0123456789")
EDGES = [
    "A-1->B", "rolesA in#1.key in#0.key in#1. key-x key- in-> x-_y _a--b a-", "P{roles A,B// roles\nparameters in x}",
    "A \u21a6 B A \u2192 B", "%% agent\n%% agents \n %% run", "in#1.in#12.out-3#1._ a#01.b", "Pricing#2.quote[in ID]",
    "P { }\n%% agents\n\n // keys\n\torder B rfq every\ndecline every every 2\nvalue m p 0 10\nkey 1 \"\" \"a\\20b\"",
    "P { }\n%% run\nrun 1\nsend send key=1 in#1.key=\"a=b\"\nreceive m x=0\nend",
    "P { }\n%% histories\nhistories 1\nrole role\nsend send role=1 in#1.key=\"a=b\"\nrole A-1\nreceive m x=0\nend",
    "P { }\n%% wire\nrole role\n{\"emit\":{\"key\":[\"1\"],\"message\":\"role\",\"outs\":[]}}\n", "P { }\n%% wire\nrole A-1",
    "P { }\n%% log\nlog 2 dead dead\nstep 12 -3 4 5 1\ndrop 1 2\nend", "P { }\n%% log\nlog 1 safety\nend\n",
    "P {\n  //? never sent can before knows not before and not (rest but or but and)\n//?some can P#1.m // in\n //? sent\n}",
    "P { }\n%% log\nlog 1 ask ( sent ask ) and not knows in 12\nstep 1 2 3\nend\n",
    "//? never\nP { x //? never sent a\n\t//?never-a sent-b knows A->B bound in sent;\n// ? some\n //?never rest//rest\n}",
]
CLASSES = [  # the class of a scope of the grammar, by its beginning
    ("comment", "comment"), ("keyword.operator.arrow", "arrow"), ("keyword.operator.assignment", "equals"),
    ("keyword.declaration", "declaration"), ("storage.modifier.adornment", "adornment"),
    ("storage.modifier.key", "key"), ("keyword.control", "statement"), ("entity.name", "name"), ("variable", "name"),
    ("punctuation", "punctuation"), ("constant.numeric", "number"), ("string", "text"), ("markup.heading", "part"),
    ("invalid", "error"),
]
PART_COMMANDS = (b"check", b"check-dead", b"replay", b"run", b"serve", b"audit")
EVENT_PARTS = ("run", "histories")
GROUPS = {  # the class of a group of the Vim file, without `bspl`
    "Protocol": "name", "Message": "name", "Name": "name", "PartName": "name", "PartError": "error",
    "AgentsComment": "comment", "AgentsWord": "statement", "RunWord": "statement", "LogWord": "statement",
    "RuleWord": "statement", "RuleName": "name", "RuleFirst": "name", "RuleLast": "name", "RuleError": "error",
    "RuleComment": "comment", "RulePunctuation": "punctuation", "RuleArrow": "arrow", "Rule": None,
    "HistoriesWord": "statement", "WireWord": "statement", "WireName": "name", "Wire": None, "LogQuestion": "name",
}


def plain_end(text, at):
    """Where the plain name ends that begins here."""
    at += 1
    while at < len(text):
        if text[at] == "-":
            if text[at + 1 : at + 2] not in LETTERS | DIGITS:
                break
        elif text[at] not in LETTERS | DIGITS | {"_"}:
            break
        at += 1
    return at


def rule_kinds(words):
    """What the tokens after `//?` are: `never` or `some` and words of the question, or names, by the token before."""
    wanted = 0
    for i, (at, end, kind, word) in enumerate(words):
        if kind == "name" and wanted:
            wanted -= 1
        elif kind == "name" and (word in QUESTION_WORDS or i == 0 and word in ("never", "some")):
            kind, wanted = "statement", QUESTION_WORDS.get(word, 0)
        else:
            wanted = 0
        yield at, end, kind


def rule_tokens(text, at):
    """The tokens of the line whose rule begins here."""
    end = (text + "\n").index("\n", at)
    words = []
    for first, last, kind in tokens(" " * (at + 3) + text[at + 3 : end]):
        words.append((first, last, "name" if kind in ("declaration", "adornment", "key") else kind, text[first:last]))
    return [(at, at + 3, "statement"), *rule_kinds(words)]


def name_end(text, at):
    """Where the name ends that begins here: a plain name and its groups."""
    at = plain_end(text, at)
    while text[at : at + 1] == "#" and text[at + 1 : at + 2] in DIGITS - {"0"}:
        dot = at + 2
        while text[dot : dot + 1] in DIGITS:
            dot += 1
        if text[dot : dot + 1] != "." or text[dot + 1 : dot + 2] not in LETTERS | {"_"}:
            break
        at = plain_end(text, dot + 1)
    return at


def tokens(text):
    """The tokens of a protocol text, with their offsets; an error where no token begins."""
    at = 0
    while at < len(text):
        end, kind = at + 1, "error"
        if text[at] in " \t\r\n":
            kind = None
        elif text.startswith("//?", at) and not text[text.rfind("\n", 0, at) + 1 : at].strip(" \t"):
            yield from rule_tokens(text, at)
            end, kind = (text + "\n").index("\n", at), None
        elif text.startswith("//", at):
            end, kind = (text + "\n").index("\n", at), "comment"
        elif text[at] in LETTERS | {"_"}:
            end = name_end(text, at)
            kind = WORDS.get(text[at:end], "name")
        elif text.startswith("->", at):
            end, kind = at + 2, "arrow"
        elif text[at] == "\u21a6":
            kind = "arrow"
        elif text[at] in "{}[](),:":
            kind = "punctuation"
        if kind:
            yield at, end, kind
        at = end


def value_kind(field):
    """What a field of a part is: a number, a text or a name."""
    return "number" if field.lstrip("-").isdigit() else "text" if field.startswith('"') else "name"


def fields(line, start, part):
    """The tokens of a line of a part."""
    places = [(m.start() + start, m.end() + start, m[0]) for m in re.finditer(r"[^ \t]+", line)]
    words = [word for _, _, word in places]
    if part == "agents" and words and words[0].startswith("//"):
        yield places[0][0], start + len(line), "comment"
        return
    if part == "wire" and words[:1] != ["role"]:
        return
    if part == "log" and words[:1] == ["log"] and words[2:3] == ["ask"] and len(words) > 3:
        kinds = ["statement", "number", "statement"]
        yield from ((at, end, kind) for (at, end, _), kind in zip(places, kinds))
        yield places[3][0], start + len(line), "name"
        return
    for i, (at, end, word) in enumerate(places):
        name, equals, value = word.partition("=") if part in EVENT_PARTS and i > 1 else (word, "", "")
        if i == 0 or (part == "log" and words[0] == "log" and i == 2) or (
            part == "agents" and words[0] == "decline" and i == 2
        ):
            yield at, end, "statement"
        elif equals:
            yield at, at + len(name), "name"
            yield at + len(name), at + len(name) + 1, "equals"
            yield at + len(name) + 1, end, value_kind(value)
        else:
            yield at, end, value_kind(word)


def scanned(text):
    """The class of each character, None for a blank: the protocol text, and after the first part line the part."""
    classes = [None] * len(text)
    found = re.search(r"^%% (agents|log|run|histories|wire)$", text, re.M)
    place = found.start() if found else len(text)
    kinds = list(tokens(text[:place]))
    if found:
        kinds.append((place, found.end(), "part"))
        at = found.end() + 1
        for line in text[at:].split("\n"):
            kinds += fields(line, at, found[1])
            at += len(line) + 1
    for at, end, kind in kinds:
        classes[at:end] = [kind] * (end - at)
    return classes


class Grammar:
    """The grammar's rules, applied line by line: after each place the leftmost match counts, and of several there that
    of the first rule. The own rules of one with a beginning hold after it: to the line's end if that is its end, else
    for good."""

    def __init__(self, path):
        self.whole = json.loads(path.read_text())
        self.compiled = {}

    def rules(self, patterns):
        for rule in patterns:
            if "include" in rule:
                named = self.whole["repository"][rule["include"].removeprefix("#")]
                yield from self.rules([named] if "begin" in named else named["patterns"])
            else:
                yield rule

    def pattern(self, source):
        return self.compiled.setdefault(source, re.compile(source))

    def first(self, rules, line, at):
        best = None
        for rule in rules:
            found = self.pattern(rule.get("match") or rule["begin"]).search(line, at)
            if found and (best is None or found.start() < best[1].start()):
                best = rule, found
        return best

    def coloured(self, text):
        """The class of each character by the grammar."""
        classes, start, inside = [None] * len(text), 0, list(self.rules(self.whole["patterns"]))
        outside = None
        for line in text.split("\n"):
            at, inside, outside = 0, outside or inside, None
            while best := self.first(inside, line, at):
                rule, found = best
                marks = rule.get("captures") or rule.get("beginCaptures") or {"0": rule}
                for group, mark in marks.items():
                    kind = next(kind for scope, kind in CLASSES if mark["name"].startswith(scope))
                    first, end = found.span(int(group))
                    classes[start + first : start + end] = [kind] * (end - first)
                if "begin" in rule:
                    outside = inside if rule["end"] == "$" else None
                    inside = list(self.rules(rule["patterns"]))
                at = found.end()
            start += len(line) + 1
        return classes


def vim_classes(texts):
    """The classes by the Vim file of each text, if Vim is there."""
    with tempfile.TemporaryDirectory() as folder:
        script = ["set nomodeline enc=utf-8 fencs=utf-8", "let g:out = []"]
        for i, text in enumerate(texts):
            Path(folder, str(i)).write_text(text)
            script += [f"edit! {folder}/{i}", "unlet! b:current_syntax", "syntax clear", f"source {EDITORS}/bspl.vim",
                       "for l in range(1, line('$'))", "let r = []", "for c in range(1, strchars(getline(l)))",
                       "let b = byteidx(getline(l), c - 1) + 1", "call add(r, '.' . synIDattr(synID(l, b, 0), 'name'))",
                       "endfor", "call add(g:out, join(r, ' '))", "endfor", "call add(g:out, '====')"]
        script += [f"call writefile(g:out, '{folder}/out')", "qall!"]
        Path(folder, "script.vim").write_text("\n".join(script) + "\n")
        vim = "vim -es -N -u NONE -i NONE".split() + ["-c", "syntax enable", "-S", f"{folder}/script.vim"]
        subprocess.run(vim, check=False, timeout=300, stdin=subprocess.DEVNULL, capture_output=True)
        answers = Path(folder, "out").read_text().split("====\n")
    for text, answer in zip(texts, answers):
        classes = []
        for line in answer.split("\n"):
            names = [word.removeprefix(".bspl").removeprefix(".") for word in line.split()]
            classes += [GROUPS.get(name, name.lower()) or None for name in names] + [None]
        yield (classes + [None] * len(text))[: len(text)]


def different(place, text, wanted, found):
    """Whether the classes differ at a character that is not blank; the first one is shown."""
    for at, (want, get) in enumerate(zip(wanted, found)):
        if want != get and text[at] not in " \t\r\n":
            line = text.count("\n", 0, at)
            print(f"{place}: line {line + 1}, {text.splitlines()[line]!r}: {text[at]!r} is {want}, coloured as {get}")
            return True
    return False


def inputs():
    """The inputs of the rows that can be compared, with the part where the command takes it and refuses nothing."""
    for row in rows():
        try:
            text = row.given.decode()
        except UnicodeDecodeError:
            continue
        if row.status > 2 or not set(row.args[1:2]) & set(PART_COMMANDS):
            text = re.split(r"^%% (?:agents|log|run|histories|wire)$", text, maxsplit=1, flags=re.M)[0]
        if row.args[0] != b"dimacs_sat" and "\r" not in text and len(text) <= 20000:
            yield row.place, text


def main():
    grammar = Grammar(EDITORS / "bspl.tmLanguage.json")
    examples = [(path.name, path.read_text()) for path in sorted((TOP / "examples").glob("*.bspl"))]
    edges = [(f"edge {i}", text) for i, text in enumerate(EDGES, 1)]
    given = [(place, text) for text, place in {text: place for place, text in inputs()}.items()]
    texts = examples + edges + given
    wrong = sum(different(place, text, scanned(text), grammar.coloured(text)) for place, text in texts)
    print(f"{len(examples)} examples, {len(edges)} edges and {len(given)} inputs compared, {wrong} differ")
    if not shutil.which("vim"):
        print("vim is not installed: its file is not compared")
        return 1 if wrong else 0
    found = zip(examples + edges, vim_classes([text for _, text in examples + edges]))
    others = sum(different(f"vim, {place}", text, scanned(text), classes) for (place, text), classes in found)
    print(f"{len(examples + edges)} texts compared with the Vim file, {others} differ")
    return 1 if wrong or others else 0


if __name__ == "__main__":
    sys.exit(main())
