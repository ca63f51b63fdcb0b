"""Writes the page of a protocol, from what docs/COMMANDS.md says of a page and from the definitions of html,
page_sections, page_text and run_chart: of a protocol text without references, as `bspl expand` prints it, of verdicts
and dead messages, as `bspl verify --brief` and `bspl dead --brief` print them, and of a run text and what `bspl replay`
prints of it, or of what `bspl run --threads 0 --brief` prints, and of what `bspl ask --all --brief` prints of rules. It
shares nothing with the program."""
import re
from pathlib import Path
from typing import NamedTuple

TOP = Path(__file__).resolve().parent.parent
LABEL, FAR_LABEL, ROLE, FOOT, CHARTED = 28, 44, 20, 18, 200
ENTITIES = {'"': "&quot;", "&": "&amp;", "'": "&#39;", "<": "&lt;", ">": "&gt;"}


class Protocol(NamedTuple):
    name: str
    roles: list
    params: list  # (name, whether it is a key)
    messages: dict  # name: (sender, receiver, [(adornment, parameter)])


class Event(NamedTuple):
    act: str
    message: str
    values: tuple  # (parameter, value), in the order of the message


def split(text):
    return [word.strip() for word in text.split(",") if word.strip()]


def protocol_of(text):
    """The protocol of a text without references."""
    head, body = re.sub(r"//[^\n]*", " ", text).split("{", 1)
    roles, rest = re.split(r"\bparameters?\b", body[: body.rindex("}")], maxsplit=1)
    first = re.search(r"\S+\s*->|$", rest).start()
    public, _, private = rest[:first].partition("private")
    params = [(words[1], words[2:] == ["key"]) for words in map(str.split, split(public))]
    messages = {}
    for sender, receiver, name, carried in re.findall(r"(\S+)\s*->\s*(\S+)\s*:\s*([^\s\[]+)\s*\[(.*?)\]", rest[first:], re.S):
        messages[name] = (sender, receiver, [tuple(words.split()[:2]) for words in split(carried)])
    roles = split(re.sub(r"^\s*roles?\b", "", roles))
    return Protocol(head.strip(), roles, params + [(name, False) for name in split(private)], messages)


def run_of(lines):
    """The events of the lines of a run text."""
    parted = [line.split(" ") for line in lines]
    return [Event(act, name, tuple(tuple(field.split("=", 1)) for field in fields)) for act, name, *fields in parted]


def words(text):
    return "".join(ENTITIES.get(sign, sign if " " <= sign <= "~" or sign == "\n" else "&#65533;") for sign in text)


def cut(most, text):
    return words(text) if len(text) <= most else words(text[:most]) + "&#8230;"


class Chart:
    """The chart of a run. A finding is ("clash", parameter, first, second), ("open", parameter), ("bad", event) or
    ("plain",)."""

    def __init__(self, protocol, run, finding):
        self.protocol, self.run, self.finding = protocol, run, finding
        self.end = 58 + 40 * len(run)

    def role(self, event):
        sender, receiver, _ = self.protocol.messages[event.message]
        return sender if event.act == "send" else receiver

    def key(self, event):
        return [dict(event.values)[name] for name, key in self.protocol.params if key]

    def known(self, k):
        """What the role of an event knew before it, in its enactment, in the order of the parameters."""
        found = {}
        for event in self.run[:k]:
            if self.role(event) == self.role(self.run[k]) and self.key(event) == self.key(self.run[k]):
                for name, value in event.values:
                    found.setdefault(name, value)
        return [(name, found[name]) for name, _ in self.protocol.params if name in found]

    def news(self, k):
        known = dict(self.known(k))
        return [(name, value) for name, value in self.run[k].values if name not in known]

    def labelled(self, k):
        """What the label shows: what is new, and in a run of several enactments the key too."""
        several = len({tuple(self.key(event)) for event in self.run}) > 1
        keys, new = [name for name, key in self.protocol.params if key and several], self.news(k)
        return [pair for pair in self.run[k].values if pair[0] in keys or pair in new]

    def far_role(self, event):
        """The role at the other end of the event's message, if lifelines of others are between."""
        sender, receiver, _ = self.protocol.messages[event.message]
        if abs(self.column(sender) - self.column(receiver)) <= 180:
            return ""
        return f" to {receiver}" if event.act == "send" else f" from {sender}"

    def is_ringed(self, k):
        return self.finding[0] == "clash" and k + 1 in self.finding[2:] or self.finding == ("bad", k + 1)

    def is_missing(self, event):
        return event.act == "send" and event._replace(act="receive") not in self.run

    def column(self, role):
        return 90 + 180 * self.protocol.roles.index(role)

    def stroke(self, k):
        event, y = self.run[k], 72 + 40 * k
        sender, receiver, _ = self.protocol.messages[event.message]
        right = self.column(sender) < self.column(receiver)
        dot = f'<circle class="m" cx="{self.column(self.role(event))}" cy="{y}" r="4"/>\n'
        sent = event._replace(act="send")
        if event.act == "send":
            end = "h52a4 4 0 1 0 8 0a4 4 0 1 0-8 0" if right else "h-52a4 4 0 1 0-8 0a4 4 0 1 0 8 0"
            return (f'<path d="M{self.column(sender)} {y}{end}"/>\n' if self.is_missing(event) else "") + dot
        if sent not in self.run:
            return dot
        x = self.column(receiver) + (-16 if right else 16)
        head = "m0-5l11 5-11 5z" if right else "m0-5l-11 5 11 5z"
        start = f"M{self.column(sender)} {72 + 40 * self.run.index(sent)}"
        return f'<path class="m" d="{start}L{x} {y}{head}"/>\n' + dot

    def label(self, k):
        event = self.run[k]
        sender, receiver, _ = self.protocol.messages[event.message]
        role, other = (sender, receiver) if event.act == "send" else (receiver, sender)
        x, y = self.column(role), 72 + 40 * k
        ring = f'<circle cx="{x}" cy="{y}" r="9"/>\n' if self.is_ringed(k) else ""
        side = 'dx="10"' if x < self.column(other) else 'dx="-10" text-anchor="end"'
        start = f'<text x="{x}" y="{y}" {side} dy="'
        said = " ".join([event.message + self.far_role(event)] + [f"{name}={value}" for name, value in self.labelled(k)])
        yet = " yet" if self.finding[0] == "bad" else ""
        missing = f'{start}16">not received{yet}</text>\n' if self.is_missing(event) else ""
        height = "-6" if event.act == "send" else "16"
        return f'{ring}{start}{height}">{k + 1} {cut(FAR_LABEL if self.far_role(event) else LABEL, said)}</text>\n{missing}'

    def row(self, k):
        event = self.run[k]
        sender, receiver, _ = self.protocol.messages[event.message]
        act = (sender, "sends", "to", receiver) if event.act == "send" else (receiver, "receives", "from", sender)
        mark = "clash" if self.finding[0] == "clash" else "not allowed"
        clash = f" <b>{mark}</b>" if self.is_ringed(k) else ""
        cells = ["".join(f"<span>{words(f'{name}={value}')}</span> " for name, value in pairs) for pairs in (self.news(k), self.known(k))]
        said = f"{words(act[0])} {act[1]} {words(event.message)} {act[2]} {words(act[3])}"
        return f'<tr><th scope="row">{k + 1}</th><td>{said}{clash}</td><td class="v">{cells[0]}</td><td class="v">{cells[1]}</td></tr>\n'

    def foot(self):
        if self.finding[0] == "plain":
            return ""
        if self.finding[0] == "bad":
            return f'<text x="10" dy="22" y="{self.end}">ringed: may not follow those before it</text>\n'
        name = cut(FOOT, self.finding[1])
        if self.finding[0] == "clash":
            return f'<text x="10" dy="22" y="{self.end}">ringed: both produce {name}</text>\n'
        line = f'<path stroke-dasharray="6 4" d="M0 {self.end}H{180 * max(2, len(self.protocol.roles))}"/>'
        return f'{line}<text x="10" dy="22" y="{self.end}">no role knows {name}</text>\n'

    def title(self):
        if self.finding[0] == "clash":
            return f"Sequence chart: events {self.finding[2]} and {self.finding[3]} both produce {words(self.finding[1])}"
        if self.finding[0] == "bad":
            return f"Sequence chart: event {self.finding[1]} may not follow those before it"
        if self.finding[0] == "plain":
            return "Sequence chart of a legal run"
        return f"Sequence chart: at its end no role knows {words(self.finding[1])}"

    def text(self):
        roles, each = self.protocol.roles, range(len(self.run))
        width, height = 180 * max(2, len(roles)), 92 + 40 * len(self.run)
        lifelines = "".join(
            f'<path d="M{x} 8h80v28h-160v-28zm0 28V{self.end}"/><text x="{x}" y="27" text-anchor="middle">{cut(ROLE, role)}</text>\n'
            for role, x in zip(roles, map(self.column, roles))
        )
        return (
            f'<div class="chart">\n<figure>\n<svg role="img" width="{width}" height="{height}" viewBox="0 0 {width} {height}">\n'
            f"<title>{self.title()}</title>\n<desc>Time runs down the lifelines of {''.join(words(role) + ', ' for role in roles)}"
            "from left to right. The table after the chart has the same events.</desc>\n"
            f"{CHART_STYLE}{lifelines}{''.join(map(self.stroke, each))}{''.join(map(self.label, each))}{self.foot()}</svg>\n"
            "<figcaption>A dot is an event. An arrow leads from a sending to its reception; a line to an open circle has none in "
            'this chart.</figcaption>\n</figure>\n<table>\n<thead><tr><th scope="col">#</th><th scope="col">Event</th>'
            '<th scope="col">New</th><th scope="col">Known before</th></tr></thead>\n<tbody>\n'
            f"{''.join(map(self.row, each))}</tbody>\n</table>\n</div>\n"
        )


CHART_STYLE = """<style>
.chart{display:flex;flex-wrap:wrap;gap:0 2em;align-items:flex-start}
.chart figure{margin:0;max-width:100%;overflow-x:auto}
.chart table{flex:1 1 20em}
.chart th{white-space:nowrap}
.chart figcaption{width:0;min-width:100%;color:var(--soft)}
.chart path,.chart circle{fill:none;stroke:currentColor;stroke-width:1.2}
.chart .m{fill:currentColor}
.chart text{font:12px ui-monospace,monospace;fill:currentColor;stroke:var(--paper);stroke-width:4px;paint-order:stroke}
@media print{.chart{display:block}.chart figure{overflow:visible}
.chart svg{max-width:100%;height:auto}}
</style>
"""
STYLE = """<style>
:root{color-scheme:light dark;--ink:#1b1f24;--soft:#57606a;--line:#c4cbd3;--paper:#fff;--band:#eef1f4}
@media(prefers-color-scheme:dark){:root{--ink:#e6eaee;--soft:#a3adb8;--line:#4a535e;--paper:#14181d;--band:#252c34}}
body{margin:2em auto;max-width:64em;padding:0 1em;background:var(--paper);color:var(--ink);font:16px/1.45 system-ui,sans-serif}
h1,h2,p{overflow-wrap:anywhere}
h2{margin-top:1.6em}
table{display:block;overflow-x:auto;border-collapse:collapse}
caption{text-align:left;color:var(--soft);padding-bottom:.4em}
th,td{text-align:left;vertical-align:top;padding:3px 12px 3px 0;border-bottom:1px solid var(--line);overflow-wrap:break-word}
.v{font:14px/22px ui-monospace,monospace}
.v>*{display:inline-block;margin-right:.6em}
pre{background:var(--band);padding:.6em 1em;white-space:pre-wrap;overflow-wrap:anywhere;font:14px/22px ui-monospace,monospace}
@media print{body{margin:0;max-width:none;padding:0;font-size:12px}
.v,pre{font-size:11px;line-height:16px}
table{display:table}
tr{break-inside:avoid}
h2,caption{break-after:avoid}}
</style>
"""
SAFE = (
    "<h2>Safety: safe</h2>\n<p>In no legal run is a parameter of one enactment produced twice, and no two roles ever know "
    "different values of it.</p>\n"
)
NOT_DRAWN = f"<p>The run is not drawn, since a chart has at most {CHARTED} events.</p>\n"
LIVE = (
    "<h2>Liveness: live</h2>\n<p>At each key at which a legal run is at rest, each public parameter that is to have a value is "
    "known to some role.</p>\n"
)


def section(protocol, property_, verdict, rest, run):
    """The section of a verdict: the property, its word, what follows the word in its line, and the lines of its run."""
    if verdict in ("safe", "live"):
        return SAFE if property_ == "safety" else LIVE
    if verdict == "undecided":
        return (
            f"<h2>{property_.capitalize()}: undecided</h2>\n<p>The search met as many conflicts as it may, {rest[0]}, without an "
            "answer.</p>\n"
        )
    if verdict == "unsafe":
        param, first, second = rest[0], int(rest[1]), int(rest[2])
        finding = ("clash", param, first, second)
        said = (
            f"<h2>Safety: unsafe</h2>\n<p>Events {first} and {second} of this legal run, counted from 1 below its first line, both "
            f"produce <b>{words(param)}</b> in one enactment.</p>\n"
        )
    else:
        finding = ("open", rest[0])
        said = (
            "<h2>Liveness: not live</h2>\n<p>After this legal run the enactment is at rest: what was sent has arrived, no message "
            f"that was not sent yet can be sent, and no role knows <b>{words(rest[0])}</b>.</p>\n"
        )
    chart = Chart(protocol, run_of(run), finding).text()
    lines = "".join(line + "\n" for line in run)
    return f"{said}{chart}<pre>run 1\n{words(lines)}end\n</pre>\n"


def verdicts_of(text):
    """What the lines of `bspl verify --brief` say: a property, its word, the words after it, and the lines of its run."""
    run = None
    for line in text.splitlines()[1:]:
        property_, _, rest = line.partition(" ")
        if property_ in ("safety", "liveness"):
            found = [property_, *rest.split(" ")[:1], rest.split(" ")[1:], []]
            yield found
        elif line not in ("run 1", "end"):
            found[3].append(line)


def rules_section(protocol, asked):
    """The section of the rules, from the lines of `bspl ask NAME --all --brief`: each rule, and its run if it has one."""
    shown, run = [], None
    for line in asked.splitlines()[1:]:
        if line == "run 1":
            run = []
        elif line == "end":
            chart = Chart(protocol, run_of(run), ("plain",)).text()
            shown.append(f"{chart}<pre>run 1\n{''.join(words(event) + chr(10) for event in run)}end\n</pre>\n")
            run = None
        elif run is not None:
            run.append(line)
        else:
            word, rule = re.fullmatch(r"(kept|broken|undecided)(?: \d+)? ((?:never|some) .*)", line).groups()
            shown.append(f"<p><b>{word}</b>: <code>{words(rule)}</code></p>\n")
    if not shown:
        return ""
    return (
        "<h2>Rules</h2>\n<p>A rule <code>never</code> is kept if no legal run answers its question with yes, and a rule "
        "<code>some</code> if one does. Such a run is shown. Of an undecided rule this is not known.</p>\n" + "".join(shown)
    )


def why(reason):
    """Why an event may not follow those before it, from the words of `bspl replay`."""
    if reason[0] == "missing":
        return f"its sender does not know <b>{words(reason[1])}</b>"
    if reason[0] == "bound":
        return f"its sender knows <b>{words(reason[1])}</b> already, as {words(reason[2])}"
    if reason[0] == "other":
        return f"its sender knows <b>{words(reason[1])}</b> with the value {words(reason[2])}"
    return "what is received was not sent before"


def run_section(protocol, run, report):
    """The section of a run that is given: the lines of its events, and what `bspl replay` prints of it."""
    first, second, *_ = [line.split(" ") for line in report.splitlines()] + [[]]
    events = run_of(run)
    legal = "<h2>Run: legal</h2>\n<p>Each event of the run may follow those before it"
    if first[0] == "illegal":
        finding, events = ("bad", int(first[1])), events[: int(first[1])]
        said = (
            f"<h2>Run: illegal</h2>\n<p>Event {first[1]} of the run may not follow those before it: {why(first[2:])}.</p>\n"
        )
    elif second[0] == "conflict":
        finding = ("clash", second[1], int(second[2]), int(second[3]))
        said = f"{legal}. Events {second[2]} and {second[3]} both produce <b>{words(second[1])}</b> in one enactment.</p>\n"
    else:
        finding = ("plain",)
        said = f"{legal}, and none produces what another has produced in the same enactment.</p>\n"
    lines = f"<p>The lines of <code>bspl replay</code>:</p>\n<pre>{words(report)}</pre>\n"
    chart = Chart(protocol, events, finding).text() if len(events) <= CHARTED else NOT_DRAWN
    return said + chart + lines


def row(head, cells):
    return f'<tr><th scope="row">{words(head)}</th>{"".join(f"<td>{words(cell)}</td>" for cell in cells)}</tr>\n'


def table(caption, heads, rows):
    columns = "".join(f'<th scope="col">{words(head)}</th>' for head in heads)
    return (
        f"<table>\n<caption>{caption}</caption>\n<thead><tr>{columns}</tr></thead>\n<tbody>\n{''.join(rows)}</tbody>\n</table>\n"
    )


def world_section(protocol, played, events):
    """The section of agents, from the lines of `bspl run`, and the lines of the events of their run, unless it is long."""
    lines = [line.split(" ") for line in played.splitlines()]
    keys = [fields[1] for fields in lines if fields[0] == "world"]
    if not keys:
        return "<h2>World: not played</h2>\n<p>Agents play a protocol only if it is found safe.</p>\n"
    counts = [row(fields[1], [fields[3], fields[5]]) for fields in lines if fields[0] == "message"]
    values = [row(fields[1], [field.split("=", 1)[1] for field in fields[2:]]) for fields in lines if fields[0] == "row"]
    known = "What some role knows of each parameter under each workload key; a dash if none knows it."
    shown = ""
    if events is not None:
        text = "".join(f"{line}\n" for line in ["run 1", *events, "end"])
        shown = "<h2>World: events</h2>\n<p>All that the agents sent and received, as one legal run.</p>\n"
        shown += Chart(protocol, run_of(events), ("plain",)).text() + f"<pre>{words(text)}</pre>\n"
    return (
        "<h2>World</h2>\n<p>The agents have acted in turn until nothing was left to do, as by <code>bspl run --threads 0</code>. "
        f"Workload keys: {keys[0]}.</p>\n"
        + table("How often each message was sent and received.", ["Message", "Sent", "Received"], counts)
        + "<h2>World: values</h2>\n"
        + table(known, ["Key", *[name for name, _ in protocol.params]], values)
        + shown
    )


def fates(dead):
    """Which messages are dead, from the lines of `bspl dead --brief`."""
    found = [line.split(" ")[1:3] for line in dead.splitlines()[1:]]
    listed = "".join(f"<li>{words(name)}: {fate}</li>\n" for name, fate in found if fate != "enacted")
    if not listed:
        return "<h2>Dead messages: none</h2>\n<p>For each message there is a legal run that sends it.</p>\n"
    return (
        "<h2>Dead messages</h2>\n<p>A message is dead if no legal run sends it. For each message that is not listed there is one "
        f"that does.</p>\n<ul>\n{listed}</ul>\n"
    )


def tables(protocol, dead):
    keys = dict(protocol.params)
    never = [line.split(" ")[1] for line in dead.splitlines()[1:] if line.split(" ")[2] == "dead"]
    out = [
        '<h2>Messages</h2>\n<table>\n<thead><tr><th scope="col">Message</th><th scope="col">From</th><th scope="col">To</th>'
        '<th scope="col">Parameters</th></tr></thead>\n<tbody>\n'
    ]
    for name, (sender, receiver, carried) in protocol.messages.items():
        cells = "".join(f"<span>{how} {words(p)}{' <b>key</b>' if keys[p] else ''}</span> " for how, p in carried)
        out.append(
            f'<tr><th scope="row">{words(name)}</th><td>{words(sender)}</td><td>{words(receiver)}</td><td class="v">{cells}</td></tr>\n'
        )
    heads = "".join(f'<th scope="col">{words(role)}</th>' for role in protocol.roles)
    out.append(
        "</tbody>\n</table>\n<h2>Knowledge</h2>\n<table>\n<caption>From which messages each role can learn each parameter. "
        "Dead messages are left out.</caption>\n"
        f'<thead><tr><th scope="col">Parameter</th>{heads}</tr></thead>\n<tbody>\n'
    )
    for param, _ in protocol.params:
        cells = []
        for role in protocol.roles:
            sources = [
                name
                for name, (sender, receiver, carried) in protocol.messages.items()
                if name not in never
                and (
                    (sender == role and ("out", param) in carried)
                    or (receiver == role and {("in", param), ("out", param)} & set(carried))
                )
            ]
            cells.append("<td>" + "".join(f"<span>{words(name)}</span> " for name in sources) + "</td>")
        out.append(f'<tr><th scope="row">{words(param)}</th>{"".join(cells)}</tr>\n')
    return "".join(out) + "</tbody>\n</table>\n"


def page(text, verdicts, dead, run=None, report="", played=None, events=None, asked=""):
    """The page of the protocol of the text with these verdicts and dead messages, and the lines of a run's events with what
    `bspl replay` prints of it, or what `bspl run` prints of agents, with the lines of the events of a short run; and what
    `bspl ask --all` prints of its rules."""
    protocol, found = protocol_of(text), list(verdicts_of(verdicts))
    said = {property_: verdict.replace("-", " ") for property_, verdict, _, _ in found}
    title = f"{words(protocol.name)}: safety {said['safety']}, liveness {said['liveness']}"
    given = rules_section(protocol, asked)
    given += "" if run is None else run_section(protocol, run, report)
    given += "" if played is None else world_section(protocol, played, events)
    return (
        '<!DOCTYPE html>\n<html lang="en">\n<head>\n<meta charset="utf-8">\n<meta name="viewport" content="width=device-width">\n'
        f"<title>{title}</title>\n{STYLE}</head>\n<body>\n<h1>{title}</h1>\n"
        f"{''.join(section(protocol, *one) for one in found)}"
        f"{given}{fates(dead)}{tables(protocol, dead)}</body>\n</html>\n"
    )
