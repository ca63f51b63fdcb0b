"""How processes reach each other: lines of JSON, each to a name."""
import json
import queue
import random
import subprocess
import sys
import threading


class Pipes:
    """Over the standard streams: a line out is a name and the object, and whoever started the process passes it on."""

    def __init__(self):
        self.source = sys.stdin

    def send(self, to, item):
        print(to, json.dumps(item, separators=(",", ":")), flush=True)

    def close(self):
        pass


class Broker:
    """Over topics of a broker, one for each name, by the clients of mosquitto, with delivery at least once."""

    def __init__(self, name, port):
        self.port, self.children, self.sinks = port, [], {}
        self.source = self.start(session(name, port), stdout=subprocess.PIPE).stdout

    def start(self, command, **streams):
        child = subprocess.Popen(command, text=True, bufsize=1, **streams)
        self.children.append(child)
        return child

    def send(self, to, item):
        if to not in self.sinks:
            command = ["mosquitto_pub", "-p", str(self.port), "-q", "1", "-l", "-t", topic(to)]
            self.sinks[to] = self.start(command, stdin=subprocess.PIPE).stdin
        self.sinks[to].write(json.dumps(item, separators=(",", ":")) + "\n")

    def close(self):
        for child in self.children:
            child.terminate()
            child.wait()


def topic(name):
    return f"purchase/{name}"


def session(name, port):
    """The client that prints what comes for the name. Its session lasts: what comes while it is away is kept."""
    return ["mosquitto_sub", "-p", str(port), "-q", "1", "-c", "-i", f"to-{name}", "-t", topic(name)]


class Inbox:
    """What comes in by a link, and stays away for a while if nothing does."""

    def __init__(self, link, chaos=None):
        self.items, self.chaos = queue.Queue(), chaos
        threading.Thread(target=self.fill, args=[link.source], daemon=True).start()

    def fill(self, source):
        for line in source:
            self.items.put(json.loads(line))
        self.items.put(None)

    def next(self, seconds):
        """What comes next, as a list, and whether nothing came for so many seconds. At the end, nothing more comes."""
        try:
            item = self.items.get(timeout=seconds)
        except queue.Empty:
            return self.chaos.late() if self.chaos else [], True
        if item is None:
            raise EOFError
        return self.chaos.passed(item) if self.chaos else [item], False


class Chaos:
    """A tenth of the lines is dropped, a tenth comes twice, and a tenth comes later than others."""

    def __init__(self, seed):
        self.random, self.held = random.Random(seed), []
        self.counts = {"dropped": 0, "repeated": 0, "delayed": 0}

    def passed(self, item):
        drawn = self.random.random()
        kind = "dropped" if drawn < 0.1 else "repeated" if drawn < 0.2 else "delayed" if drawn < 0.3 else None
        if kind:
            self.counts[kind] += 1
        if kind == "delayed":
            self.held.append(item)
        now = [] if kind in ("dropped", "delayed") else [item, item] if kind == "repeated" else [item]
        return now + (self.late() if len(self.held) > 20 else [])

    def told(self):
        return ", ".join(f"{count} lines {kind}" for kind, count in self.counts.items())

    def late(self):
        """What was delayed, in another order."""
        items, self.held = self.held, []
        self.random.shuffle(items)
        return items


def of_arguments(name, port):
    """The link of the process of this name: over the broker at the port, or over pipes."""
    return Broker(name, port) if port else Pipes()
