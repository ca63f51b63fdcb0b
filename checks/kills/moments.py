"""Kills at random moments, and at each of the first system calls."""
import random
import shutil
import threading

from .role import IDLE, Ended, Role, kept, makes_event, rfq

# a journal is begun anew after so many kills
KILLS_EACH = 50


def faults(journal, answered):
    """What is wrong with a journal, if these lines were answered in this order."""
    lines = kept(journal)
    if len(set(lines)) < len(lines):
        yield "a line is kept twice"
    if set(answered) - set(lines):
        yield f"{len(set(answered) - set(lines))} answered lines are lost"
    told = set(answered)
    if [each for each in lines if each in told] != answered:
        yield "the order of the answered lines changed"


def asked_until_killed(role, chance, numbers, answered):
    """Asks lines, some at once, until the role ends. Those that made an event are added to `answered`."""
    try:
        while True:
            batch = [rfq(next(numbers)) for _ in range(chance.choice([1, 1, 1, 5, 40]))]
            for each, reply in zip(batch, role.ask(*batch)):
                if makes_event(reply):
                    answered.append(each)
    except Ended:
        pass


def at_random(folder, kills, numbers):
    """Kills a role under load. Yields what is wrong; the last line tells how much was seen."""
    chance, journal, answered, total, extra = random.Random(7), folder / "random", [], 0, 0
    for count in range(1, kills + 1):
        role = Role("S", journal)
        try:
            list(role.ask(IDLE))
        except Ended:
            yield f"kill {count}: the role does not start again"
            return
        timer = threading.Timer(chance.uniform(0, 0.05), role.process.kill)
        timer.start()
        asked_until_killed(role, chance, numbers, answered)
        timer.join()
        role.kill()
        if count % KILLS_EACH == 0 or count == kills:
            yield from faults(journal, answered)
            total, extra = total + len(answered), extra + len(kept(journal)) - len(answered)
            journal.unlink()
            answered = []
    print(f"{kills} kills at random: {total} answered lines, and {extra} that were kept before their answer", flush=True)


def at_calls(folder, calls, numbers):
    """Kills a role at each of its first system calls, over a new journal and over one that is there."""
    if not shutil.which("strace"):
        print("strace is missing, so no role is killed at its system calls")
        return
    for count in range(1, calls + 1):
        for is_new in (True, False):
            journal, answered = folder / "calls", []
            journal.unlink(missing_ok=True)
            if not is_new:
                first = Role("S", journal)
                answered = [rfq(next(numbers))]
                list(first.ask(*answered))
                first.end()
            before = ["strace", "-f", "-qq", "-o", "/dev/null", "-e", f"inject=all:signal=KILL:when={count}"]
            role = Role("S", journal, before=before)
            try:
                for _ in range(20):
                    each = rfq(next(numbers))
                    if makes_event(next(role.ask(each))):
                        answered.append(each)
            except Ended:
                pass
            role.kill()
            again = Role("S", journal)
            try:
                list(again.ask(IDLE))
            except Ended:
                yield f"call {count}: the role does not start again"
            again.end()
            yield from (f"call {count}: {fault}" for fault in faults(journal, answered))
    print(f"kills at each of the first {calls} system calls", flush=True)
