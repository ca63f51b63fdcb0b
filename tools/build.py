#!/usr/bin/env python3
"""Compiles the programs that are named without proving them, side by side, for a first answer: out/NAME of each.

The kit compiles a program without proofs to try it (`rt try`): it runs the program in a folder of its own for a few
inputs, and removes it. Here a link to the program is kept as soon as it is there, and the try is ended when the first
input was answered. Such a build makes at run time the checks that a proof makes beforehand, and ends where one fails.
What the kit said is in out/NAME.log. A second call for the same program waits for the first one.
"""
import contextlib
import fcntl
import os
import shutil
import signal
import subprocess
import sys
import tempfile
import threading
import time
from concurrent.futures import ThreadPoolExecutor
from pathlib import Path

from repository import CRATES, OUT, below, build_of, crates, read_by, unproved

# what one build takes of the memory, at most
BYTES = 3 << 30
# inputs enough that the program is there for some seconds
INPUTS = 100
# who asked for the build: it is given up when that process has ended
ASKED = os.getppid()
# set when this process is told to end
STOPPED = threading.Event()


@contextlib.contextmanager
def in_turn(name):
    with open(OUT / f"{name}.lock", "w") as lock:
        fcntl.flock(lock, fcntl.LOCK_EX)
        yield


def keep(room, to):
    """Links to the program, if it is there by now, under a name of its own."""
    # a folder may go while it is searched; then the next call searches again
    with contextlib.suppress(OSError):
        for path in room.rglob("program*"):
            with contextlib.suppress(OSError):
                if path.is_file() and os.access(path, os.X_OK) and not (to.exists() and path.samefile(to)):
                    to.unlink(missing_ok=True)
                    os.link(path, to)


def end(process):
    """Ends the try, which removes its folders. A second signal would cut that off."""
    if process.poll() is None:
        process.terminate()
    process.wait()


def is_wanted():
    """Whether somebody still waits for the program."""
    return os.getppid() == ASKED and not STOPPED.is_set()


def has_answered(made, log):
    """Whether the program is there, and the kit said what came of the first input."""
    return made.exists() and "case=" in Path(log.name).read_text()


def is_made(name, room, log):
    """Compiles the program in the room; whether it is there as `made`, and answered an input."""
    inputs, tries, made = room / "inputs", room / "tries", room / "made"
    for folder in (inputs, tries):
        folder.mkdir()
    for number in range(INPUTS):
        (inputs / str(number)).touch()
    process = subprocess.Popen(
        ["rt", "try", "--steps", "1", "--cases", str(inputs)],
        cwd=CRATES / name, env={**os.environ, "TMPDIR": str(tries)},
        stdin=subprocess.DEVNULL, stdout=subprocess.DEVNULL, stderr=log, start_new_session=True,
    )
    try:
        while process.poll() is None and is_wanted() and not has_answered(made, log):
            keep(tries, made)
            time.sleep(0.02)
    finally:
        end(process)
    return has_answered(made, log)


def build(name):
    """Compiles the program, unless it is built by now; whether it is there."""
    with in_turn(name):
        if build_of(name):
            return True
        print(f"bspl: compiling {name} without proofs, which takes a minute or two", file=sys.stderr, flush=True)
        begun = time.time()
        room = Path(tempfile.mkdtemp(prefix="build-", dir=OUT))
        try:
            with open(OUT / f"{name}.log", "w") as log:
                if not is_made(name, room, log):
                    return False
            os.utime(room / "made", (begun, begun))
            os.replace(room / "made", unproved(name))
            return True
        finally:
            shutil.rmtree(room, ignore_errors=True)


def size(name):
    """How many bytes the sources of the program and of all below it have."""
    found = below(name, crates(), set())
    return sum(path.stat().st_size for it in found for path in read_by(it, ("src",)) if path.is_file())


def side_by_side():
    """How many builds there is room for at once."""
    memory = os.sysconf("SC_PHYS_PAGES") * os.sysconf("SC_PAGE_SIZE")
    return max(1, min(os.cpu_count(), memory // BYTES))


def build_all(names):
    """Compiles the programs side by side, the largest first; whether all are there."""
    OUT.mkdir(exist_ok=True)
    if not shutil.which("rt"):
        print("bspl: the Rattle kit compiles (README.md says which), and `rt` is not on PATH", file=sys.stderr)
        return False
    names = sorted(names, key=size, reverse=True)
    with ThreadPoolExecutor(side_by_side()) as pool:
        made = dict(zip(names, pool.map(build, names)))
    for name in [name for name, is_there in made.items() if not is_there]:
        print((OUT / f"{name}.log").read_text(), file=sys.stderr)
        print(f"bspl: {name} could not be compiled", file=sys.stderr)
    return all(made.values())


def stop(number, _):
    """Has all tries end, and then this process, once they have."""
    if not STOPPED.is_set():
        STOPPED.set()
        sys.exit(128 + number)


def stop_on_signals():
    for number in (signal.SIGTERM, signal.SIGINT, signal.SIGHUP):
        signal.signal(number, stop)


if __name__ == "__main__":
    stop_on_signals()
    sys.exit(0 if build_all(sys.argv[1:]) else 70)
