"""What benches and checks share: where the programs are, and what one run of a command prints and takes."""
import os
import shutil
import subprocess
import tempfile
import threading
import time
from pathlib import Path
from typing import NamedTuple, Optional

TOP = Path(__file__).resolve().parent.parent
RUNS = int(os.environ.get("RUNS", "3"))


def program(name):
    """The built program of the name, or the one that the variable of this name in capitals has."""
    return os.environ.get(name.upper(), str(TOP / "crates" / name / "out" / name))


def missing(*programs):
    """Those of the programs that are not there."""
    return [path for path in programs if not Path(path).exists()]


def lacks(programs, tools=()):
    """Whether one of the programs or of the system's tools is not there; those are printed."""
    lacking = missing(*programs) + [tool for tool in tools if not shutil.which(tool)]
    if lacking:
        print("missing: " + ", ".join(lacking))
    return bool(lacking)


def given_protocols(folders):
    """The name and the text of each .bspl file of these folders, or of examples/ if there are none."""
    chosen = [Path(folder) for folder in folders] or [TOP / "examples"]
    return [(path.stem, path.read_bytes()) for path in sorted(p for folder in chosen for p in folder.glob("*.bspl"))]


def status_after(faults):
    """Prints the faults; the exit status."""
    for fault in faults:
        print(fault)
    return 1 if faults else 0


class Run(NamedTuple):
    """The output, the exit status (none if the run was stopped), seconds of the clock and of the processor, megabytes."""

    out: bytes
    status: Optional[int]
    seconds: float
    processor: float
    megabytes: float


def once(command, given=b"", limit=None, kept=-1):
    """One run of the command over these bytes, or over the file of that path; it is stopped after `limit` seconds. Of
    the output the first `kept` bytes are kept, or all."""
    with tempfile.TemporaryFile() as source, tempfile.TemporaryFile() as sink:
        if isinstance(given, bytes):
            source.write(given)
            source.seek(0)
        with source if isinstance(given, bytes) else open(given, "rb") as stdin:
            begun = time.monotonic()
            child = subprocess.Popen(command, stdin=stdin, stdout=sink)
            timer = threading.Timer(limit, child.kill) if limit else None
            if timer:
                timer.start()
            _, status, used = os.wait4(child.pid, 0)
            seconds = time.monotonic() - begun
            if timer:
                timer.cancel()
        child.returncode = os.waitstatus_to_exitcode(status)
        sink.seek(0)
        ended = None if os.WIFSIGNALED(status) else child.returncode
        return Run(sink.read(kept), ended, seconds, used.ru_utime + used.ru_stime, used.ru_maxrss / 1024)


def least(command, given=b"", by="processor", runs=RUNS, limit=None, kept=-1):
    """Of so many runs the one that takes least, by the `processor` or by the clock (`seconds`)."""
    return min((once(command, given, limit, kept) for _ in range(runs)), key=lambda run: getattr(run, by))
