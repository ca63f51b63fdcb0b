"""Builds a program in Rattle that is no crate of the repository, in a copy of it."""
import os
import shutil
import subprocess
import sys
import tempfile
from pathlib import Path

from measure import TOP

BUILT = Path(os.environ.get("BUILT", Path(tempfile.gettempdir()) / "bspl-bench"))


def copy_crates():
    """A copy of what is needed of the repository. What was proved in it before stays."""
    (BUILT / "crates").mkdir(parents=True, exist_ok=True)
    ignored = shutil.ignore_patterns("out", "must-fail")
    for crate in (TOP / "crates").iterdir():
        shutil.copytree(crate, BUILT / "crates" / crate.name, ignore=ignored, dirs_exist_ok=True)
    shutil.copy(TOP / "HANDLES", BUILT)
    (BUILT / "crates.txt").write_text((TOP / "crates.txt").read_text())


def add_crate(name, source, uses):
    """The folder of the program, which stands on these crates."""
    folder = BUILT / "crates" / name
    (folder / "src").mkdir(parents=True, exist_ok=True)
    (folder / "src/main.rt").write_text(source.read_text())
    with open(BUILT / "crates.txt", "a") as crates:
        crates.write(f"{name}: {' '.join(uses)}\n")
    return folder


def run(folder, *words):
    done = subprocess.run(["rt", *words], cwd=folder, capture_output=True, text=True)
    return done.returncode, done.stdout, done.stderr


def built(name, source, uses):
    """The program, proved with the crates below it and built."""
    copy_crates()
    folder = add_crate(name, source, uses)
    print(f"proving and building {name} in {BUILT}, which takes minutes the first time", file=sys.stderr)
    status, out, err = run(folder, "run")
    program = folder / "out" / name
    if not program.exists():
        sys.exit(out + err)
    return program
