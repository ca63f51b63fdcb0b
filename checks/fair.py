"""A protocol that audits and threads are tried with."""
from pathlib import Path

TOP = Path(__file__).resolve().parent.parent


def fair():
    """One role asks seven others, and each answers."""
    return (TOP / "crates/worked_rows/data/Fair.bspl").read_text()
