"""Files that are no journal of the role, and files that cannot be written."""
import os
import subprocess

from .role import ROLE, TEXT, WIRE, Ended, Role, head, kept, rfq

PING = b"Ping {\n  roles A, B\n  parameters out ID key\n  A -> B: ping[out ID]\n}\n"


def ends(command, given, **options):
    """The status and the output of a role that is given this."""
    ended = subprocess.run(command, input=given, stdout=subprocess.PIPE, stderr=subprocess.DEVNULL, timeout=60, **options)
    return ended.returncode, ended.stdout


def made(folder, numbers, count=5):
    """A journal with some lines."""
    journal = folder / "made"
    journal.unlink(missing_ok=True)
    role = Role("S", journal)
    list(role.ask(*(rfq(next(numbers)) for _ in range(count))))
    role.end()
    return journal


def refused(journal, code, name="Purchase", role="S", text=TEXT, **options):
    """What is wrong if the role is not refused with the code, or if the file is not as it was."""
    was = journal.read_bytes() if journal.is_file() else None
    found = ends([ROLE, name, role, "--journal", str(journal)], text + b"\n" + WIRE, **options)
    now = journal.read_bytes() if journal.is_file() else None
    if found != (4, b"refused %s\n" % code.encode()):
        yield f"{journal.name} as the journal of {name} {role}: {found}, and not {code}"
    if now != was:
        yield f"{journal.name} as the journal of {name} {role}: the file was changed"


def others(folder, numbers):
    """Files of another protocol or role, a file in use, a folder, a link to nothing, lines that were changed by hand."""
    journal = made(folder, numbers)
    yield from refused(journal, "J2", role="B")
    yield from refused(journal, "J2", name="Ping", role="A", text=PING)
    holder = Role("S", journal)
    list(holder.ask(rfq(next(numbers))))
    yield from refused(journal, "J3")
    holder.end()
    (folder / "folder").mkdir()
    yield from refused(folder / "folder", "J4")
    link = folder / "link"
    link.symlink_to(folder / "nowhere")
    yield from refused(link, "J4")
    lines = kept(journal)
    image = journal.read_bytes()
    begins = head("S").count(b"\n")
    changed = folder / "changed"
    changed.write_bytes(image.replace(lines[2], lines[1] + bytes(len(lines[2]) - len(lines[1]))))
    if len(lines[2]) == len(lines[1]):
        yield from refused(changed, f"J1 {begins + 3}")
    text = folder / "text"
    text.write_bytes(b"a letter\n")
    yield from refused(text, "J2")


def behind_zeros(folder, numbers):
    """Bytes behind the zeros do not count, and are gone after a start."""
    journal = made(folder, numbers)
    lines, image = kept(journal), journal.read_bytes()
    journal.write_bytes(image.rstrip(b"\0") + bytes(100) + rfq(next(numbers)))
    role = Role("S", journal)
    more = [rfq(next(numbers)) for _ in range(40)]
    list(role.ask(*more))
    role.end()
    if kept(journal) != lines + more:
        yield "bytes behind the zeros count as lines"


def unwritable(folder, numbers):
    """A file that its process may not write. As root the process is given to nobody."""
    journal = made(folder, numbers)
    journal.chmod(0o444)
    if os.getuid() == 0:
        yield from refused(journal, "J4", user="nobody")
    else:
        yield from refused(journal, "J4")
    journal.chmod(0o600)


def full(folder, numbers):
    """A file that may not grow: the line is not answered, the status is 8, and the next start has what was answered."""
    journal = made(folder, numbers)
    lines = kept(journal)
    most = len(head("S")) + len(b"".join(lines)) + 10
    limited = ["sh", "-c", 'trap "" XFSZ; exec prlimit "$0" "$@"', f"--fsize={most}"]
    given = TEXT + b"\n" + WIRE + rfq(next(numbers))
    found = ends([*limited, ROLE, "Purchase", "S", "--journal", str(journal)], given)
    if found != (8, b""):
        yield f"a file that may not grow: {found}, and not the status 8"
    role = Role("S", journal)
    try:
        list(role.ask(rfq(next(numbers))))
    except Ended:
        yield "after a file that might not grow the role does not start"
    role.end()
    if kept(journal)[:len(lines)] != lines:
        yield "a file that may not grow loses answered lines"


def each(folder, numbers):
    yield from others(folder, numbers)
    yield from behind_zeros(folder, numbers)
    yield from unwritable(folder, numbers)
    yield from full(folder, numbers)
    print("files of another protocol or role, in use, of another kind, changed, unwritable and full", flush=True)
