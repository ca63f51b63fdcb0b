"""Crashes that leave some of the sectors that were written last, and zeros in place of the others."""
from .role import IDLE, SECTOR, Ended, Role, head, kept, rfq, text_of


def journals(folder, numbers, sectors):
    """The image of a journal before its last commit and after it, which writes to so many sectors."""
    journal = folder / "whole"
    journal.unlink(missing_ok=True)
    role = Role("S", journal)
    list(role.ask(*(rfq(next(numbers)) for _ in range(3))))
    before = text_of(journal.read_bytes())
    room = (sectors - 1) * SECTOR + 1 - len(before) % SECTOR
    batch = [rfq(next(numbers))]
    while sum(map(len, batch)) < room:
        batch.append(rfq(next(numbers)))
    list(role.ask(*batch))
    role.end()
    return before, text_of(journal.read_bytes())


def torn(before, after, subset):
    """The image in which only the sectors of the subset, from the first of the commit on, have what was written."""
    image = bytearray(before.ljust(len(after), b"\0"))
    first = len(before) // SECTOR
    for index in range((len(after) - 1) // SECTOR - first + 1):
        if subset >> index & 1:
            start = (first + index) * SECTOR
            image[start:start + SECTOR] = after[start:start + SECTOR]
    return bytes(image) + bytes(4 * SECTOR)


def started_on(image, folder):
    """The lines that a role keeps which starts on this file, or None if it does not start."""
    journal = folder / "torn"
    journal.write_bytes(image)
    role = Role("S", journal)
    try:
        list(role.ask(IDLE))
    except Ended:
        role.kill()
        return None
    role.end()
    return kept(journal)


def each_subset(folder, numbers, most):
    """Tries each subset of the sectors of a commit, for commits of up to so many. Yields what is wrong."""
    count = 0
    for sectors in range(1, most + 1):
        before, after = journals(folder, numbers, sectors)
        whole, least = after[len(head("S")):].splitlines(keepends=True), len(before)
        used = (len(after) - 1) // SECTOR - least // SECTOR + 1
        for subset in range(2 ** min(used, most)):
            found = started_on(torn(before, after, subset), folder)
            count += 1
            if found is None:
                yield f"subset {subset:b} of {used} sectors: the role does not start"
            elif found != whole[:len(found)] or len(b"".join(found)) < least - len(head("S")):
                yield f"subset {subset:b} of {used} sectors: other lines than the first ones are kept"
    print(f"{count} subsets of the sectors of commits of up to {most}", flush=True)
