"""What `bspl_more ask` answers, held against the searches."""
import subprocess

from . import by_formula, question, runs

SECONDS = 300


def called(program, given, *args):
    """The status and the output."""
    args = [arg.encode("latin-1") for arg in args]
    ran = subprocess.run([program, "ask", *args], input=given, capture_output=True, timeout=SECONDS)
    return ran.returncode, ran.stdout.decode("latin-1")


def wrong_run(protocol, tree, lines):
    """What is wrong with the run that is printed for a question, or nothing."""
    run = runs.read(protocol, lines)
    if run is None:
        return f"no text of a run: {lines}"
    key = runs.ones(protocol)
    if any(event.key(protocol) != key for event in run):
        return f"another key: {lines}"
    if not runs.is_legal(protocol, run):
        return f"no legal run: {lines}"
    first = runs.first_yes(protocol, tree, run, key)
    return None if first == len(run) else f"the answer is yes first after {first} of {len(run)} events: {lines}"


def checked(program, text, protocol, lines):
    """What `ask NAME --check` answers to the log of these lines."""
    given = "\n".join([text, "%% log", *lines, ""])
    return called(program, given.encode("latin-1"), protocol.name, "--check")


def wrong_log(program, text, protocol, spelling, lines):
    """What is wrong with the log that is printed for an impossible question, or nothing."""
    if not lines or lines[0] not in (f"log 1 ask {spelling}", f"log 2 ask {spelling}") or lines[-1] != "end":
        return f"no log on the question: {lines[:1]}"
    if checked(program, text, protocol, lines) != (0, f"accepted impossible {spelling}\n"):
        return "the log is not accepted"
    if checked(program, text, protocol, [lines[0].replace(" ask ", " ask  "), *lines[1:]]) != (4, "refused L1 1\n"):
        return "a title that is no spelling is read"
    return None


def wrong_made_log(program, text, protocol, asked):
    """What is wrong with the answer to a log that was made here for an impossible question, if one step refutes it."""
    tree, spelling = question.read(asked)
    steps = by_formula.refutation(by_formula.Formula(protocol).clauses(tree))
    if steps is None:
        return None
    lines = [f"log 1 ask {spelling}", *steps, "end"]
    found = checked(program, text, protocol, lines)
    return None if found == (0, f"accepted impossible {spelling}\n") else f"{found} for {lines}"


def wrong_refusal(program, text, name, asked, refusal):
    """What is wrong with the answer to a question that has to be refused so, or nothing."""
    found = called(program, text.encode("latin-1"), name, asked)
    return None if found == (4, f"refused {refusal}\n") else f"refused {refusal} is wanted: {found}"


def wrong_answer(program, text, protocol, asked, events):
    """What is wrong with the answer to the question, of which the search found these events, or no events at all."""
    tree, spelling = question.read(asked)
    status, output = called(program, text.encode("latin-1"), protocol.name, asked)
    head, said, *lines = [*output.splitlines(), "", ""]
    lines = lines[:-2]
    wanted = (1, f"impossible {spelling}") if events is None else (0, f"possible {spelling}")
    if (status, head, said) != (wanted[0], f"protocol {protocol.name}", wanted[1]):
        return f"{wanted[1]} is wanted: {status} {head} {said}"
    if events is None:
        return wrong_log(program, text, protocol, spelling, lines)
    return wrong_run(protocol, tree, lines)


def wrong_brief_answer(program, text, protocol, asked, events):
    """What is wrong with the short answer within one conflict, which may be undecided, or nothing."""
    _, spelling = question.read(asked)
    given = text.encode("latin-1")
    status, output = called(program, given, protocol.name, asked, "--brief", "--conflicts", "1")
    start = f"protocol {protocol.name}\n"
    allowed = [(2, f"{start}undecided {steps} {spelling}\n") for steps in (0, 1)]
    if events is None:
        allowed.append((1, f"{start}impossible {spelling}\n"))
    is_run = events is not None and status == 0 and output.startswith(f"{start}possible {spelling}\nrun 1\n")
    return None if is_run or (status, output) in allowed else f"within one conflict: {status} {output}"


def wrong_rules(program, text, protocol, rules, verdicts):
    """What is wrong with the answer on all rules, which are kept or broken as these say, or nothing."""
    status, output = called(program, text.encode("latin-1"), protocol.name, "--all")
    wanted = 0 if all(verdicts) else 1
    if status != wanted:
        return f"status {wanted} is wanted: {status} {output}"
    head, *blocks = blocks_of(output)
    if [head] != [[f"protocol {protocol.name}"]] or len(blocks) != len(rules):
        return f"{len(rules)} rules are wanted: {output}"
    for (sense, tree, spelling), is_kept, (line, *evidence) in zip(rules, verdicts, blocks):
        if line != f"{'kept' if is_kept else 'broken'} {sense} {spelling}":
            return f"another answer: {line}"
        is_possible = is_kept == (sense == "some")
        wrong = wrong_run(protocol, tree, evidence) if is_possible else (
            wrong_log(program, text, protocol, spelling, evidence))
        if wrong:
            return f"{line}: {wrong}"
    return None


def blocks_of(output):
    """The lines of the output, parted before each answer."""
    blocks = []
    for line in output.splitlines():
        if not blocks or line.startswith(("kept ", "broken ", "undecided ")):
            blocks.append([])
        blocks[-1].append(line)
    return blocks
