"""Trials of streams that fail, and of arguments that are none: the statuses of `main`, which no proved call shows."""
import subprocess

PING = b"Ping { roles A, B parameters out ID key A -> B: ping[out ID] }"
USAGE = b"usage: bspl COMMAND NAME [--brief] [--conflicts N] [--threads N]\n"
CNF = b"p cnf 1 2\n1 0 -1 0"

# each program with arguments that it takes, and an input on which it writes something
CALLS = {
    "bspl": (["verify", "Ping"], PING),
    "bspl_more": (["page", "Ping"], PING),
    "bspl_role": (["Ping", "A"], PING + b'\n%% wire\n{"emit":{"key":["1"],"message":"ping","outs":[]}}\n'),
    "dimacs_sat": ([], CNF),
    "dimacs_check": ([], CNF + b"\n%% log\nlog 1 safety\nend\n"),
}


def wrong_read(name, path):
    """A folder as standard input gives the status 5 and no output."""
    ran = subprocess.run(["sh", "-c", 'exec "$@" < /', "sh", path, *CALLS[name][0]], capture_output=True)
    return None if (ran.returncode, ran.stdout) == (5, b"") else f"{name}: a folder as standard input"


def wrong_write(name, path):
    """A full device as standard output gives the status 6."""
    args, given = CALLS[name]
    ran = subprocess.run(["sh", "-c", 'exec "$@" > /dev/full', "sh", path, *args], input=given)
    return None if ran.returncode == 6 else f"{name}: a full device as standard output"


def wrong_usage(path, args):
    """Invalid arguments, as no text, give the usage line and the status 3."""
    ran = subprocess.run([path.encode(), *args], input=PING, capture_output=True)
    return None if (ran.returncode, ran.stdout) == (3, USAGE) else f"bspl: the arguments {args}"


def trials(paths):
    for name, path in paths.items():
        if name in CALLS:
            yield lambda name=name, path=path: wrong_read(name, path)
            yield lambda name=name, path=path: wrong_write(name, path)
    for args in ([], [b"verify", b"Ping\xff"]):
        yield lambda args=args: wrong_usage(paths["bspl"], args)
