"""Answers of a script program, command by command, and what counts as the right one."""
import subprocess

from model import Refusal, check_delays, is_path, is_witness, read_plan

PATIENCE = 120


class Difference(Exception):
    """Where two programs part: the line of the script, what was wanted and what came."""

    def __init__(self, line, wanted, got):
        super().__init__(line)
        self.line, self.wanted, self.got = line, wanted, got


def run(program, script):
    """The lines that a program answers to a script."""
    try:
        done = subprocess.run(program, input=script.encode(), stdout=subprocess.PIPE, timeout=PATIENCE)
        out, end = done.stdout, done.returncode and f"(ended with status {done.returncode})"
    except subprocess.TimeoutExpired as late:
        out, end = late.stdout or b"", f"(no end within {PATIENCE} seconds)"
    return out.decode("latin-1").split("\n")[:-1] + ([end] if end else [])


def commands(script):
    """Line numbers and commands of a script."""
    lines = enumerate(script.split("\n"), 1)
    return [(at, line) for at, line in lines if line and not line.startswith("#")]


def split(script, lines):
    """For each command its line number, the command and its answer's lines; all lines must be used up."""
    out, at = [], 0
    for number, command in commands(script):
        start, name = at, command.split(" ")[0]
        if name in ("request", "abort"):
            while at < len(lines) and lines[at].startswith("deliver "):
                at += 1
        at += 1
        if name == "dump" and start < len(lines) and lines[start].startswith("state "):
            while at < len(lines) and lines[at].startswith("member "):
                at += 1
        out.append((number, command, lines[start:at]))
    if at < len(lines):
        out.append((number + 1, "(no command)", lines[at:]))
    return out


def routes_of(name, answer):
    """The positions of an answer `NAME COUNT E..`, or none if it is not one."""
    words = answer.split(" ")
    if words[0] != name or not all(word.isdigit() for word in words[1:]) or len(words) < 2:
        return None
    routes = [int(word) for word in words[2:]]
    return routes if int(words[1]) == len(routes) else None


def right(command, wanted, got):
    """Whether an answer is right; any valid witness or path is."""
    if wanted == got:
        return True
    name, *words = command.split(" ")
    if name not in ("witness", "path") or len(got) != 1 or len(wanted) != 1:
        return False
    routes = routes_of(name, got[0])
    if not routes or not routes_of(name, wanted[0]):
        return False
    plan = read_plan(bytes.fromhex(words[0]))
    if name == "witness":
        return is_witness(plan, routes)
    try:
        check_delays(plan)
    except Refusal:
        return False
    return is_path(plan, int(words[1]), int(words[2]), routes)


def compare(script, wanted, got, skipped=False):
    """The number of commands whose answers were compared."""
    count = 0
    rows, others = split(script, wanted), split(script, got)
    for (line, command, one), (_, _, other) in zip(rows, others):
        if skipped and "skipped" in (*one, *other):
            continue
        if not right(command, one, other):
            raise Difference(line, one, other)
        count += 1
    if len(rows) != len(others):
        raise Difference(max(rows, others, key=len)[-1][0], [], max(rows, others, key=len)[-1][2])
    return count
