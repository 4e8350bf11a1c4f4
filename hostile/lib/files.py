"""Each open, seek, read and write of the program refused, short or interrupted, one after another, and all from one on."""
import os
import re
from collections import Counter

from memory import counted, has_replay, programs
from play import Job, sweep
from rows import rows

# What is refused, how, and whether each later call is too.
WAYS = [
    *((kind, "fail", on) for kind in ("open", "seek", "read", "write", "error") for on in (False, True)),
    *((kind, "short", on) for kind in ("read", "write", "error") for on in (False, True)),
    *((kind, "again", False) for kind in ("read", "write", "error")),
]

CUT = "its own answer, its line cut"


def lawful(row, names, kind, manner, answer):
    """The name of a lawful answer; None for another."""
    told = (answer.status, answer.out, answer.err)
    if told == (row.status, row.out, row.err):
        return "its own answer"
    if manner != "fail":
        return None
    if kind in ("open", "read", "seek"):
        unreadable = re.fullmatch(rb"cannot read (.+)\n", answer.err)
        if answer.status == 4 and not answer.out and unreadable and unreadable[1].decode() in names:
            return "cannot read"
    if kind == "write" and row.out and answer.status == 4 and answer.err == b"cannot write\n":
        if row.out.startswith(answer.out) and answer.out != row.out:
            return "cannot write"
    if kind in ("open", "write") and row.kept and answer.out == row.out and (answer.status, answer.err) == (4, b"cannot write %s\n" % row.kept.encode()):
        return "cannot write a file"
    if kind == "error" and row.err and answer.status == row.status and answer.out == row.out and row.err.startswith(answer.err):
        return CUT
    return None


def play_way(players, row, job, whole, way):
    kind, manner, on = way
    _, answers = sweep(players, job, kind, manner, on, whole=whole)
    kinds, faults = Counter(), []
    names = {*job.words, "-"}
    for at, answer in sorted(answers.items()):
        name = lawful(row, names, kind, manner, answer)
        if name is None or not answer.refused and name != "its own answer":
            faults.append(f"{kind} {at} {manner}: {answer.short()}")
        if kind in ("open", "read", "write") and manner == "fail" and answer.refused and name == "its own answer" and not is_harmless(row, kind):
            faults.append(f"{kind} {at} refused, and nothing is said")
        if answer.refused:
            kinds[name or "another"] += 1
    return kinds, faults


def is_harmless(row, kind):
    """Whether nothing that the row reads or writes needs such a call, or its own answer is that it was refused."""
    return row.status == 4 or kind == "open" and not row.texts or kind == "write" and not row.out


def play_all(players, score, is_long):
    found = programs()
    if not found:
        score.tell("files", "warp_sim", ["no executable in crates/warp_sim/out: run rt ci first"], "nothing to play")
    for program in found:
        for row in rows(has_replay(program)):
            kinds, faults = Counter(), []
            job = Job(0, row.words(program, players), row.stdin)
            whole = players.one(job)
            for way in WAYS:
                some, wrong = play_way(players, row, job, whole, way)
                kinds, faults = kinds + some, faults + wrong
            if not kinds["cannot read"] or row.out and not kinds["cannot write"] or row.err and not kinds[CUT]:
                faults.append("a read, or a write, was never refused")
            calls = sum(kinds.values())
            score.tell("files", f"{os.path.basename(program)}, {row.name}", faults, f"{calls} calls refused: {counted(kinds)}", calls)
