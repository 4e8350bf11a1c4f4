"""Each allocation refused, one after another, and all from one on: of the program, and of the crates' tests."""
import os
import signal
import subprocess
from collections import Counter

from play import TOP, Job, Refusal, sweep
from rows import TESTS, Test, rows

MEMORY = (3, b"", b"memory\n")
NO_THREAD = (3, b"", b"run: no thread\n")

# So many allocations of a test that isn't named are refused at most.
MOST = 2000

# The modules of tests that draw their calls, too many to be swept.
DRAWN = {("warp_core_tests", "drawn_tests"), ("warp_core_tests", "forged_tests")}


def executable(crate, suffix=""):
    return os.path.join(TOP, "crates", crate, "out", crate + suffix)


def programs():
    """The program as each compiler built it."""
    found = [executable("warp_sim", suffix) for suffix in ("", ".by-rattle")]
    return [path for path in found if os.access(path, os.X_OK)]


def has_replay(program):
    return b"replay" in subprocess.run([program, "--help"], capture_output=True).stdout


def counted(kinds):
    return ", ".join(f"{count} {kind}" for kind, count in sorted(kinds.items()))


def judge_row(row, whole, answers):
    """How often each answer came, and what is wrong with them."""
    own = (row.status, row.out, row.err)
    lawful = {MEMORY: "memory", own: "its own answer"}
    if whole.counts["thread"]:
        lawful[NO_THREAD] = "no thread"
    kinds, faults = Counter(), []
    if (whole.status, whole.out, whole.err) != own:
        faults.append(f"with nothing refused: {whole.short()}")
    for at, answer in sorted(answers.items()):
        told = (answer.status, answer.out, answer.err)
        if told not in lawful or not answer.refused and told != own:
            faults.append(f"allocation {at} refused: {answer.short()}")
        if answer.refused:
            kinds[lawful.get(told, "another")] += 1
    if not kinds:
        faults.append("nothing was ever refused")
    return kinds, faults


def play_rows(players, score, program):
    for row in rows(has_replay(program)):
        job = Job(0, row.words(program, players), row.stdin)
        whole = players.one(job)
        for on in (False, True):
            _, answers = sweep(players, job, "alloc", on=on, whole=whole)
            kinds, faults = judge_row(row, whole, answers)
            how = "all from one on refused" if on else "one refused"
            what = f"{whole.counts['alloc']} allocations, {how}: {counted(kinds)}"
            score.tell("memory", f"{os.path.basename(program)}, {row.name}", faults, what, len(answers))


def play_threads(players, score, program):
    """A thread that can't start ends a run in `run: no thread`, where it is a worker's. Each worker but the first has a thread for all
    rounds; the circuits are so small that no other thread is worth while."""
    for row in rows(False):
        if row.workers > 1:
            job = Job(0, row.words(program, players), row.stdin)
            whole, answers = sweep(players, job, "thread")
            kinds, faults = judge_row(row, whole, answers)
            if whole.counts["thread"] > row.workers - 1:
                faults.append(f"{whole.counts['thread']} threads are started")
            if "no thread" not in kinds:
                faults.append("no answer is no thread")
            if not set(kinds) <= {"no thread", "its own answer"}:
                faults.append("another answer than no thread, and its own")
            what = f"{whole.counts['thread']} threads, one refused: {counted(kinds)}"
            score.tell("memory", f"{os.path.basename(program)}, {row.name}", faults, what, len(answers))


def ending(test, answer):
    """How a test ended: it passed, or the word that it ended with; None for another end."""
    if answer.status == 0 and b"test result: ok" in answer.out:
        return "passed"
    told = answer.err.decode(errors="replace")
    said = [line for line in told.splitlines() if line.startswith(("error: ", "  left: "))]
    for line in said:
        for word in test.ends:
            if word in line:
                return word
    if "assertion" in test.ends and answer.status == -signal.SIGABRT and b"test stopped at " in answer.out:
        return "assertion"
    return None


def play_test(players, score, test, most=None):
    job = Job(0, (executable(test.crate, "_tests"), test.name))
    whole, answers = sweep(players, job, "alloc", most=most)
    kinds, faults = Counter(), []
    if ending(test, whole) != "passed":
        faults.append(f"with nothing refused: {whole.short()}")
    for at, answer in sorted(answers.items()):
        end = ending(test, answer)
        if end is None or not answer.refused and end != "passed":
            faults.append(f"allocation {at} refused: {answer.short()}")
        if answer.refused:
            kinds[end or "another"] += 1
    if not kinds["Memory"] + kinds["AllocError"] and test in TESTS:
        faults.append("no test ended for want of memory")
    what = f"{whole.counts['alloc']} allocations, one refused: {counted(kinds)}"
    score.tell("memory", f"{test.crate} {test.name}", faults, what, len(answers))


def listed(crate):
    """The names of a crate's tests."""
    path = executable(crate, "_tests")
    if not os.access(path, os.X_OK):
        return []
    told = subprocess.run([path, "--list"], capture_output=True, text=True).stdout
    return [line.removesuffix(": test") for line in told.splitlines() if line.endswith(": test")]


def crates():
    """The repository's crates."""
    with open(os.path.join(TOP, "crates.txt")) as file:
        return [line.split(":")[0].split()[0] for line in file if line.strip() and not line.startswith("#")]


def swept(tests):
    """The tests that are named in rows.py, and all those of a module `memory_tests`."""
    named = {(test.crate, test.name) for test in TESTS}
    more = [Test(crate, name) for crate, names in tests.items() for name in names if name.startswith("memory_tests::")]
    return TESTS + [test for test in more if (test.crate, test.name) not in named]


def others(tests):
    """The rest, but those that draw their calls: where an assertion of theirs fails, it may not tell the answer that it met."""
    known = {(test.crate, test.name) for test in swept(tests)}
    ends = ("AllocError", "AllocFailed", "Memory", "NoThread", "WriteFault", "assertion")
    named = [(crate, name) for crate, names in tests.items() for name in names if (crate, name.split("::")[0]) not in DRAWN]
    return [Test(crate, name, ends) for crate, name in named if (crate, name) not in known]


def play_all(players, score, is_long):
    found = programs()
    if not found:
        score.tell("memory", "warp_sim", ["no executable in crates/warp_sim/out: run rt ci first"], "nothing to play")
    for program in found:
        play_rows(players, score, program)
        play_threads(players, score, program)
    tests = {crate: listed(crate) for crate in crates()}
    for test in swept(tests):
        if test.name in tests.get(test.crate, ()):
            play_test(players, score, test)
        else:
            score.tell("memory", f"{test.crate} {test.name}", ["no such test in crates/*/out: run rt ci first"], "nothing to play")
    for test in others(tests) if is_long else ():
        play_test(players, score, test, MOST)
