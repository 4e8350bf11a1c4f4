"""Texts that are cut off, and texts with one byte changed: the program's answer against the judge's (judge.py).

The program is asked to explain what it refuses. What follows its line has to have its form, and is then left out.
"""
import os
import re
from collections import Counter

import play
from judge import judged, replay_fault
from memory import counted, has_replay, programs
from rows import DELAYS, FLOP, FLOP_STIMULUS, PAIR, PAIR_BLOCKS, PAIR_CUT, PAIR_STIMULUS, SCHEDULE, example

# The bytes that tell most, by the text that is changed.
TELLING = {
    "bench": b"(),=# \n$A0\xff\x00",
    "stimulus": b"$#brxz01 !\n\xff",
    "settings": b"=[]\"#\n.0-_\xff\x00",
    "schedule": b"# \n\r\t09ad-\xff\x00",
}
BENCH_CAUSES = "BadLine|BadName|UnknownGate|InputCount|DrivenTwice|Undriven|TooManyNets"
SETTINGS_CAUSES = "Toml|UnknownKey|UnknownNet|BadDelay|BadCut|BadClock|BadInit"
TOKEN_CAUSES = "BadToken|UnclosedCommand|BadVar|BadTimescale|StampFalls|StampTooLarge|UnknownCode"
LINE = re.compile(
    rf"(bench line \d+: ({BENCH_CAUSES})|settings: ({SETTINGS_CAUSES})|stimulus at \d+: ({TOKEN_CAUSES})"
    rf"|stimulus net \d+: (MissingInput|NotScalar)|schedule line \d+: (BadLine|NumberTooLarge)"
    rf"|event \d+: (NoSuchBlock|NoSuchMessage)|unfinished at \d+)\n")
EXPLAINED = re.compile(rb"([^\n]+\n)[^\n]+:[0-9]+:[0-9]+: [^\n]+\n  [0-9]+ \| [^\n]*\n +\| *\^+\n(  help: [^\n]+\n)?")
THROUGH_REPLAY = re.compile(r"(event|unfinished) ")


def named():
    """Texts with the lines that they have to be refused with."""
    bench, stimulus = example("s27.bench"), example("s27.vcd")
    dollar = stimulus.index(b"$dump")
    return [
        ("bench", bench[:bench.index(b"G17 = NOT(G11)") + len(b"G17 = NOT(G11)")], b"bench line 8: Undriven\n"),
        ("bench", bench[:bench.index(b"G13 = NOR(G2, G12)") + len(b"G13 = NOR(G2, G1")], b"bench line 20: BadLine\n"),
        ("stimulus", stimulus[:dollar + len(b"$dump")], b"stimulus at %d: UnclosedCommand\n" % dollar),
    ]


def variants(name, text):
    """Each first part of a text, and the text with each byte changed."""
    for length in range(len(text)):
        yield text[:length]
    for at in range(len(text)):
        for byte in TELLING[name]:
            if text[at] != byte:
                yield text[:at] + bytes([byte]) + text[at + 1:]


def cases(has_schedule):
    """The name of the text that is varied, the texts, and the horizon."""
    s27 = {"bench": example("s27.bench"), "settings": b"", "stimulus": example("s27.vcd")}
    flop = {"bench": FLOP, "settings": DELAYS, "stimulus": FLOP_STIMULUS}
    pair = {"bench": PAIR, "settings": PAIR_CUT, "stimulus": PAIR_STIMULUS, "schedule": SCHEDULE}
    yield "bench", s27, 20
    yield "stimulus", s27, 20
    yield "settings", flop, 12
    if has_schedule:
        yield "schedule", pair, 10


def answer_of(program, texts, until):
    """What the program answers; the texts lie in files of this process."""
    words, names = [program, "replay" if "schedule" in texts else "run", "--explain", "--until", str(until)], []
    for name, text in texts.items():
        path = os.path.join(play._room, f"{name}.{os.getpid()}")
        with open(path, "wb") as file:
            file.write(text)
        names += ["--settings", path] if name == "settings" else []
        words += ["--settings", path] if name == "settings" else []
    words += [os.path.join(play._room, f"{name}.{os.getpid()}") for name in ("bench", "stimulus", "schedule") if name in texts]
    return play.play(play.Job(0, tuple(words), watched=False))[1]


def fault_of(answer, wanted, has_schedule):
    """What is wrong with an answer; None for nothing."""
    if wanted is not None and (answer.status, answer.out, answer.err) != wanted:
        return f"{answer.short()}, and the judge says {wanted[0]}, {len(wanted[1])} bytes, {wanted[2]!r}"
    if answer.status == 0:
        return None if answer.out and not answer.err else f"a line and status 0: {answer.short()}"
    line = answer.err.decode(errors="replace")
    if answer.out or not LINE.fullmatch(line):
        return f"not one fault line: {answer.short()}"
    if answer.status != (3 if THROUGH_REPLAY.match(line) else 1) or answer.status == 3 and not has_schedule:
        return f"another status than the line's: {answer.short()}"
    return None


def tried(task):
    """How a text was answered, whether the judge knew it, and what is wrong."""
    program, name, texts, until = task
    answer, wanted = answer_of(program, texts, until), None
    explained = EXPLAINED.fullmatch(answer.err)
    if explained:
        answer.err = explained[1]
    elif answer.err:
        return answer.status, False, f"{name} {texts[name][-60:]!r}: not explained: {answer.short()}"
    if "schedule" not in texts:
        wanted = judged(texts["bench"], texts["settings"], texts["stimulus"], until)
    fault = fault_of(answer, wanted, "schedule" in texts)
    if "schedule" in texts:
        order = [texts[it] for it in ("bench", "settings", "stimulus", "schedule")]
        fault = fault or replay_fault(*order, until, PAIR_BLOCKS, (answer.status, answer.out, answer.err))
        fault = fault and f"{fault}: {answer.short()}"
    is_judged = wanted is not None or "schedule" in texts
    return answer.status, is_judged, fault and f"{name} {texts[name][-60:]!r}: {fault}"


# Examples whose dumps were worked out by hand: bench, settings, stimulus, horizon and dump.
WORKED = [
    ("inverter.bench", None, "inverter.vcd", 10, "inverter.dump.vcd"),
    ("nand_loop.bench", None, "nand_loop.vcd", 8, "nand_loop.dump.vcd"),
    ("nand_loop.bench", "nand_loop_slow.toml", "nand_loop.vcd", 12, "nand_loop_slow.dump.vcd"),
    ("s27.bench", None, "s27.vcd", 20, "s27.dump.vcd"),
    ("s27.bench", "s27_keys.toml", "s27.vcd", 30, "s27_keys.dump.vcd"),
    ("adder.bench", "adder.toml", "adder.vcd", 70, "adder.dump.vcd"),
]


def judge_judge(score):
    """The judge has the dumps that were worked out by hand."""
    for bench, settings, stimulus, until, dump in WORKED:
        texts = example(bench), example(settings) if settings else b"", example(stimulus)
        is_right = judged(*texts, until) == (0, example(dump), b"")
        score.tell("cuts", "the judge", [] if is_right else ["another dump"], dump)


def play_named(players, score, program):
    texts = {"bench": example("s27.bench"), "settings": b"", "stimulus": example("s27.vcd")}
    for name, text, line in named():
        files = texts | {name: text}
        words = (program, "run", "--until", "20", players.file(files["bench"]), players.file(files["stimulus"]))
        answer = players.one(play.Job(0, words))
        is_right = (answer.status, answer.out, answer.err) == (1, b"", line)
        score.tell("cuts", f"{name} cut after {text[-12:]!r}", [] if is_right else [answer.short()], line.decode().strip())


def play_all(players, score, is_long):
    judge_judge(score)
    found = programs()
    if not found:
        score.tell("cuts", "warp_sim", ["no executable in crates/warp_sim/out: run rt ci first"], "nothing to play")
    for program in found if is_long else found[:1]:
        play_named(players, score, program)
        for name, others, until in cases(has_replay(program)):
            tasks = ((program, name, others | {name: text}, until) for text in variants(name, others[name]))
            kinds, faults, judgements = Counter(), [], 0
            for status, is_judged, fault in players.pool.imap_unordered(tried, tasks, 16):
                kinds[f"with status {status}"] += 1
                judgements += is_judged
                faults += [fault] if fault else []
            texts = sum(kinds.values())
            what = f"{texts} texts, {judgements} of them judged: {counted(kinds)}"
            score.tell("cuts", f"{os.path.basename(program)}, {name}", faults, what, texts)
