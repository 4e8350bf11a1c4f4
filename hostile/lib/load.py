"""Many blocks, workers and windows: the dump keeps its bytes. And little memory: a run answers it, or refuses."""
import os
import random
import subprocess
import time
from collections import Counter

import play
from circuits import all_circuits
from judge import judged
from memory import MEMORY, NO_THREAD, counted, programs

SECONDS = 10
# Thousands of bytes of address space.
SIZES = (4_000, 6_000, 8_000, 12_000, 16_000, 24_000, 40_000, 70_000, 120_000, 300_000, 1_000_000)


def up_to(rng, most):
    """A number from 1 to `most`, as often small as large."""
    return min(most, int(most ** rng.random() + rng.random()))


def texts_of(players, circuit):
    """The files of a circuit and its dump."""
    texts = circuit.bench(), circuit.settings(), circuit.stimulus()
    dump = judged(*texts, circuit.until)
    bench, settings, stimulus = (players.file(text) for text in texts)
    return ("--until", str(circuit.until), "--settings", settings, bench, stimulus), dump


def jobs(rng, program, all_texts, until):
    """Runs of any circuit at any setting, one in eight without blocks, up to a moment."""
    while time.monotonic() < until:
        which = rng.randrange(len(all_texts))
        blocks, workers, window = up_to(rng, 1024), up_to(rng, 64), up_to(rng, 1_000_000)
        options = ("--workers", str(workers), "--window", str(window))
        if rng.randrange(8):
            options = ("--blocks", str(blocks), *options)
        words = (program, "run", *options, *all_texts[which][0])
        yield play.Job((which, options), words, watched=False)


def play_settings(players, score, program, seconds, seed):
    circuits = all_circuits(seed)
    all_texts = [texts_of(players, circuit) for circuit in circuits]
    runs, faults = Counter(), []
    for (which, options), answer in players.all(jobs(random.Random(seed), program, all_texts, time.monotonic() + seconds), 1):
        runs[circuits[which].name] += 1
        if (answer.status, answer.out, answer.err) != all_texts[which][1]:
            faults.append(f"{circuits[which].name} {' '.join(options)}: {answer.short()}")
    score.tell("load", f"{os.path.basename(program)}, seed {seed}", faults, f"{sum(runs.values())} runs: {counted(runs)}", sum(runs.values()))


def starts(program, size):
    """Whether the program gets as far as its first word in so little room."""
    limited = ("/bin/sh", "-c", f'ulimit -v {size}; exec "$0" --help', program)
    return subprocess.run(limited, capture_output=True).returncode == 0


def play_sizes(players, score, program):
    """A run in so little room: `memory`, `run: no thread`, or the dump."""
    circuit = all_circuits(1)[7]
    words, dump = texts_of(players, circuit)
    kinds, faults = Counter(), []
    for size in SIZES:
        if not starts(program, size):
            kinds["too small to start"] += 1
            continue
        for options in (("--blocks", "1"), ("--blocks", "20", "--workers", "4"), ("--blocks", "50", "--workers", "64")):
            limited = ("/bin/sh", "-c", f'ulimit -v {size}; exec "$0" "$@"', program, "run", *options, *words)
            answer = players.one(play.Job(0, limited, watched=False))
            told = (answer.status, answer.out, answer.err)
            kind = {MEMORY: "memory", NO_THREAD: "no thread", dump: "the dump"}.get(told, "another")
            kinds[kind] += 1
            if kind == "another":
                faults.append(f"{size} kB, {' '.join(options)}: {answer.short()}")
    score.tell("load", f"{os.path.basename(program)}, little room", faults, counted(kinds), sum(kinds.values()))


def play_all(players, score, is_long, seconds=SECONDS, seed=1):
    found = programs()
    if not found:
        score.tell("load", "warp_sim", ["no executable in crates/warp_sim/out: run rt ci first"], "nothing to play")
    for program in found if is_long else found[:1]:
        play_settings(players, score, program, seconds, seed)
        play_sizes(players, score, program)
