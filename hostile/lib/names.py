"""Names that were picked to collide: that the readers hash by a seed of the text, told by instructions and not by time.

Two texts of the same names that differ in a comment have other seeds, so their names lie elsewhere in a table, and reading
them takes another number of instructions. Under a seed that isn't the text's the numbers are equal to the last one.
"""
import os
import random
import subprocess
from dataclasses import dataclass

import play
from memory import programs

# So many names are read; with one name nothing can lie elsewhere. The letters of a comment stand in so many orders: few names
# may take the same number of steps under several seeds.
NAMES = 20
ORDERS = tuple("".join(random.Random(seed).sample("abcdefgh", 8)) for seed in range(40))

# So many names, which a hasher with a fault gives one hash, take at most so many times the instructions of as many plain ones.
COLLIDING, SCATTERED = 48, 192
MOST = 1.15
SEED, MULTIPLIER = 0x243F6A8885A308D3, 0x9E3779B97F4A7C15
WORD = 2**64 - 1


@dataclass(frozen=True)
class Text:
    """A kind of text: its first and last comment and its names make a bench and a stimulus; and what is answered to it."""
    what: str
    bench: str
    stimulus: str
    line: str
    status: int = 1
    err: bytes = b""

    def words(self, program, players, names, first, last):
        lines = lambda form: "".join(form.format(name=name) for name in names)
        made = lambda text: text.format(lines=lines(self.line), first=first, end=last).encode("latin-1")
        files = [players.file(made(text)) for text in (self.bench, self.stimulus) if text]
        return (program, *(("run", "--until", "0", "--workers", "1") if self.stimulus else ("check",)), *files)


HEAD = "$comment {first} $end "
TAIL = "$comment {end} $end $enddefinitions $end "
LACKING = b"stimulus net 0: MissingInput\n"
TEXTS = [
    Text("nets of a bench", "# {first}\n{lines}# {end}\n", "", "INPUT({name})\n", 0),
    Text("vectors of a stimulus", "INPUT(A)\n", HEAD + "{lines}" + TAIL, "$var wire 2 ! {name} [1:0] $end ", err=LACKING),
    Text("codes of a stimulus", "INPUT(A)\n", HEAD + "{lines}" + TAIL, "$var wire 1 {name} B $end ", err=LACKING),
]


def some_names(count, length=8):
    """Names of the letters a to p, from a seed."""
    rng, found = random.Random(1), {}
    while len(found) < count:
        found["".join(rng.choices("abcdefghijklmnop", k=length))] = None
    return list(found)


def folded(a, b):
    product = a * b
    return product & WORD ^ product >> 64


def colliding(count):
    """Names of 32 letters that have one hash under the kit's own hasher, as bench/write_colliding.cpp makes them."""
    fixed, found, number = b"abcdefgh", [], 0
    last = int.from_bytes(fixed, "little")
    while len(found) < count:
        first = bytes(ord("a") + (number >> 4 * i & 15) for i in range(8))
        state = folded(int.from_bytes(first, "little") ^ SEED + 32, last ^ MULTIPLIER)
        makes_up = (state ^ 0x5A5A5A5A5A5A5A5A).to_bytes(8, "little")
        if all(33 <= byte <= 126 and byte not in b"(),=#{}$" for byte in makes_up):
            found.append((first + fixed + makes_up + fixed).decode())
        number += 1
    return found


def scattered(count, byte, length=10):
    """Names of as many bytes, half of which are this one, at other places in each."""
    places = random.Random(1)
    found = {}
    while len(found) < count:
        chosen = {*places.sample(range(length), length // 2)}
        found["".join(byte if place in chosen else "a" for place in range(length))] = None
    return list(found)


def picked():
    """What names are, their text, the names, and as many plain ones: names of one hash under the kit's own hasher, whose seed is
    fixed, and names that are one to a hasher that passes over what ends a name, or over a byte 0."""
    names = colliding(COLLIDING)
    yield "of one hash", TEXTS[0], names, [name[::-1] for name in names]
    plain = scattered(SCATTERED, "b")
    yield "of vectors with bytes 255", TEXTS[1], scattered(SCATTERED, "\xff"), plain
    yield "of vectors with bytes 0", TEXTS[1], scattered(SCATTERED, "\0"), plain


def counted(counter, words):
    """The instructions that a command takes once its texts are read, its status, and its error line."""
    tally = os.path.join(play._room, f"steps.{os.getpid()}")
    ends = sum(word.startswith(play._room) for word in words)
    environment = {"PATH": os.environ.get("PATH", "")}
    done = subprocess.run([counter, tally, str(ends), *words], capture_output=True, env=environment, cwd=play._room, timeout=4 * play.SECONDS)
    with open(tally) as file:
        return int(file.read()), done.returncode, done.stderr


def counted_pair(task):
    return tuple(counted(*one) for one in task)


def tried(task):
    """How a kind of text is read: with one name, with all, and for each place with others of its comments until one tells."""
    counter, alone, whole, others = task
    answers = {"alone": [counted(counter, words) for words in alone], "whole": [counted(counter, whole)]}
    known = {count for count, _, _ in answers["whole"]}
    for place, variants in others.items():
        answers[place] = []
        for words in variants:
            answers[place].append(counted(counter, words))
            if answers[place][-1][0] not in known:
                break
    return answers


def task_of(program, players, counter, text):
    names, base = some_names(NAMES), ORDERS[0]
    made = lambda some, first, last: text.words(program, players, some, first, last)
    alone = [made(names[:1], order, order) for order in ORDERS[:2]]
    others = {"first": [made(names, order, base) for order in ORDERS[1:]], "last": [made(names, base, order) for order in ORDERS[1:]]}
    return counter, alone, made(names, base, base), others


def judge(text, answers):
    """What is wrong with how a kind of text is read, and what is told of it."""
    every = [answer for some in answers.values() for answer in some]
    faults = [f"status {status}, {err!r}" for _, status, err in every if status != text.status or text.err and err != text.err]
    counts = {part: [count for count, _, _ in some] for part, some in answers.items()}
    if len({*counts["alone"]}) > 1:
        faults.append(f"with one name the numbers of instructions differ: {counts['alone']}")
    for place in ("first", "last"):
        if {*counts[place]} == {*counts["whole"]}:
            faults.append(f"{len(counts[place])} other {place} comments change nothing: the seed is not the text's")
    told = ", ".join(f"{counts[place][-1]:,} after {len(counts[place])} other {place} comments" for place in ("first", "last"))
    return faults, f"{counts['whole'][0]:,} instructions, {told}", len(every)


def play_picked(players, score, program, counter):
    """Names that were picked are read like any others."""
    kinds = [*picked()]
    tasks = [tuple((counter, text.words(program, players, names, "a", "a")) for names in both) for _, text, *both in kinds]
    for (which, text, names, _), ((first, status, err), (other, _, _)) in zip(kinds, players.pool.imap(counted_pair, tasks)):
        faults = [] if status == text.status and text.err in (b"", err) else [f"status {status}, {err!r}"]
        if not other or first > MOST * other:
            faults.append("too many instructions")
        what = f"{first:,} instructions, {other:,} for as many plain ones"
        score.tell("names", f"{os.path.basename(program)}, {len(names)} names {which}", faults, what, 2)


def play_all(players, score, is_long):
    found = programs()
    if not found:
        score.tell("names", "warp_sim", ["no executable in crates/warp_sim/out: run rt ci first"], "nothing to play")
    counter = players.built("steps") if found else None
    for program in found if is_long else found[:1]:
        tasks = [task_of(program, players, counter, text) for text in TEXTS]
        for text, answers in zip(TEXTS, players.pool.imap(tried, tasks)):
            faults, what, runs = judge(text, answers)
            score.tell("names", f"{os.path.basename(program)}, {text.what}", faults, what, runs)
        play_picked(players, score, program, counter)
