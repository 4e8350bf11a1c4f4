"""Small dumps that are drawn in pairs from a seed, and compared by the program and by a plain evaluator.

The evaluator has a reader of its own and goes through all pairs of bits and all times, one after another, as docs/FORMATS.md says
what `compare` takes and prints.
"""
import os
import random
import re
from collections import Counter

import play
from memory import counted, programs

NO_BITS = (b"real", b"realtime", b"string")
LENGTHS = {b"s": 10**15, b"ms": 10**12, b"us": 10**9, b"ns": 10**6, b"ps": 10**3, b"fs": 1}
SCALES = ((1, b"ns"), (10, b"ns"), (100, b"ps"), (1, b"us"), (100, b"ns"))
MARKS = (b"$dumpvars", b"$dumpall", b"$dumpon", b"$dumpoff", b"$end")


class Refused(Exception):
    """A text is refused, with this line."""


# ------------------------------------------------------------------ the reader
class Dump:
    """What a dump says: its unit, the bits of a scope in their order with where their values come from, its changes, its end."""

    def __init__(self, text, scope, who):
        self.words = [(found.start(), found.group()) for found in re.finditer(rb"[^\t-\r ]+", text)]
        self.who, self.unit, self.last = who, (1, b"ns"), 0
        self.variables, self.changes = [], {}
        self.read_changes(self.read_declarations(0))
        self.bits = self.bits_of(scope)

    def refuse(self, number, cause):
        raise Refused(f"{self.who} at {self.words[number][0]}: {cause}")

    def end_of(self, number):
        """The number of the `$end` of a command."""
        ends = (at for at in range(number + 1, len(self.words)) if self.words[at][1] == b"$end")
        found = next(ends, None)
        return self.refuse(number, "UnclosedCommand") if found is None else found

    def read_declarations(self, number):
        scopes = []
        while number < len(self.words):
            name = self.words[number][1]
            if not name.startswith(b"$") or name == b"$end":
                self.refuse(number, "BadToken")
            end = self.end_of(number)
            words = [word for _, word in self.words[number + 1:end]]
            if name == b"$timescale":
                found = re.fullmatch(rb"(1|10|100)(s|ms|us|ns|ps|fs)", b"".join(words))
                if not found:
                    self.refuse(number, "BadTimescale")
                self.unit = int(found[1]), found[2]
            elif name == b"$scope":
                scopes.append(words[1] if words[1:] else b"")
            elif name == b"$upscope":
                del scopes[-1:]
            elif name == b"$var":
                if len(words) < 4 or not words[1].isdigit() or not re.fullmatch(rb"[!-~]+", words[2]):
                    self.refuse(number, "BadVar")
                reference = b"".join(words[3:])
                self.variables.append((words[0], int(words[1]), words[2], reference[reference[:1] == b"\\":], b".".join(scopes)))
            number = end + 1
            if name == b"$enddefinitions":
                break
        return number

    def read_changes(self, number):
        codes, stamp, before = {it[2] for it in self.variables}, None, 0
        while number < len(self.words):
            first, (_, word) = number, self.words[number]
            number += 1
            if re.fullmatch(rb"#[0-9]+", word):
                now = int(word[1:])
                if now > 10**18:
                    self.refuse(first, "StampTooLarge")
                if stamp is not None and now < stamp:
                    self.refuse(first, "StampFalls")
                stamp = before = self.last = now
            elif word in MARKS:
                pass
            elif word.startswith(b"$"):
                number = self.end_of(first) + 1
            elif word[:1] in (b"0", b"1", b"x", b"X", b"z", b"Z") and len(word) > 1:
                self.change(first, codes, word[1:], before, word[:1])
            elif re.fullmatch(rb"[bB][01xXzZ]+|[rR].+|[sS].*", word, re.S) and number < len(self.words):
                self.change(first, codes, self.words[number][1], before, word[1:] if word[:1] in (b"b", b"B") else None)
                number += 1
            else:
                self.refuse(first, "BadToken")

    def change(self, first, codes, code, time, digits):
        if code not in codes:
            self.refuse(first, "UnknownCode")
        if digits is not None:
            self.changes.setdefault(code, []).append((time, digits.decode().lower()))

    def bits_of(self, scope):
        """The bits by their names, in the order of their declarations: of each its code, and how far it is from the right."""
        with_bits, found = [it for it in self.variables if it[0] not in NO_BITS], {}
        if scope is None:
            scope = with_bits[0][4] if with_bits else b""
        for _, size, code, reference, path in with_bits:
            if scope == b"" or path == scope:
                below = b"" if path == scope else path
            elif path.startswith(scope + b"."):
                below = path[len(scope) + 1:]
            else:
                continue
            for name, place in bits_in(size, reference):
                found.setdefault(below + b"." + name if below else name, (code, place))
        return found

    def values(self, source, until):
        """The value of a bit at each time from 0 on, in units of the dump."""
        code, place = source
        moves = {time: digits[-1 - place] if place < len(digits) else "0" if digits[0] in "01" else digits[0]
                 for time, digits in self.changes.get(code, ())}
        value, values = "x", []
        for time in range(until + 1):
            value = moves.get(time, value)
            values.append(value)
        return values


def bits_in(size, reference):
    """The bits of a variable, the leftmost first: of each its name, and how far it is from the right."""
    if size == 1:
        return [(reference.removesuffix(b"[0:0]"), 0)]
    found = re.fullmatch(rb"(.+)\[([0-9]+):([0-9]+)\]", reference, re.S)
    base, left, right = (found[1], int(found[2]), int(found[3])) if found else (reference, size - 1, 0)
    if abs(left - right) + 1 != size or not base or re.fullmatch(rb"\[[0-9]+:[0-9]+\]", reference):
        return []
    step = 1 if right >= left else -1
    return [(base + b"[%d]" % number, abs(number - right)) for number in range(left, right + step, step)]


# --------------------------------------------------------------- the evaluator
def mapped(text, expected, actual):
    """The pairs that a map says, as names."""
    pairs = {}
    for number, line in enumerate(text.split(b"\n"), 1):
        words = line.split()
        if line.startswith(b"#") or not words:
            continue
        if len(words) != 2:
            raise Refused(f"map line {number}: BadLine")
        if words[0] not in expected.bits or words[1] not in actual.bits:
            raise Refused(f"map line {number}: UnknownName")
        if words[0] in pairs:
            raise Refused(f"map line {number}: NamedTwice")
        pairs[words[0]] = words[1]
    return pairs


def difference(e, a, times, within, any_for_x):
    """The first time at which two bits don't agree; None where they do at all."""
    for time in times:
        near = slice(max(0, time - within), time + within + 1)
        is_free = any_for_x and (e[time] == "x" or "x" in e[near])
        if e[time] == "x" and any_for_x or e[time] in a[near] and (a[time] in e[near] or is_free):
            continue
        return time
    return None


def judged(options, expected, actual, pairing):
    """What is answered: status, standard output and standard error."""
    try:
        return compared(options, expected, actual, pairing)
    except Refused as refusal:
        return 1, b"", f"{refusal}\n".encode()


def compared(options, expected, actual, pairing):
    scopes = options.get("scope", (None, None))
    e, a = Dump(expected, scopes[0], "expected"), Dump(actual, scopes[1], "actual")
    pairs = {name: name for name in e.bits if name in a.bits} if pairing is None else mapped(pairing, e, a)
    length = lambda unit: unit[0] * LENGTHS[unit[1]]
    unit = min(e.unit, a.unit, key=length)
    scale, own = length(e.unit) // length(unit), length(a.unit) // length(unit)
    first, last = options.get("from", 0) * scale, options.get("to", e.last) * scale
    start, step = (options["at"][0] * scale, options["at"][1] * scale) if "at" in options else (0, 1)
    times = [time for time in range(first, last + 1) if time >= start and (time - start) % step == 0]
    if not pairs or not times:
        raise Refused("nothing to compare")
    within, offset = options.get("within", 0) * scale, options.get("offset", 0) * scale
    until, found = last + within, []
    for name, other in pairs.items():
        shown, looked = e.values(e.bits[name], until // scale), a.values(a.bits[other], max(0, until + offset) // own)
        es = [shown[time // scale] for time in range(until + 1)]
        at = [looked[(time + offset) // own] if time + offset >= 0 else "x" for time in range(until + 1)]
        time = difference(es, at, times, within, "any-for-x" in options)
        if time is not None:
            found.append((time, b"%d %s: expected %s, found %s\n" % (time, name, es[time].encode(), at[time].encode())))
    return told(options, found, pairs, (first, last, unit), [name not in a.bits for name in e.bits], [name not in e.bits for name in a.bits])


def told(options, found, pairs, span, only_expected, only_actual):
    """The lines of the pairs that differ, by their times, and the last line."""
    lines = [line for _, line in sorted(found, key=lambda it: it[0])]
    shown = b"".join(lines[:options.get("list", 20) or None])
    verdict = b"%d of %d bits differ" % (len(found), len(pairs)) if found else b"%d bits agree" % len(pairs)
    end = verdict + b" from %d to %d (%d %s)" % (*span[:2], *span[2])
    if any(only_expected + only_actual):
        end += b"; %d only in EXPECTED, %d only in ACTUAL" % (sum(only_expected), sum(only_actual))
    return 5 if found else 0, shown + end + b"\n", b""


# ------------------------------------------------------------------ the drawing
VARIABLES = [b"wire 1 %s A", b"reg 1 %s B", b"wire 3 %s V [2:0]", b"wire 3 %s V [0:2]", b"wire 2 %s W", b"wire 2 %s W [5:4]", b"wire 1 %s V[1]",
             b"wire 1 %s \\C", b"real 64 %s R", b"wire 3 %s U [1:0]", b"integer 2 %s I", b"wire 1 %s A", b"string 1 %s S", b"wire 1 %s A [0:0]"]
CODES = (b"!", b'"', b"#", b"$", b"%&")


def drawn_dump(rng, places):
    """A dump of some variables in some scopes, whose values change at some times."""
    scale = rng.choice(SCALES[:2] if rng.random() < 0.7 else SCALES)
    words = [] if scale == (1, b"ns") and rng.random() < 0.3 else [b"$timescale %d %s $end" % scale]
    words += [b"$scope module %s $end" % name for name in places]
    some = rng.sample(VARIABLES, rng.randint(1, 6))
    for at, form in enumerate(some):
        if rng.random() < 0.15:
            words += rng.choice(([b"$upscope $end"], [b"$scope module m $end"], [b"$comment none $end"]))
        words.append(b"$var " + form % rng.choice(CODES[:at % len(CODES) + 1]) + b" $end")
    words.append(b"$enddefinitions $end")
    codes = [code for code in CODES if any(b" " + code + b" " in word for word in words)]
    time = 0
    for _ in range(rng.randint(1, 7)):
        words.append(b"#%d" % time)
        for _ in range(rng.randint(0, 3)):
            code, form = rng.choice(codes), rng.random()
            digits = bytes(rng.choice(b"01010101xzXZ") for _ in range(rng.randint(1, 4)))
            words.append(digits[:1] + code if form < 0.6 else b"b" + digits + b" " + code if form < 0.95 else b"r1.5 " + code)
        time += rng.randint(0, 3)
    return rng.choice((b" ", b"\n")).join(words) + b"\n"


def varied(rng, text):
    """Nearly the same dump: one of its words may be another, another unit, or cut off."""
    words, how = text.split(b" "), rng.random()
    at = rng.randrange(len(words))
    if how < 0.6:
        return re.sub(rb"#([0-9]+)", lambda found: b"#%d" % (int(found[1]) + (rng.random() < 0.2)), text) if how < 0.4 else text
    if how < 0.7:
        return b" ".join(words[:at] + [rng.choice((b"0!", b"1\"", b"#7", b"$end", b"b1 #"))] + words[at + 1:])
    if how < 0.75:
        return text[:rng.randrange(len(text))]
    return text.replace(b"10 ns", b"1 ns") if how < 0.85 else text.replace(rng.choice((b"0!", b"x!", b"1\"")), b"z!", 1)


def drawn_map(rng, expected, actual):
    """Lines of which most pair two bits."""
    try:
        names = [list(Dump(text, None, "").bits) or [b"A"] for text in (expected, actual)]
    except Refused:
        names = [[b"A", b"B"], [b"A", b"B"]]
    some = rng.sample(names[0], rng.randint(0, len(names[0])))
    lines = [rng.choice((b"%s %s", b" %s\t%s ", b"%s  %s")) % (name, rng.choice(names[1])) for name in some]
    for _ in range(rng.choice((0, 0, 1, 2))):
        lines.insert(rng.randint(0, len(lines)), rng.choice((b"# A B", b"", b" \t", b"#", b" # A", b"A", b"A B C", b"No A", *lines)))
    return b"\n".join(lines) + rng.choice((b"", b"\n"))


def drawn_options(rng, scopes):
    options = {}
    if rng.random() < 0.4:
        options["scope"] = scopes if rng.random() < 0.8 else rng.choice(((b"", b""), (b"top.m", b"top"), (b"", b"top")))
    for name, most, often in (("from", 5, 0.2), ("to", 14, 0.3), ("within", 3, 0.4), ("list", 2, 0.3)):
        if rng.random() < often:
            options[name] = rng.randint(0, most)
    if rng.random() < 0.3:
        options["offset"] = rng.randint(-4, 4)
    if rng.random() < 0.3:
        options["at"] = rng.randint(0, 6), rng.randint(1, 5)
    if rng.random() < 0.3:
        options["any-for-x"] = True
    return options


def drawn(rng):
    """Options, two dumps, and a map or none."""
    places = [rng.choice(((b"top",), (b"tb", b"dut"), ()))] * 2
    expected = drawn_dump(rng, places[0])
    if rng.random() < 0.8:
        actual = varied(rng, expected)
    else:
        places[1] = (b"top",)
        actual = drawn_dump(rng, places[1])
    if rng.random() < 0.05:
        expected = varied(rng, expected)
    options = drawn_options(rng, tuple(b".".join(names) for names in places))
    return options, expected, actual, drawn_map(rng, expected, actual) if rng.random() < 0.25 else None


# ------------------------------------------------------------------- the trial
def words_of(options):
    """The options as words of a line."""
    words = []
    for name, value in options.items():
        if name == "scope":
            words += ["--scope", "=".join(scope.decode() for scope in value)]
        elif name == "at":
            words += ["--at", f"{value[0]}:{value[1]}"]
        else:
            words += [f"--{name}"] if value is True else [f"--{name}={value}"]
    return words


def tried(task):
    """The status of an answer, and what is wrong with it."""
    program, number, (options, expected, actual, pairing) = task
    words = [program, "compare", *words_of(options)]
    for name, text in (("expected", expected), ("actual", actual), ("map", pairing)):
        path = os.path.join(play._room, f"{name}.{os.getpid()}")
        if text is not None:
            with open(path, "wb") as file:
                file.write(text)
            words += ["--map", path] if name == "map" else [path]
    answer = play.play(play.Job(0, tuple(words), watched=False))[1]
    wanted = judged(options, expected, actual, pairing)
    is_right = (answer.status, answer.out, answer.err) == wanted
    fault = None if is_right else f"pair {number}, {' '.join(words_of(options))}: {answer.out!r}, {answer.err!r}, and the judge says {wanted}"
    return answer.status, fault


# The dumps of an inverter whose output rises at 1 and falls at 6, and of one whose output does at 2 and 7, and what is said of them.
INVERTER = (b'$timescale 1 ns $end $scope module top $end $var wire 1 ! A $end $var wire 1 " Y $end $upscope $end $enddefinitions $end'
            b' #0 $dumpvars 0! x" $end #1 1" #5 1! #6 0" #10\n')
SLOWER = INVERTER.replace(b"#1 1", b"#2 1").replace(b"#6", b"#7")
FINER = re.sub(rb"#([0-9]+)", lambda found: b"#%d" % (1000 * int(found[1])), INVERTER.replace(b"1 ns", b"1 ps"))
AGREES = b"2 bits agree from 0 to 10 (1 ns)\n"
DIFFERS = b"1 of 2 bits differ from 0 to 10 (1 ns)\n"
KNOWN = [
    ({}, INVERTER, INVERTER, None, (0, AGREES, b"")),
    ({}, INVERTER, SLOWER, None, (5, b"1 Y: expected 1, found x\n" + DIFFERS, b"")),
    ({"within": 1}, INVERTER, SLOWER, None, (0, AGREES, b"")),
    ({"at": (3, 5)}, INVERTER, SLOWER, None, (0, AGREES, b"")),
    ({"at": (6, 5)}, INVERTER, SLOWER, None, (5, b"6 Y: expected 0, found 1\n" + DIFFERS, b"")),
    ({}, INVERTER, FINER, None, (0, b"2 bits agree from 0 to 10000 (1 ps)\n", b"")),
    ({}, INVERTER, INVERTER, b"Y Y\n", (0, b"1 bits agree from 0 to 10 (1 ns)\n", b"")),
    ({}, INVERTER, INVERTER, b"# Y Y\n\nY A\nA\n", (1, b"", b"map line 4: BadLine\n")),
    ({}, INVERTER, INVERTER, b"Y B\n", (1, b"", b"map line 1: UnknownName\n")),
    ({}, INVERTER, INVERTER, b"Y A\nA A\nY Y\n", (1, b"", b"map line 3: NamedTwice\n")),
    ({}, INVERTER, INVERTER, b"\n", (1, b"", b"nothing to compare\n")),
]


def judge_judge(score):
    """The evaluator answers what was worked out by hand."""
    for number, (*case, wanted) in enumerate(KNOWN, 1):
        answer = judged(*case)
        score.tell("compared", "the judge", [] if answer == wanted else [f"{answer} for {wanted}"], f"known pair {number}")


def play_all(players, score, is_long, seed=1):
    judge_judge(score)
    found = programs()
    if not found:
        score.tell("compared", "warp_sim", ["no executable in crates/warp_sim/out: run rt ci first"], "nothing to play")
    for program in found if is_long else found[:1]:
        rng, kinds, faults = random.Random(seed), Counter(), []
        cases = [case[:4] for case in KNOWN] + [drawn(rng) for _ in range(10_000 if is_long else 1_000)]
        tasks = ((program, number, case) for number, case in enumerate(cases, 1))
        for status, fault in players.pool.imap_unordered(tried, tasks, 8):
            kinds[f"with status {status}"] += 1
            faults += [fault] if fault else []
        score.tell("compared", f"{os.path.basename(program)}, seed {seed}", faults, f"{len(cases)} pairs: {counted(kinds)}", len(cases))
