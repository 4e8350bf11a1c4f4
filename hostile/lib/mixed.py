"""Texts that are mixed from telling pieces, from a seed, against the judge."""
import os
import random
from collections import Counter

from cuts import tried
from memory import counted, has_replay, programs
from rows import FLOP, FLOP_STIMULUS, PAIR, PAIR_CUT, PAIR_STIMULUS

NAMES = [b"A", b"B", b"A[0]", b"A[1]", b"B[2]", b"CK", b"N", b"M", b"\\A"]
WORDS = [b"AND", b"nand", b"Or", b"NOR", b"xor", b"XNOR", b"NOT", b"BUFF", b"buf", b"DFF", b"MAJ", b"INPUT"]
BITS = b"INPUT(A[0])\nINPUT(A[1])\nINPUT(B[2])\nINPUT(A)\nN = XOR(A[0], A[1], B[2])\nM = DFF(N)\n"
TOKENS = [
    b"$timescale 1 ns $end", b"$timescale 100us $end", b"$timescale 2 ns $end", b"$scope module top $end", b"$scope module dut $end",
    b"$scope $end", b"$upscope $end", b"$comment $var $end", b"$date now", b"$end", b"$dumpvars", b"$dumpoff", b"$enddefinitions $end",
    b"$enddefinitions", b"$var", b"$var wire 1 a A $end", b"$var wire 3 v A [2:0] $end", b"$var reg 3 w A [0:2] $end",
    b"$var wire 4 u B $end", b"$var real 4 f B $end", b"$var wire 1 a A[0] $end", b"$var wire 1 b A [1] $end", b"$var wire 1 k CK $end",
    b"$var wire 1 k B[2] $end", b"$var wire 2 x A [4294967295:4294967294] $end", b"$var wire 2 y A [4294967296:4294967295] $end",
    b"$var wire 1 z A [0:0] $end", b"$var wire 02 q A [01:00] $end", b"$var wire 0 o A $end", b"$var integer 8 i B [9:2] $end",
    b"$var string 1 s A $end", b"$var wire 1 a \\A $end", b"$var wire 1 \xff A $end", b"$var wire x a A $end",
]
CHANGES = [
    b"0a", b"1a", b"xa", b"Za", b"1k", b"0k", b"1v", b"zv", b"b101 v", b"B0 v", b"bx1 v", b"bz v", b"b1 w", b"b01110 w", b"b0110 u", b"b1x a",
    b"r1.5 f", b"r f", b"sabc f", b"s f", b"b12 v", b"b v", b"bz", b"1", b"q", b"$comment 1a $end", b"$dumpall", b"$end", b"$dumpoff", b"$foo",
    b"1b", b"0b", b"1i", b"b11110000 i", b"1q", b"b10 q", b"b10 x", b"1z", b"1\xff", b"#", b"#x", b"#1000000000000000000", b"#1000000000000000001",
]
SETTINGS = [
    b"default = 3\n", b"default = 0\n", b"default = 1_000_000\n", b"default = 1000001\n", b"default = 0x10\n", b"default = 1.0\n", b"default = true\n",
    b"default = -1\n", b"default = \"3\"\n", b"speed = 1\n", b"scope = \"tb\"\n", b"scope = \"\"\n", b"scope = 1\n", b"gate = 1\n", b"net = []\n",
    b"block = {}\n", b"[gate]\n", b"[net]\n", b"[block]\n", b"[[net]]\n", b"[other]\n", b"[gate.more]\n", b"DFF = 3\n", b"dff = 3\n", b"NOT = 2\n", b"Q = 4\n",
    b"D = 4\n", b"Q = 0\n", b"Q = 1023\n", b"Q = 1024\n", b"Q = 'a'\n", b"CK = 1\n", b"# said\n", b"\n", b"\"Q\" = 5\n", b"Q.a = 1\n", b"=\n", b"\xff\n", b"Q = 2 # so\n",
    b"clock = \"D\"\n", b"clock = \"Q\"\n", b"clock = \"R\"\n", b"clock = \"\"\n", b"clock = \"a b\"\n", b"clock = 1\n", b"clocks = 1\n", b"init = \"1\"\n",
    b"[clocks]\n", b"[init]\n", b"[clocks]\nQ = \"D\"\n", b"[clocks]\nQ = \"CK\"\n", b"[clocks]\nQ = \"R\"\n", b"[clocks]\nQ = 1\n", b"[clocks]\nD = \"CK\"\n",
    b"[init]\nQ = \"1\"\n", b"[init]\nQ = \"0\"\n", b"[init]\nQ = \"x\"\n", b"[init]\nQ = \"z\"\n", b"[init]\nQ = 1\n", b"[init]\nD = \"1\"\n",
]


def mixed_bench(rng):
    lines = []
    for _ in range(rng.randint(0, 12)):
        pick = lambda: rng.choice(NAMES)
        kind = rng.random()
        if kind < 0.4:
            lines.append(rng.choice([b"INPUT(%s)", b"input ( %s )", b"Output(%s)", b"OUTPUT(%s) # so"]) % pick())
        elif kind < 0.9:
            inputs = b", ".join(pick() for _ in range(rng.choice((0, 1, 1, 1, 2, 2, 3))))
            lines.append(rng.choice((b"%s = %s(%s)", b"%s=%s( %s )", b"\t%s = %s(%s)")) % (pick(), rng.choice(WORDS[:-2] if rng.random() < 0.9 else WORDS), inputs))
        else:
            lines.append(rng.choice((b"", b"# ()=,", b"$end", b"A = B", b"INPUT = NOT(A)", b"INPUT A", b"A = NOT(A,)", b"\x01", b"A = NOT(A) B", b"=", b"INPUT(A,B)")))
    return rng.choice((b"\n", b"\r\n")).join(lines) + rng.choice((b"", b"\n", b"\r"))


def mixed_stimulus(rng):
    some = rng.sample(TOKENS, rng.randint(2, 12)) if rng.random() < 0.5 else [
        b"$scope module top $end", b"$var wire 3 v A [2:0] $end", b"$var wire 4 u B $end", b"$var wire 1 a A $end", b"$var wire 1 k CK $end"]
    rng.shuffle(some)
    changes = [it for it in CHANGES if rng.random() < 0.5] if rng.random() < 0.2 else CHANGES[:16]
    later = []
    for time in sorted(rng.choices(range(12), k=rng.randint(0, 6))):
        later += [b"#%d" % time] + rng.choices(changes, k=rng.randint(0, 3))
    return rng.choice((b" ", b"\n", b"\t\r\n")).join(some + [b"$enddefinitions $end"] * (rng.random() < 0.9) + later)


def mixed_settings(rng):
    return b"".join(rng.choices(SETTINGS, k=rng.randint(0, 4)))


def mixed_schedule(rng):
    """Events of which most are lawful; a line in fifty is not."""
    faulty = (b"deliver", b"Commit", b"advance 1", b"deliver -1", b"advance 0 4294967296", b"deliver 4294967296", b"advance 3 1", b"commit 1", b"\x00")
    lines = []
    for _ in range(rng.randint(0, 25)):
        event = rng.choice((b"advance %d %d" % (rng.randint(0, 2), rng.randint(0, 3)), b"deliver %d" % min(rng.randint(0, 3), rng.randint(0, 3)), b"commit"))
        lines.append(rng.choice(faulty) if rng.random() < 0.02 else rng.choice((event, event, event.replace(b" ", b"\t "), b"# " + event)))
    return rng.choice((b"\n", b"\r\n")).join(lines)


def tasks(program, rng, number):
    pair = {"bench": PAIR, "settings": PAIR_CUT, "stimulus": PAIR_STIMULUS}
    plays = has_replay(program)
    every = b"$var wire 1 i A $end $var wire 4 v A [0:3] $end $var wire 4 u B $end $var wire 1 k CK $end $var wire 1 n N $end $var wire 1 m M $end $enddefinitions $end"
    for _ in range(number):
        yield program, "bench", {"bench": mixed_bench(rng), "settings": b"", "stimulus": every + b" #0 0k b0101 v 1i #2 1k #3 0k b1xz0 v #5 1k"}, 9
        yield program, "stimulus", {"bench": BITS, "settings": rng.choice((b"", b"", b"scope = \"top\"")), "stimulus": mixed_stimulus(rng)}, 12
        yield program, "settings", {"bench": FLOP, "settings": mixed_settings(rng), "stimulus": b"$var wire 1 r R $end " + FLOP_STIMULUS}, 12
        if plays:
            yield program, "schedule", pair | {"schedule": mixed_schedule(rng)}, 10


def play_all(players, score, is_long, seed=1):
    found = programs()
    if not found:
        score.tell("mixed", "warp_sim", ["no executable in crates/warp_sim/out: run rt ci first"], "nothing to play")
    for program in found[:1]:
        kinds, faults, judgements = Counter(), [], 0
        some = tasks(program, random.Random(seed), 20_000 if is_long else 1_500)
        for status, is_judged, fault in players.pool.imap_unordered(tried, some, 16):
            kinds[f"with status {status}"] += 1
            judgements += is_judged
            faults += [fault] if fault else []
        texts = sum(kinds.values())
        score.tell("mixed", f"{os.path.basename(program)}, seed {seed}", faults, f"{texts} texts, {judgements} of them judged: {counted(kinds)}", texts)
