"""Small cases whose answers are known: of the program, and of the tests of the crates."""
import os
import re
from dataclasses import dataclass, field

from play import TOP


@dataclass(frozen=True)
class Row:
    """A line of the program, where `{bench}`, `{stimulus}` and the like stand for files of those texts, and its answer."""
    name: str
    line: str
    texts: dict = field(default_factory=dict)
    stdin: bytes = b""
    status: int = 0
    out: bytes = b""
    err: bytes = b""
    workers: int = 1
    # The file that it writes behind its answer.
    kept: str = ""

    def words(self, program, players):
        files = {name: players.file(text) for name, text in self.texts.items()}
        return (program, *self.line.format(**files).split())


@dataclass(frozen=True)
class Test:
    """A test of a crate: it passes, or ends with one of these words where an allocation is refused."""
    crate: str
    name: str
    ends: tuple = ("AllocError", "AllocFailed", "Memory")


def example(name):
    with open(os.path.join(TOP, "examples", name), "rb") as file:
        return file.read()


def head(unit, names):
    lines = [f"$timescale {unit} $end", "$scope module top $end"]
    lines += [f"$var wire 1 {chr(33 + i)} {name} $end" for i, name in enumerate(names)]
    return lines + ["$upscope $end", "$enddefinitions $end", "#0", "$dumpvars"]


def dump(unit, names, first, later):
    """The dump of nets by name: their values at 0, and what follows, one word a line."""
    values = [value + chr(33 + i) for i, value in enumerate(first)]
    return ("\n".join(head(unit, names) + values + ["$end"] + later.split()) + "\n").encode()


TWO = b"INPUT(A)\nINPUT(B)\n"
TWO_STIMULUS = (b"$timescale 10 us $end $scope module top $end $var wire 1 ! A $end $var wire 1 ! B $end "
                b"$var real 64 r f $end $upscope $end $enddefinitions $end 1! #5 $dumpall 0! r1.5 r $end #5 z!")
FLOP = b"INPUT(D)\nQ = DFF(D)\n"
FLOP_STIMULUS = b"$var wire 1 d D $end $var wire 1 c CK $end $enddefinitions $end #0 0d 0c #5 1d 1c"
DELAYS = b"default = 2\n[gate]\nDFF = 3\n[net]\nQ = 4\n"
PAIR = b"INPUT(P)\nINPUT(Q)\nA = BUFF(P)\nB = BUFF(Q)\nY = AND(A, B)\nZ = NOT(Y)\n"
PAIR_STIMULUS = b"$var wire 1 p P $end $var wire 1 q Q $end $enddefinitions $end #0 1p 1q"
PAIR_CUT = b"[block]\nA = 0\nB = 0\nY = 1\nZ = 2\n"
PAIR_BLOCKS = 3
PAIR_DUMP = dump("1 ns", "PQABYZ", "11xxxx", "#1 1# 1$ #2 1% #3 0& #10")
SCHEDULE = b"advance 0 1\ndeliver 1\nadvance 1 1\ndeliver 0\nadvance 1 1\ncommit\ndeliver 0\nadvance 2 1\n"


def bench_rows():
    def refused(name, bench, err):
        return Row(name, "check {bench}", {"bench": bench}, status=1, err=err)
    return [
        refused("a line of no form", b"INPUT(a)\noutput(y)\ny = and(a,)\n", b"bench line 3: BadLine\n"),
        refused("a name that no line defines", b"y = NOT(b)\n", b"bench line 1: Undriven\n"),
        refused("an unknown gate", b"y = MAJ(y)\n", b"bench line 1: UnknownGate\n"),
        refused("a NOT of two", b"y = NOT(y, y)\n", b"bench line 1: InputCount\n"),
        refused("an AND of none", b"y = and()\n", b"bench line 1: InputCount\n"),
        refused("a name that two lines define", b"INPUT(a)\nINPUT(a)\n", b"bench line 2: DrivenTwice\n"),
        refused("a name that may be none", b"INPUT($end)\n", b"bench line 1: BadName\n"),
        Row("a bench with lines that end by CRLF", "check {bench}", {"bench": b"INPUT(a)\r\noutput(y)\r\ny = and(a)\r\n"},
            out=b"nets 2\ninputs 1\ngates 1\nflip-flops 0\noutputs 1\nblocks 1\n"),
    ]


def settings_rows():
    def refused(name, settings, cause):
        return Row(name, "check --settings {settings} {bench}", {"settings": settings, "bench": FLOP}, status=1,
                   err=b"settings: " + cause + b"\n")
    return [
        refused("a delay of 0", b"default = 0", b"BadDelay"),
        refused("an unknown key", b"speed = 1", b"UnknownKey"),
        refused("a delay of an input", b"[net]\nD = 2", b"UnknownNet"),
        refused("a block past the last", b"[block]\nQ = 1024", b"BadCut"),
        refused("no TOML", b"default =", b"Toml"),
        refused("an unknown key and a delay of 0", b"speed = 1\ndefault = 0", b"UnknownKey"),
        Row("a net's own delay", "run --until 12 --settings {settings} {bench} {stimulus}",
            {"settings": DELAYS, "bench": FLOP, "stimulus": FLOP_STIMULUS},
            out=dump("1 ns", ["D", "Q", "CK"], "0x0", '#5 1! 1# #9 0" #12')),
    ]


def run_rows():
    s27 = {"bench": example("s27.bench"), "stimulus": example("s27.vcd")}
    pair = {"bench": PAIR, "stimulus": PAIR_STIMULUS, "settings": PAIR_CUT}
    return [
        Row("an inverter, by standard input", "run --until 10 -", stdin=example("inverter.txt"), out=example("inverter.dump.vcd")),
        Row("an inverter", "run --until 10 {bench} {stimulus}",
            {"bench": example("inverter.bench"), "stimulus": example("inverter.vcd")}, out=example("inverter.dump.vcd")),
        Row("an inverter that is counted", "run --until 10 --stats /dev/null {bench} {stimulus}",
            {"bench": example("inverter.bench"), "stimulus": example("inverter.vcd")}, out=example("inverter.dump.vcd"), kept="/dev/null"),
        Row("an inverter that is counted where there is no room", "run --until 10 --stats /dev/full {bench} {stimulus}",
            {"bench": example("inverter.bench"), "stimulus": example("inverter.vcd")}, status=4, out=example("inverter.dump.vcd"),
            err=b"cannot write /dev/full\n", kept="/dev/full"),
        Row("s27 in 3 blocks, by 2 workers", "run --until 20 --blocks 3 --workers 2 {bench} {stimulus}", s27,
            out=example("s27.dump.vcd"), workers=2),
        Row("s27's counts", "check {bench}", s27, out=b"nets 18\ninputs 5\ngates 10\nflip-flops 3\noutputs 1\nblocks 1\n"),
        Row("two inputs of one code", "run --until 6 {bench} {stimulus}", {"bench": TWO, "stimulus": TWO_STIMULUS},
            out=dump("10 us", "AB", "11", '#5 z! z" #6')),
        Row("a stamp that falls", "run --until 6 {bench} {stimulus}",
            {"bench": b"INPUT(A)\n", "stimulus": b"$var wire 1 ! A $end $enddefinitions $end #5 0! #4 1!"},
            status=1, err=b"stimulus at 48: StampFalls\n"),
        Row("a pair in three blocks", "run --until 10 --settings {settings} {bench} {stimulus}", pair, out=PAIR_DUMP),
        Row("no net until 3", "run --until 3 {bench} {stimulus}", {"bench": b"", "stimulus": b""},
            out=dump("1 ns", "", "", "#3")),
    ]


def replay_rows():
    def row(name, schedule, **answer):
        texts = {"bench": PAIR, "stimulus": PAIR_STIMULUS, "settings": PAIR_CUT, "schedule": schedule}
        return Row(name, "replay --until 10 --settings {settings} {bench} {stimulus} {schedule}", texts, **answer)
    return [
        row("a schedule with a rollback", SCHEDULE, out=PAIR_DUMP),
        row("the schedule without its last line", SCHEDULE[:-len(b"advance 2 1\n")], status=3, err=b"unfinished at 2\n"),
        row("a delivery of no message", b"deliver 0\n", status=3, err=b"event 1: NoSuchMessage\n"),
        row("an advance of no block", b"advance 3 1\n", status=3, err=b"event 1: NoSuchBlock\n"),
        row("a line that lacks a word", b"advance 0\n", status=1, err=b"schedule line 1: BadLine\n"),
    ]


def in_picoseconds(text):
    """The same dump of nanoseconds in a finer unit."""
    return re.sub(rb"#([0-9]+)", lambda found: b"#%d" % (1000 * int(found[1])), text).replace(b"1 ns", b"1 ps")


def compare_rows():
    dumps = {"expected": example("inverter.dump.vcd"), "actual": example("inverter.dump.vcd").replace(b"#1\n", b"#2\n").replace(b"#6", b"#7")}

    def row(name, options="", pairs=None, **answer):
        line = f"compare {options} {'--map {map} ' if pairs else ''}{{expected}} {{actual}}"
        return Row(name, line, dumps | ({"map": pairs} if pairs else {}), **answer)
    return [
        row("an inverter and a slower one", status=5, out=b"1 Y: expected 1, found x\n1 of 2 bits differ from 0 to 10 (1 ns)\n"),
        row("an inverter and one that is slower by 1", "--within 1", out=b"2 bits agree from 0 to 10 (1 ns)\n"),
        row("strobes where both are quiet", "--at 3:5", out=b"2 bits agree from 0 to 10 (1 ns)\n"),
        row("a strobe between the edges", "--at 6:5", status=5,
            out=b"6 Y: expected 0, found 1\n1 of 2 bits differ from 0 to 10 (1 ns)\n"),
        row("looked at 1 later, from 1 on", "--offset 1 --from 1", status=5,
            out=b"4 A: expected 0, found 1\n1 of 2 bits differ from 1 to 10 (1 ns)\n"),
        Row("an inverter in picoseconds", "compare {expected} {actual}", dumps | {"actual": in_picoseconds(dumps["expected"])},
            out=b"2 bits agree from 0 to 10000 (1 ps)\n"),
        row("an inverter's input by a map", pairs=b"# the input\nA A\n", out=b"1 bits agree from 0 to 10 (1 ns)\n"),
        row("a map of three names", pairs=b"A A\nY A Y\n", status=1, err=b"map line 2: BadLine\n"),
        row("no time to compare", "--from 11", status=1, err=b"nothing to compare\n"),
    ]


def rows(has_replay):
    return run_rows() + bench_rows() + settings_rows() + (replay_rows() if has_replay else []) + compare_rows()


# The tests that take memory, by what they call of their crate. Each passes, which a call that always answers Memory does not let it.
TESTS = [
    Test("gate_netlist_tests", "circuit_tests::outputs_in_the_order_of_their_lines"),
    Test("gate_netlist_tests", "circuit_tests::the_clock_is_the_net_of_its_name"),
    Test("gate_netlist_tests", "circuit_tests::cuts"),
    Test("gate_netlist_tests", "circuit_tests::an_even_cut_of_s27"),
    Test("gate_vcd_tests", "stimulus_tests::accepts_a_whole_text"),
    Test("gate_vcd_tests", "memory_tests::a_stamp_that_falls_or_no_memory"),
    Test("gate_vcd_tests", "memory_tests::a_dump_or_its_first_bytes", ("AllocError", "AllocFailed", "Memory", "WriteFault")),
    Test("warp_block_tests", "memory_tests::a_rollback_or_no_memory"),
    Test("warp_block_tests", "commit_tests::an_entry_with_two_messages_is_not_settled"),
    Test("warp_block_tests", "commit_tests::a_block_commits_what_is_settled"),
    Test("warp_block_tests", "commit_tests::what_is_refused_after_a_commit"),
    Test("warp_core_tests", "gather_tests::matched_blocks_have_the_circuits_waves"),
    Test("warp_core_tests", "gather_tests::blocks_that_are_refused"),
    Test("warp_core_tests", "world_tests::events_lead_to_the_circuits_waves"),
    Test("warp_core_tests", "world_tests::without_the_last_event_block_two_is_unfinished"),
    Test("warp_core_tests", "driver_tests::rounds_until_nothing_is_left"),
    Test("warp_core_tests", "driver_tests::a_round_raises_the_least_time"),
    Test("warp_rounds_tests", "round_tests::two_seats_draw_three_blocks"),
    Test("warp_rounds_tests", "round_tests::a_block_is_left_undrawn"),
    Test("warp_rounds_tests", "round_tests::a_seat_is_missing"),
    Test("warp_rounds_tests", "site_tests::a_turn_reports_what_it_sends"),
    Test("warp_rounds_tests", "site_tests::a_message_waits_in_the_inbox"),
    Test("warp_rounds_tests", "site_tests::a_refused_message_ends_the_visit"),
]
