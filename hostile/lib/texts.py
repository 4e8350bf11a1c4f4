"""A second reader of the texts, written from docs/FORMATS.md alone."""
import re
import tomllib
from dataclasses import dataclass

MANY, ONE = ("AND", "NAND", "OR", "NOR", "XOR", "XNOR"), ("NOT", "BUFF", "DFF")


class Refused(Exception):
    """A text is refused, with this line on standard error."""


# ------------------------------------------------------------------- bench
def lines_of(text):
    parts = text.split(b"\n")
    whole = [part[:-1] if part.endswith(b"\r") else part for part in parts[:-1]]
    return whole + [parts[-1]]


def statement(words):
    """What the words and marks of a line say: None, or a tuple; False for none of the forms."""
    if not words:
        return None
    is_word = lambda word: word not in (b"(", b")", b",", b"=")
    if len(words) == 4 and words[0].upper() in (b"INPUT", b"OUTPUT") and words[1] == b"(" and is_word(words[2]) and words[3] == b")":
        return words[0].upper().decode(), words[2]
    if len(words) >= 5 and is_word(words[0]) and words[1] == b"=" and is_word(words[2]) and words[3] == b"(" and words[-1] == b")":
        inner = words[4:-1]
        names, commas = inner[::2], inner[1::2]
        if all(map(is_word, names)) and set(commas) <= {b","} and (not inner or len(names) > len(commas)):
            return "GATE", words[0], words[2].upper().decode(), names
    return False


def read_bench(text):
    """The nets in order, as (name, kind, inputs), and the outputs."""
    nets, known, uses, outputs = [], {}, [], []
    for number, line in enumerate(lines_of(text), 1):
        def refuse(cause):
            raise Refused(1, f"bench line {number}: {cause}")
        line = line.split(b"#")[0]
        if re.search(rb"[^\t -~]", line):
            refuse("BadName")
        words = re.findall(rb"[(),=]|[^(),=\t ]+", line)
        if b"$end" in words:
            refuse("BadName")
        said = statement(words)
        if said is False:
            refuse("BadLine")
        if said is None:
            continue
        if said[0] == "OUTPUT":
            uses.append((number, said[1]))
            outputs.append(said[1])
            continue
        name, kind, inputs = said[1], "INPUT", []
        if said[0] == "GATE":
            kind, inputs = {"BUF": "BUFF"}.get(said[2], said[2]), said[3]
            if kind not in MANY + ONE:
                refuse("UnknownGate")
            if not inputs or kind in ONE and len(inputs) != 1:
                refuse("InputCount")
        if name in known:
            refuse("DrivenTwice")
        known[name] = len(nets)
        nets.append((name, kind, inputs))
        uses += [(number, used) for used in inputs]
    for number, used in uses:
        if used not in known:
            raise Refused(1, f"bench line {number}: Undriven")
    return nets


# ---------------------------------------------------------------- settings
TABLES = ("gate", "net", "block", "clocks", "init")
# The causes in the order of their numbers.
CAUSES = ("UnknownKey", "UnknownNet", "BadDelay", "BadCut", "BadClock", "BadInit")


@dataclass
class Settings:
    """What settings mean for a circuit: delays, clocks and contents by net, an added clock, a scope."""
    delays: dict
    clocks: dict
    contents: dict
    added: bytes | None
    scope: str | None


def is_whole(value, least, most):
    return type(value) is int and least <= value <= most


def key_causes(table, parts):
    """What is wrong with the keys, and with the types of what stands at the top."""
    if table.keys() - {"default", "clock", "scope", *TABLES} or parts["gate"].keys() - {*MANY, *ONE}:
        yield "UnknownKey"
    if any(type(table.get(key, "")) is not str for key in ("clock", "scope")) or any(type(table.get(key, {})) is not dict for key in TABLES):
        yield "UnknownKey"


def value_causes(table, parts):
    """What is wrong with delays, blocks and contents."""
    if not all(is_whole(delay, 1, 1_000_000) for delay in [table.get("default", 1), *parts["gate"].values(), *parts["net"].values()]):
        yield "BadDelay"
    if not all(is_whole(block, 0, 1023) for block in parts["block"].values()):
        yield "BadCut"
    if not all(content in ("0", "1", "x") for content in parts["init"].values()):
        yield "BadInit"


def is_name(name):
    return bool(re.fullmatch(r"[!-~]+", name)) and not re.search(r"[(),=#]", name) and name != "$end"


def read_settings(text, nets):
    """What the settings mean for these nets."""
    try:
        table = tomllib.loads(text.decode())
    except (tomllib.TOMLDecodeError, UnicodeDecodeError):
        raise Refused(1, "settings: Toml")
    parts = {key: table.get(key) if type(table.get(key)) is dict else {} for key in TABLES}
    causes = {*key_causes(table, parts), *value_causes(table, parts)}
    kinds = {name.decode(): kind for name, kind, _ in nets}
    flops = [name for name, kind in kinds.items() if kind == "DFF"]
    driven = {name for name, kind in kinds.items() if kind != "INPUT"}
    if (parts["net"].keys() | parts["block"].keys()) - driven or (parts["clocks"].keys() | parts["init"].keys()) - {*flops}:
        causes.add("UnknownNet")
    usual = table.get("clock", "CK")
    clocks = {name: parts["clocks"].get(name, usual) for name in flops}
    for name in clocks.values():
        if type(name) is not str or name not in kinds and not (name == usual and is_name(name)):
            causes.add("BadClock")
    if any(type(name) is not str for name in parts["clocks"].values()):
        causes.add("BadClock")
    if causes:
        raise Refused(1, f"settings: {min(causes, key=CAUSES.index)}")
    fallback = lambda kind: parts["gate"].get(kind, table.get("default", 1))
    return Settings(
        {name.encode(): parts["net"].get(name, fallback(kind)) for name, kind in kinds.items() if kind != "INPUT"},
        {name.encode(): clock.encode() for name, clock in clocks.items()},
        {name.encode(): parts["init"].get(name, "x") for name in flops},
        usual.encode() if usual in clocks.values() and usual not in kinds else None,
        table.get("scope"))


# ---------------------------------------------------------------- stimulus
UNITS = r"(1|10|100)(s|ms|us|ns|ps|fs)"
STRANGE = (b"real", b"realtime", b"string")


class Reader:
    """The tokens of a stimulus, and what was read of them so far."""

    def __init__(self, text):
        self.tokens = [(found.start(), found.group()) for found in re.finditer(rb"[^\x09-\x0d ]+", text)]
        self.at, self.unit, self.scopes, self.variables = 0, ("1", "ns"), [], []

    def refuse(self, at, cause):
        raise Refused(1, f"stimulus at {at}: {cause}")

    def next(self):
        self.at += 1
        return self.tokens[self.at - 1]

    def command(self, place):
        """The tokens up to the next `$end`."""
        words = []
        while self.at < len(self.tokens):
            word = self.next()[1]
            if word == b"$end":
                return words
            words.append(word)
        self.refuse(place, "UnclosedCommand")

    def declarations(self):
        while self.at < len(self.tokens):
            place, word = self.next()
            if not word.startswith(b"$") or word == b"$end":
                self.refuse(place, "BadToken")
            words = self.command(place)
            if word == b"$timescale":
                found = re.fullmatch(UNITS, b"".join(words).decode("latin-1"))
                if not found:
                    self.refuse(place, "BadTimescale")
                self.unit = found.groups()
            elif word == b"$scope":
                self.scopes.append(words[1] if len(words) > 1 else b"")
            elif word == b"$upscope":
                self.scopes[-1:] = []
            elif word == b"$var":
                if len(words) < 4 or not re.fullmatch(rb"[0-9]+", words[1]) or not re.fullmatch(rb"[!-~]+", words[2]):
                    self.refuse(place, "BadVar")
                reference = b"".join(words[3:])
                reference = reference[1:] if reference.startswith(b"\\") else reference
                self.variables.append((words[0], int(words[1]), words[2], reference, b".".join(self.scopes)))
            elif word == b"$enddefinitions":
                return

    def changes(self):
        """Each change, as (stamp, code, digits), in the order of the text."""
        codes, stamp, found = {code for _, _, code, _, _ in self.variables}, None, []
        while self.at < len(self.tokens):
            place, word = self.next()
            if re.fullmatch(rb"#[0-9]+", word):
                if int(word[1:]) > 10**18:
                    self.refuse(place, "StampTooLarge")
                if stamp is not None and int(word[1:]) < stamp:
                    self.refuse(place, "StampFalls")
                stamp = int(word[1:])
            elif word in (b"$dumpvars", b"$dumpall", b"$dumpon", b"$dumpoff", b"$end"):
                pass
            elif word.startswith(b"$"):
                self.command(place)
            elif re.fullmatch(rb"[01xXzZ].+", word, re.S):
                self.take(place, word[1:], word[:1], codes, stamp, found)
            elif re.fullmatch(rb"[bB][01xXzZ]+|[rR].+|[sS].*", word, re.S):
                if self.at == len(self.tokens):
                    self.refuse(place, "BadToken")
                self.take(place, self.next()[1], word[1:] if word[:1] in b"bB" else None, codes, stamp, found)
            else:
                self.refuse(place, "BadToken")
        return found

    def take(self, place, code, digits, codes, stamp, found):
        if code not in codes:
            self.refuse(place, "UnknownCode")
        if digits is not None:
            found.append((stamp or 0, code, digits.decode().lower()))


def vector_of(kind, size, reference):
    """The base of a vector and its two ends; None for what is none."""
    if kind in STRANGE:
        return None
    found = re.fullmatch(rb"(.+)\[([0-9]+):([0-9]+)\]", reference, re.S)
    if found and int(found[2]) <= 4_294_967_295 and int(found[3]) <= 4_294_967_295:
        left, right = int(found[2]), int(found[3])
        return (found[1], left, right) if size == abs(left - right) + 1 else None
    if found or re.fullmatch(rb"\[[0-9]+:[0-9]+\]", reference) or not reference:
        return None
    return (reference, size - 1, 0) if 2 <= size <= 4_294_967_295 else None


def source_of(name, variables):
    """The code of an input and its place in it: None for a scalar, else how far it is from the right end."""
    for kind, size, code, reference, _ in variables:
        if size == 1 and kind not in STRANGE and reference in (name, name + b"[0:0]"):
            return code, None
    bit = re.fullmatch(rb"(.+)\[(0|[1-9][0-9]*)\]", name, re.S)
    for kind, size, code, reference, _ in variables if bit else ():
        vector = vector_of(kind, size, reference)
        if vector and vector[0] == bit[1] and min(vector[1:]) <= int(bit[2]) <= max(vector[1:]):
            return code, abs(int(bit[2]) - vector[2])
    return None


def digit(digits, place):
    if place is None:
        return digits[-1]
    if place < len(digits):
        return digits[-1 - place]
    return {"1": "0"}.get(digits[0], digits[0])


def read_stimulus(text, inputs, scope):
    """Each input's changes as (time, value), in the order of the text; and the timescale."""
    reader = Reader(text)
    reader.declarations()
    changes = reader.changes()
    variables = [it for it in reader.variables if scope is None or it[4] == scope.encode()]
    signals = {}
    for net, name in inputs:
        source = source_of(name, variables)
        if source is None:
            is_named = any(it[3] == name or it[3].startswith(name + b"[") for it in variables)
            raise Refused(1, f"stimulus net {net}: {'NotScalar' if is_named else 'MissingInput'}")
        signals[name] = [(time, digit(digits, source[1])) for time, code, digits in changes if code == source[0]]
    return signals, reader.unit


# ---------------------------------------------------------------- schedule
def read_schedule(text):
    """The events, as words and numbers."""
    events = []
    for number, line in enumerate(lines_of(text), 1):
        words = [word for word in re.split(rb"[ \t]+", line) if word]
        if not words or words[0].startswith(b"#"):
            continue
        if not re.fullmatch(rb"deliver [0-9]+|advance [0-9]+ [0-9]+|commit", b" ".join(words)):
            raise Refused(1, f"schedule line {number}: BadLine")
        numbers = [int(word) for word in words[1:]]
        if any(it > 4_294_967_295 for it in numbers):
            raise Refused(1, f"schedule line {number}: NumberTooLarge")
        events.append((words[0].decode(), *numbers))
    return events
