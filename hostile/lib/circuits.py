"""Small circuits with a stimulus each, made from a seed: the same seed gives the same texts."""
import random
from dataclasses import dataclass, field

GATES = ("AND", "NAND", "OR", "NOR", "XOR", "XNOR")


@dataclass
class Circuit:
    """A circuit as it is being made, with its delays, its inputs' changes and its horizon."""
    name: str
    until: int
    inputs: list = field(default_factory=list)
    gates: list = field(default_factory=list)
    delays: dict = field(default_factory=dict)
    clocks: dict = field(default_factory=dict)
    contents: dict = field(default_factory=dict)
    changes: list = field(default_factory=list)

    def input(self, name, *changes):
        """An input with its changes, as pairs of a time and a value."""
        self.inputs.append(name)
        self.changes += [(time, name, value) for time, value in changes]
        return name

    def gate(self, name, word, *inputs, delay=None):
        self.gates.append((name, word, inputs))
        if delay:
            self.delays[name] = delay
        return name

    def clock(self, half):
        """The clock, with so long between its edges."""
        times = range(0, self.until, half)
        return self.input("CK", *((time, i % 2) for i, time in enumerate(times)))

    def bench(self):
        lines = [f"INPUT({name})" for name in self.inputs]
        lines += [f"{name} = {word}({', '.join(inputs)})" for name, word, inputs in self.gates]
        return ("\n".join(lines) + "\n").encode()

    def settings(self):
        lines = ["[net]"] + [f"{name} = {delay}" for name, delay in self.delays.items()]
        lines += ["[clocks]"] + [f'{name} = "{clock}"' for name, clock in self.clocks.items()]
        lines += ["[init]"] + [f'{name} = "{content}"' for name, content in self.contents.items()]
        return ("\n".join(lines) + "\n").encode()

    def stimulus(self):
        codes = {name: f"i{i}" for i, name in enumerate(self.inputs)}
        words = [f"$var wire 1 {codes[name]} {name} $end" for name in self.inputs] + ["$enddefinitions $end"]
        for time, name, value in sorted(self.changes, key=lambda change: change[0]):
            words.append(f"#{time} {value}{codes[name]}")
        return ("\n".join(words) + "\n").encode()


def moving(rng, until, most):
    """Some changes up to a horizon, z and x among them."""
    return [(time, rng.choice("0011xz")) for time in sorted(rng.sample(range(until), rng.randint(1, most)))]


def loop(rng):
    made = Circuit("loop", 200)
    made.input("EN", (0, 0), (rng.randint(1, 9), 1), (150, 0))
    made.gate("Y0", "NAND", "EN", "Y8", delay=rng.randint(1, 5))
    for i in range(1, 9):
        made.gate(f"Y{i}", "BUFF", f"Y{i - 1}", delay=rng.randint(1, 3))
    return made


def chain(rng):
    made = Circuit("chain", 150)
    made.input("A", *moving(rng, 100, 60))
    for i in range(40):
        made.gate(f"N{i}", rng.choice(("NOT", "BUFF")), f"N{i - 1}" if i else "A", delay=rng.randint(1, 4))
    return made


def counter(rng):
    made = Circuit("counter", 400)
    made.clock(rng.randint(3, 6))
    made.input("RUN", (0, 0), (15, 1))
    carry = "RUN"
    for i in range(6):
        made.gate(f"Q{i}", "DFF", f"D{i}")
        made.gate(f"S{i}", "XOR", f"Q{i}", carry)
        made.gate(f"D{i}", "AND", f"S{i}", "RUN")
        carry = made.gate(f"C{i}", "AND", f"Q{i}", carry)
    return made


def register(rng):
    made = Circuit("register", 300)
    made.clock(4)
    made.input("A", *moving(rng, 250, 40))
    for i in range(20):
        made.gate(f"Q{i}", "DFF", f"Q{i - 1}" if i else "A", delay=rng.randint(1, 9))
    made.gate("Y", "XOR", "Q3", "Q11", "Q19")
    return made


def adder(rng):
    made = Circuit("adder", 160)
    carry = made.input("CIN", *moving(rng, 120, 10))
    for i in range(8):
        a, b = (made.input(f"{word}{i}", *moving(rng, 120, 10)) for word in "AB")
        half = made.gate(f"H{i}", "XOR", a, b)
        made.gate(f"S{i}", "XOR", half, carry, delay=2)
        both, one = made.gate(f"G{i}", "AND", a, b), made.gate(f"P{i}", "AND", half, carry)
        carry = made.gate(f"C{i}", "OR", both, one)
    return made


def product(rng):
    made = Circuit("product", 80)
    size = 4
    a, b = ([made.input(f"{word}{i}", *moving(rng, 60, 6)) for i in range(size)] for word in "AB")
    row = [made.gate(f"M0_{i}", "AND", a[i], b[0]) for i in range(size)]
    for j in range(1, size):
        carry, sums = None, []
        for i in range(size):
            term = made.gate(f"M{j}_{i}", "AND", a[i], b[j])
            above = row[i + 1] if i + 1 < size else f"K{j - 1}" if j > 1 else None
            bits = [bit for bit in (term, above, carry) if bit]
            sums.append(made.gate(f"R{j}_{i}", "XOR", *bits, delay=2))
            carry = made.gate(f"K{j}" if i == size - 1 else f"L{j}_{i}", "AND", *bits)
        row = sums
    return made


def cloud(rng):
    made = Circuit("cloud", 60)
    nets = [made.input(f"A{i}", *moving(rng, 40, 8)) for i in range(8)]
    for i in range(80):
        nets.append(made.gate(f"N{i}", rng.choice(GATES), *rng.choices(nets[-20:], k=rng.randint(1, 4)), delay=rng.randint(1, 6)))
    return made


def tangle(rng):
    made = Circuit("tangle", 120)
    made.clock(rng.randint(2, 5))
    nets = [made.input(f"A{i}", *moving(rng, 100, 12)) for i in range(5)] + ["CK"] + [f"N{i}" for i in range(50)]
    for i in range(50):
        if rng.random() < 0.3:
            flop = made.gate(f"N{i}", "DFF", rng.choice(nets), delay=rng.randint(1, 3))
            made.contents[flop] = rng.choice("01x")
            if rng.random() < 0.5:
                made.clocks[flop] = rng.choice(nets)
        else:
            made.gate(f"N{i}", rng.choice(GATES), *rng.choices(nets, k=rng.randint(1, 3)), delay=rng.randint(1, 7))
    return made


def islands(rng):
    made = Circuit("islands", 150)
    made.clock(5)
    for island in range(8):
        seed = made.input(f"A{island}", *moving(rng, 120, 6))
        link = f"I{(island + 1) % 8}_5"
        nets = [seed, made.gate(f"I{island}_in", "DFF", link, delay=20)]
        for i in range(6):
            nets.append(made.gate(f"I{island}_{i}", rng.choice(GATES), *rng.sample(nets, 2)))
    return made


def parity(rng):
    made = Circuit("parity", 90)
    row = [made.input(f"A{i}", *moving(rng, 60, 9)) for i in range(32)]
    level = 0
    while len(row) > 1:
        row = [made.gate(f"X{level}_{i}", "XOR", row[2 * i], row[2 * i + 1], delay=rng.randint(1, 3)) for i in range(len(row) // 2)]
        level += 1
    return made


def slow(rng):
    made = Circuit("slow", 900)
    made.clock(100)
    made.input("EN", (0, 0), (1, 1))
    for i in range(6):
        made.gate(f"Y{i}", "NAND", "EN", f"Y{i}", delay=rng.randint(20, 90))
        made.gate(f"Q{i}", "DFF", f"Y{i}", delay=rng.randint(1, 50))
    return made


def ripple(rng):
    made = Circuit("ripple", 300)
    clock = made.clock(rng.randint(2, 5))
    for i in range(7):
        made.gate(f"Q{i}", "DFF", f"N{i}", delay=rng.randint(1, 2))
        made.contents[f"Q{i}"], made.clocks[f"Q{i}"] = rng.choice("01"), clock
        clock = made.gate(f"N{i}", "NOT", f"Q{i}", delay=rng.randint(1, 2))
    return made


def nothing(rng):
    made = Circuit("nothing", rng.randint(0, 9))
    made.input("A")
    made.gate("Y", "NOT", "A")
    return made


KINDS = (loop, chain, counter, register, adder, product, cloud, tangle, islands, parity, slow, ripple, nothing)


def all_circuits(seed):
    rng = random.Random(seed)
    return [kind(rng) for kind in KINDS]
