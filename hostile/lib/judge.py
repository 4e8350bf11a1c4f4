"""A plain evaluator, and what the program has to answer.

`judged` gives the answer to a run: status, standard output and standard error. `replay_fault` tells what is wrong with an
answer to a replay: it reads the schedule, but plays no event.
"""
import re

from texts import Refused, read_bench, read_schedule, read_settings, read_stimulus


def table(kind, values):
    values = ["x" if value == "z" else value for value in values]
    base = {"NAND": "AND", "NOR": "OR", "XNOR": "XOR", "NOT": "BUFF"}.get(kind, kind)
    if base == "AND":
        value = "0" if "0" in values else "x" if "x" in values else "1"
    elif base == "OR":
        value = "1" if "1" in values else "x" if "x" in values else "0"
    elif base == "XOR":
        value = "x" if "x" in values else str(values.count("1") % 2)
    else:
        value = values[0]
    return value if base == kind else {"0": "1", "1": "0", "x": "x"}[value]


def flip(content, before, now, data):
    data = "x" if data == "z" else data
    if (before, now) == ("0", "1"):
        return data
    if before == "0" and now in "xz" or before in "xz" and now == "1":
        return content if content == data else "x"
    return content


def values_of(nets, settings, signals, until):
    """For each time the values of all nets."""
    given = {name: dict(changes) for name, changes in signals.items()}
    index = {name: i for i, (name, _, _) in enumerate(nets)}
    found, contents = [], {}
    at = lambda time, i: found[time][i] if time >= 0 else "x"
    content = lambda name, time: contents[name][time] if time >= 0 else settings.contents[name]
    for time in range(until + 1):
        row = []
        for i, (name, kind, inputs) in enumerate(nets):
            if kind == "INPUT":
                row.append(given[name].get(time, at(time - 1, i)))
            elif kind == "DFF":
                row.append(content(name, time - settings.delays[name]))
            else:
                past = time - settings.delays[name]
                row.append(table(kind, [at(past, index[used]) for used in inputs]) if past >= 0 else "x")
        found.append(row)
        for name, kind, inputs in nets:
            if kind == "DFF":
                clock = index[settings.clocks[name]]
                states = contents.setdefault(name, [])
                states.append(flip(content(name, time - 1), at(time - 1, clock), row[clock], at(time - 1, index[inputs[0]])))
    return found


def code(net):
    return chr(33 + net % 94) + (code(net // 94 - 1) if net >= 94 else "")


def dump(nets, unit, found):
    lines = [f"$timescale {unit[0]} {unit[1]} $end", "$scope module top $end"]
    lines += [f"$var wire 1 {code(i)} {name.decode()} $end" for i, (name, _, _) in enumerate(nets)]
    lines += ["$upscope $end", "$enddefinitions $end", "#0", "$dumpvars"]
    lines += [value + code(i) for i, value in enumerate(found[0])] + ["$end"]
    for time in range(1, len(found)):
        moved = [i for i in range(len(nets)) if found[time][i] != found[time - 1][i]]
        if moved or time == len(found) - 1:
            lines += [f"#{time}"] + [found[time][i] + code(i) for i in moved]
    return ("\n".join(lines) + "\n").encode()


def judged(bench, settings, stimulus, until):
    """What a run answers, as status, output and fault line."""
    try:
        nets = read_bench(bench)
        settings = read_settings(settings, nets)
        if settings.added is not None:
            nets.append((settings.added, "INPUT", []))
        inputs = [(i, name) for i, (name, kind, _) in enumerate(nets) if kind == "INPUT"]
        signals, unit = read_stimulus(stimulus, inputs, settings.scope)
    except Refused as refusal:
        status, line = refusal.args
        return status, b"", (line + "\n").encode()
    return 0, dump(nets, unit, values_of(nets, settings, signals, until)), b""


def replay_fault(bench, settings, stimulus, schedule, until, blocks, answer):
    """What is wrong with an answer to a replay, as status, output and fault line; None for nothing."""
    try:
        events = read_schedule(schedule)
    except Refused as refusal:
        status, line = refusal.args
        return None if answer == (status, b"", (line + "\n").encode()) else f"the judge says {line!r}"
    if answer[0] == 0:
        return None if answer == judged(bench, settings, stimulus, until) else "the judge has another dump"
    line, missing = answer[2].decode(errors="replace"), [i for i, it in enumerate(events, 1) if it[0] == "advance" and it[1] >= blocks]
    if answer[0] != 3 or answer[1]:
        return "neither a dump nor a refused event"
    refused = re.fullmatch(r"event ([0-9]+): (NoSuchBlock|NoSuchMessage)\n", line)
    if not refused:
        left = re.fullmatch(r"unfinished at ([0-9]+)\n", line)
        return None if left and int(left[1]) <= until and not missing else "not one fault line of a replay"
    at = int(refused[1])
    if refused[2] == "NoSuchBlock":
        return None if missing and missing[0] == at else "another block is missing"
    is_lawful = at <= len(events) and events[at - 1][0] == "deliver" and not any(it < at for it in missing)
    return None if is_lawful else "another event is refused"
