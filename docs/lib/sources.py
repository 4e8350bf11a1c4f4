"""The types of the crates' sources: what each is made of, and by which definitions contracts see it."""

import re
from dataclasses import dataclass
from functools import cache

from definitions import CRATES, USE, brought, listed

DECLARED = re.compile(r"(?m)^(?:pub(?:\(crate\))? )?(?:struct|enum) (\w+)[^;{]*(?:;|\{(?:.*\}$|(?:.*\n)*?\}$))")
MODEL = re.compile(r"(?m)^impl(?:<[^>]*>)? Model for (\w+)(?:.*\n)*?\}$")
GHOST = re.compile(r"ghost (\w+)(?: *:| *=)([^;]*?)(?:;|,$|\}$)", re.MULTILINE)


@dataclass(frozen=True)
class Source:
    """A file of sources: its text without comments, and the names that it brings in from specs/ and from other crates."""

    crate: str
    text: str
    spoken: dict
    used: dict


def use_lines(text):
    """The `use` lines of a text, each on one line."""
    return [re.sub(r"\s+", " ", line).strip() for line in re.findall(r"(?m)^\s*(?:ghost |pub )*use [^;]*;", text)]


@cache
def sources(crate):
    found = []
    for path in sorted((CRATES / crate / "src").rglob("*.rt")):
        text = re.sub(r"(?m)^\s*//.*$", "", path.read_text())
        spoken, used = {}, {}
        for line in use_lines(text):
            is_ghost = line.startswith("ghost")
            (spoken if is_ghost else used).update(brought(line if is_ghost else line.replace("::", ".")))
        found.append(Source(crate, text, spoken, used))
    return found


@dataclass(frozen=True)
class Type:
    """A struct or an enum: its declaration, and of a model the `Value`, `view` and `invariant`."""

    source: Source
    declaration: str
    model: dict


@cache
def types(crate):
    """The types of a crate, by name."""
    found = {}
    for source in sources(crate):
        models = {match[1]: dict(GHOST.findall(match[0])) for match in MODEL.finditer(source.text)}
        for match in DECLARED.finditer(source.text):
            found[match[1]] = Type(source, match[0], models.get(match[1], {}))
    return found


FIELD = re.compile(r"^\s*(?:pub(?:\(crate\))? )?(\w+):? ?(.*)$")


def parts_of(crate, name):
    """The types of the repository that a type is made of, as field, crate and name."""
    made = types(crate)[name]
    lines = made.declaration.partition("{")[2].splitlines() or [f"0: {made.declaration.partition('(')[2]}"]
    for field, kind in (FIELD.match(line).groups() for line in lines if FIELD.match(line)):
        for word in dict.fromkeys(re.findall(r"\b[A-Z]\w*", kind)):
            path, real = made.source.used.get(word, ("", word))
            home = path.split(".")[0] if path.split(".")[0] in listed() else crate
            if word != name and real in types(home):
                yield field, home, real


def said_of(crate, name):
    """How contracts see a type: the texts of its view, those of the facts that are true of it, and the names in them."""
    made = types(crate)[name]
    views = [made.model[word] for word in ("view",) if word in made.model]
    facts = [made.model[word] for word in ("invariant",) if word in made.model]
    return views, facts + [text for _, text in GHOST.findall(made.declaration)], made.source.spoken


@cache
def models():
    """The types that are models, as crates and names, each with its `Value`'s text and the names in it."""
    return [(crate, name, made.model["Value"], made.source.spoken)
            for crate in listed() for name, made in types(crate).items() if "Value" in made.model]
