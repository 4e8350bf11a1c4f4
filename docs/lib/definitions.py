"""The definitions of specs/, of the repository's crates and of the kit's, and which of them name which."""

import pathlib
import re
import subprocess
from functools import cache

CRATES = pathlib.Path(__file__).resolve().parent.parent.parent / "crates"
HEAD = re.compile(r"^(?:  )?(?:(?:abbrev|unfoldable) )?(?:pub )?(?:(?:record|data) )?([^\s:()]+)(?= .*[:(]| :)")
MEMBER = re.compile(r"^\s+(?:pub )?([^\s:()]+) :")
WORD = re.compile(r"[^\s(){}\[\],;]+")
USE = re.compile(r"\s*(?:(?:abbrev|unfoldable|ghost) )?(?:pub )?use ")
NO_HEADS = {"infix", "infixl", "infixr", "module", "mutual", "syntax", "--"}


@cache
def kit():
    """The folder of the kit's crates; None where no kit is at hand."""
    try:
        told = subprocess.run(["rt", "doc"], capture_output=True, text=True, check=True).stdout
    except (OSError, subprocess.CalledProcessError):
        return None
    folder = pathlib.Path(told.splitlines()[0]).parent / "rattle"
    return folder if folder.is_dir() else None


def crates():
    """The repository's crates, lowest first, each with those that it is said to stand on."""
    lines = (CRATES.parent / "crates.txt").read_text().splitlines()
    parts = [line.partition(":") for line in lines if line.strip() and line[0] != "#"]
    return {head.split()[0]: below.split() for head, _, below in parts}


def listed():
    """The repository's crates, lowest first."""
    return list(crates())


def stands_on(crate):
    """The crates that a crate stands on, itself among them."""
    return {crate, *crates().get(crate, [])}


def folder_of(crate):
    """Where a crate lies; None for the logic's own libraries, and where the kit isn't at hand."""
    for top in (CRATES, kit()):
        if top and (top / crate / "specs").is_dir():
            return top / crate
    return None


def brought(line):
    """The names that a `use` line brings in, each with the path and the name that it has there."""
    path, is_group, names = USE.sub("", line).partition(".{")
    if not is_group:
        path, _, alias = path.rstrip(" ;").partition(" as ")
        above, _, last = path.rpartition(".")
        return {alias or last: (above, last)}
    parted = [item.strip().partition(" as ") for item in names.rstrip("}; ").split(",")]
    return {alias or name: (path, name) for name, _, alias in parted}


class File:
    """The names that a file of specs/ brings in, the lines of each of its definitions, and the members
    of what is declared by `data`."""

    def __init__(self, crate, name):
        self.imports, self.blocks, self.members = {}, {}, {}
        pending, current = [], None
        for line in (folder_of(crate) / f"specs/{name}.antt").read_text().splitlines():
            if USE.match(line):
                self.imports |= brought(line)
            elif not line.strip() or line.split()[0] in NO_HEADS - {"--"}:
                pending, current = [] if current is None else pending, None
            elif line.lstrip().startswith("--") and current is None:
                pending.append(line)
            elif current is None and (head := HEAD.match(line)):
                current, is_data = head[1], re.search(r"\bdata ", line)
                self.blocks.setdefault(current, []).extend([*pending, line])
                pending = []
            elif current:
                self.blocks[current].append(line)
                member = MEMBER.match(line)
                if member and is_data:
                    self.members[member[1]] = current


@cache
def file_of(crate, name):
    folder = folder_of(crate)
    return File(crate, name) if folder and (folder / f"specs/{name}.antt").exists() else None


def names_in(text):
    """The names of a text, with what stands before a dot of each; not a bound name or a field that is given."""
    text = "\n".join(line.partition("-- ")[0] for line in text.splitlines())
    found = [word.strip(".") for word in WORD.findall(text)]
    after = [*found[1:], ""]
    return list(dict.fromkeys(word for word, next in zip(found, after) if word and next not in ("=", ":")))


def is_spoken(name, words):
    """Whether a name is among the words; of an operator, whether its parts are."""
    return all(part in words for part in name.split("◌") if part) if "◌" in name else name in words


def meant(word, imports):
    """What a word means where these names are brought in, as a path and a name; None for another word."""
    head, _, rest = word.partition(".")
    if word in imports or not rest:
        return imports.get(word)
    path, real = imports.get(head, (None, None))
    is_module = path is not None and not home_of(path, real) and "declared" not in path.split(".")
    return (f"{path}.{real}", rest.partition(".")[0]) if is_module or real == "TheVariants" else imports.get(head)


def meant_by(text, imports):
    """The paths and names that a text speaks of, where these names are brought in."""
    words = names_in(text)
    mixed = [name for name in imports if "◌" in name and is_spoken(name, words)]
    return [found for word in (*words, *mixed) if (found := meant(word, imports))]


def sides(lines, word):
    """The left sides of a definition's equations, and all the rest of it."""
    left, right = [], []
    for line in lines:
        if line.lstrip().startswith("--"):
            continue
        before, equals, after = line.partition(" =")
        is_equation = equals and line.split()[0] == word and not line.lstrip().startswith(f"{word} :")
        left += [before] if is_equation else []
        right.append(after if is_equation else line)
    return "\n".join(left), "\n".join(right)


@cache
def module_of(path):
    """The crate and the file of specs/ that a path means, through the files that pass modules on; None for no such file."""
    steps = path.split(".")
    if steps[0] != "Rattle" or len(steps) < 4 or "declared" in steps or not folder_of(steps[1]):
        return None
    crate, inner = steps[1], steps[3:]
    if file_of(crate, "/".join(inner)):
        return crate, "/".join(inner)
    for depth in range(len(inner)):
        above = file_of(crate, "/".join(inner[:depth]) or "Lib")
        if above and inner[depth] in above.imports:
            return module_of(".".join([*above.imports[inner[depth]], *inner[depth + 1 :]]))
    return None


def origin(path, word):
    """Where a name that stands under a path comes from, through the files that pass the name on: a path and a name."""
    home = module_of(path)
    file = home and file_of(*home)
    if file and word not in file.blocks and word not in file.members and word in file.imports:
        return origin(*file.imports[word])
    return path, word


def home_of(path, word):
    """The crate, file and definition that a path and a name mean; None for a name without a file."""
    path, word = origin(path, word)
    home = module_of(path)
    return (*home, word) if home else None


def is_pattern(path, word):
    """Whether a left side may have the name: a variant's, or that of a member."""
    home = home_of(path, word)
    return home is None and not path.startswith("Rattle.std.specs.Prelude") or home is not None and word in file_of(*home[:2]).members


def spoken_in(crate, name, word):
    """The paths and names that a definition speaks of."""
    file = file_of(crate, name)
    here = f"Rattle.{crate}.specs.{name.replace('/', '.')}"
    known = file.imports | {own: (here, own) for own in (*file.members, *file.blocks) if own != word}
    left, right = sides(file.blocks[word], word)
    said = meant_by(right, known)
    return [*said, *(found for found in meant_by(left, known) if found not in said and is_pattern(*found))]
