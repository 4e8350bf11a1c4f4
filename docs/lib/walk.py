"""What is reached from a definition: the definitions that it names, and what these name in turn."""

import re

from definitions import CRATES, file_of, home_of, listed, meant_by, origin, spoken_in, stands_on
from sources import models, parts_of, said_of, sources, types


def kinds_in(head):
    """The types that a definition's first line gives its parameters and its result."""
    bound = re.findall(r"\([^():]* : ((?:[^()]|\([^()]*\))*)\)", head)
    return [*bound, *(part.strip() for part in head.partition(" : ")[2].split("→"))]


def is_named_with(owner, name, key):
    """Whether a source file that cites a definition names a type too: many models may have a value of plain lists."""
    for crate in listed():
        for source in sources(crate):
            if key in {home_of(*found) for found in source.spoken.values()}:
                if (owner, name) in {(path.split(".")[0], real) for path, real in source.used.values()} or crate == owner:
                    return True
    return False


class Walk:
    """The definitions that are reached, of crate, file and name, each after those that it names, with its lines; and the
    types and the words that have no definition here."""

    def __init__(self):
        self.reached, self.types, self.words = {}, {}, set()
        self.known, self.facts = set(), []
        self.naming, self.within = {}, ""

    def name(self, path, word):
        """Follows a name that stands under a path."""
        path, word = origin(path, word)
        steps, home = path.split("."), home_of(path, word)
        if home:
            self.definition(*home)
        elif "declared" in steps:
            self.declared(steps[1], [step for step in (*steps[steps.index("declared") + 1 :], word)])
        else:
            self.words.add(f"{path.removeprefix('Rattle.')}.{word}")

    def definition(self, crate, file, word):
        """Follows a definition; a member stands for the one that it is a member of."""
        blocks = file_of(crate, file).blocks
        word = word if word in blocks else file_of(crate, file).members.get(word, word)
        key = (crate, file, word)
        if key in self.reached or word not in blocks:
            return
        self.reached[key], before = None, self.within
        for path, name in spoken_in(*key):
            self.within = "\n".join(blocks[word])
            self.name(path, name)
        self.within = before
        del self.reached[key]
        self.reached[key] = sum(1 for line in blocks[word] if line.strip())

    def declared(self, crate, steps):
        """Follows what the sources declare: of a type its fields, and of a model what contracts see of it."""
        names = [step for step in steps if not step.startswith("The")]
        is_own = (CRATES / crate).is_dir()
        name = next((step for step in names if is_own and step in types(crate)), None)
        plain = names[:-1] if "TheVariants" in steps or "TheInside" in steps else names
        key = ".".join([crate, *dict.fromkeys(plain)])
        self.types[key] = is_own
        if name:
            self.naming[crate, name] = self.naming.get((crate, name), "") + self.within
            self.type(crate, name)

    def type(self, crate, name):
        """Follows the view of a type, and of its fields those that are looked at. The facts that it states of itself are kept
        for `facts_too`."""
        views, facts, spoken = said_of(crate, name)
        if (crate, name) not in self.known:
            self.known.add((crate, name))
            self.text("\n".join(views), spoken)
            self.facts += [(fact, spoken) for fact in facts]
        looked = "\n".join([*views, self.naming.get((crate, name), "")])
        for field, *part in parts_of(crate, name):
            if tuple(part) not in self.known and (not views or re.search(rf"\.{field}\b", looked)):
                self.type(*part)

    def facts_too(self):
        """Follows the invariants of the types that were reached, and of those that these reach."""
        while self.facts:
            self.text(*self.facts.pop(0))

    def text(self, text, spoken):
        """Follows the names of a clause, where a source brings these in."""
        for found in meant_by(text, spoken):
            self.name(*found)

    def start(self, crate, file, word):
        """Follows a definition, and what contracts see of the models whose values it is said of."""
        head = next(line for line in file_of(crate, file).blocks[word] if not line.lstrip().startswith("--"))
        here = f"Rattle.{crate}.specs.{file.replace('/', '.')}"
        known = file_of(crate, file).imports | {name: (here, name) for name in file_of(crate, file).blocks}
        said = {home_of(*found) for found in meant_by(head.replace(" : ", " "), known)} - {None}
        for owner, name, value, spoken in models():
            if owner not in stands_on(crate) and crate not in stands_on(owner):
                continue
            values = {home_of(*found) for found in meant_by(value, spoken)}
            is_declared = any("declared" in path for path, _ in meant_by(value, spoken))
            is_alike = is_declared and value.strip(" {}") in kinds_in(head)
            if said & values or is_alike and is_named_with(owner, name, (crate, file, word)):
                self.type(owner, name)
        self.definition(crate, file, word)
