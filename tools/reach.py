"""The definitions of the crates' specs that no contract reaches are words of proofs. One that no proof uses either says nothing, and
one that a lemma states whole is a law that nobody claims: no clause keeps it from being weakened, or left out."""
import re
from collections import defaultdict

# A name is declared at the left edge or, in a module with parameters, two columns in. Lines of its equations follow.
DECLARED = re.compile(r"(?:  (?!pub [^\s:]+ ?:))?((?:(?:abbrev|unfoldable|pub|record|data) )*)([^\s:(){}]+)(?: [({].*?)? ?:")
USE = re.compile(r"\buse (?:pub )?Rattle\.([\w-]+(?:\.[\w-]+)*)(?:\.\{((?:[^{}]|\{[^}]*\})*)\}| as (\w+))?")
# Between the braces of an import: a path with braces of its own, or a name, which may have a path before it.
ITEM = re.compile(r"\s*(?:([\w.-]+)\.\{([^}]*)\}|([^,{}]+))")
WORD = re.compile(r"[^\s(){}\[\],;:]+")
LEMMA = re.compile(r"^(?:  )?(?:pub )?[^\s:]+ : (\S+)$", re.M)


def names_in(module, braces):
    """Each name between the braces of an import, with the module that it comes from, and the word that it has here."""
    for path, inner, item in ITEM.findall(braces):
        for name in inner.split(",") if path else [item]:
            there, _, here = name.strip().partition(" as ")
            front, _, last = there.rpartition(".")
            if there:
                yield ".".join(filter(None, (module, path, front))), last, here or last


def passed_on(texts):
    """Where a prelude has each name from that it passes on (`pub use`): pairs of a module and a name."""
    found = {}
    for path, text in texts.items():
        for line in re.findall(r"(?m)^(?:unfoldable )?pub use Rattle.*", text):
            for module, names, _ in USE.findall(line):
                found.update({(module_of(path), here): (there, name) for there, name, here in names_in(module, names)})
    return found


def imports_in(text, passed):
    """What each word of a file may mean that comes from elsewhere: pairs of a module and the name there, or of a module and none."""
    found = defaultdict(set)
    for module, names, alias in USE.findall(text):
        for there, name, here in names_in(module, names):
            found[here].add(passed.get((there, name), (there, name)))
        if not names:
            found[alias or module.rpartition(".")[2]].add((module, None))
    return found


def definitions_in(text):
    """Each name that a file of specs declares, with all its lines."""
    found, name = defaultdict(list), None
    for line in text.splitlines():
        declared = DECLARED.match(line)
        if declared and (declared[1] or not line.startswith(" ")):
            name = declared[2]
        elif line.startswith(("use ", "module ", "mutual")):
            name = None
        if name:
            found[name].append(line)
    return {name: "\n".join(lines) for name, lines in found.items()}


class Reach:
    """What uses what. A definition is a pair of its module and its name."""

    def __init__(self, sources):
        self.files, self.uses = {}, {}
        self.claimed, self.cited, self.stated = set(), set(), set()
        texts = {path: re.sub(r"(?m)(?:^|(?<=\s))(?:--|//).*", "", text) for path, text in sources.text.items()}
        passed = passed_on(texts)
        specs = {path: definitions_in(text) for path, text in texts.items() if "/specs/" in path}
        for path, found in specs.items():
            self.files.update({(module_of(path), name): path for name in found})
        for path, found in specs.items():
            imports, module = imports_in(texts[path], passed), module_of(path)
            self.uses.update({(module, name): self.named(lines, imports, module) - {(module, name)} for name, lines in found.items()})
        for path, text in texts.items():
            imports = imports_in(text, passed)
            if path.endswith(".rt"):
                self.claimed |= self.named(USE.sub("", text), imports)
            elif "/proofs/" in path:
                self.cited |= self.named(USE.sub("", text), imports)
                self.stated |= self.named("\n".join(LEMMA.findall(text)), imports)

    def meant(self, module, name):
        """The definition that an import names: one of a file, or the one whose constructor or field it is."""
        inside, _, owner = module.rpartition(".")
        return next((it for it in [(module, name), (inside, owner)] if it in self.files), None)

    def named(self, text, imports, module=None):
        """The definitions that a text names, which stands in this module if it is one of specs."""
        found = set()
        for word in set(WORD.findall(text)):
            front, _, rest = word.partition(".")
            found |= {(module, word), (module, front)} & self.files.keys()
            for there, name in imports.get(word, set()) | imports.get(front, set()):
                found.add(self.meant(there, name or rest.partition(".")[0]))
        return found - {None}

    def from_these(self, roots):
        reached, left = set(roots), list(roots)
        while left:
            more = self.uses[left.pop()] - reached
            reached |= more
            left += more
        return reached


def module_of(path):
    """What stands behind `use Rattle.` for a file of specs."""
    return path.removeprefix("crates/").removesuffix(".antt").replace("/", ".")


def failures(sources):
    reach = Reach(sources)
    claimed = reach.from_these(reach.claimed)
    used = reach.from_these(reach.claimed | reach.cited)
    for it in sorted(reach.files.keys() - claimed):
        if it not in used:
            yield f"{reach.files[it]}: {it[1]} is used by no contract and no proof"
        elif it in reach.stated:
            yield f"{reach.files[it]}: {it[1]} is a law that a lemma states and no clause claims"
